//! Order 10: "for every member the gap before it", "and the gap after the last".
use super::layout::{Layout, Placement};

/// The bytes of a record that no member has.
#[derive(PartialEq, Eq, Debug)]
pub struct Gaps {
    /// Before each member.
    pub before: Vec<u64>,
    pub after: u64,
}

/// Records of at most so many bytes are painted.
const PAINTED: u64 = 1 << 16;

/// Reckoned from where the members stand. What is small enough is painted too, and must come to the same.
pub fn gaps(members: &[Layout], placed: &Placement) -> Gaps {
    let reckoned = between_ends_and_starts(members, placed);
    if placed.layout.size <= PAINTED {
        let counted = by_painting(members, placed);
        assert_eq!(counted, reckoned, "the model's gaps in {members:?}");
    }
    reckoned
}

/// Paints each member's bytes, then counts those left bare up to each member's start and up to the record's end.
fn by_painting(members: &[Layout], placed: &Placement) -> Gaps {
    let mut is_painted = vec![false; placed.layout.size as usize];
    for (member, start) in members.iter().zip(&placed.starts) {
        let start = *start as usize;
        is_painted[start..start + member.size as usize].fill(true);
    }
    let mut looked_at = 0;
    let mut bare_up_to = |place: u64| {
        let bytes = &is_painted[looked_at..place as usize];
        looked_at = place as usize;
        bytes.iter().filter(|painted| !**painted).count() as u64
    };
    Gaps {
        before: placed
            .starts
            .iter()
            .map(|start| bare_up_to(*start))
            .collect(),
        after: bare_up_to(placed.layout.size),
    }
}

/// A gap is from the end before, 0 for the first, to the start; the last end is followed by the size.
fn between_ends_and_starts(members: &[Layout], placed: &Placement) -> Gaps {
    let mut end = 0;
    let mut before = Vec::with_capacity(members.len());
    for (member, start) in members.iter().zip(&placed.starts) {
        before.push(start - end);
        end = start + member.size;
    }
    let after = placed.layout.size - end;
    Gaps { before, after }
}
