//! 01's table of kinds: the one place of this program that finds a definition's references in given words.
use super::number;
use std::ops::Range;

/// "4294967295 means `no payload`, only in a variant or result."
pub const NO_PAYLOAD: u32 = 4_294_967_295;

/// A definition's words taken apart.
pub struct Definition<'a> {
    pub kind: u32,
    /// The number of members, cases, labels or elements; where no word tells it, that of the references.
    pub count: u64,
    /// From the kind to the last.
    pub words: &'a [u32],
    /// Where its references, and the marks in their places, stand among its words.
    pub places: Range<usize>,
}

impl<'a> Definition<'a> {
    /// The one that these words begin with: BadKind, then Truncated.
    pub fn read(words: &'a [u32]) -> Result<Definition<'a>, u64> {
        let word = |place: usize| words.get(place).copied().ok_or(number::TRUNCATED);
        let kind = words[0];
        let (count, places, length) = match kind {
            1 | 2 | 4 => {
                let end = 2 + word(1)? as usize;
                (word(1)?, 2..end, end)
            }
            3 | 8 => (1, 1..2, 2),
            5 | 9 => (2, 1..3, 3),
            6 | 7 => (word(1)?, 2..2, 2),
            10 => (word(2)?, 1..2, 3),
            _ => return Err(number::BAD_KIND),
        };
        Ok(Definition {
            kind,
            count: count.into(),
            words: words.get(..length).ok_or(number::TRUNCATED)?,
            places,
        })
    }

    pub fn references_and_marks(&self) -> &'a [u32] {
        &self.words[self.places.clone()]
    }

    /// Without the no-payload marks.
    pub fn references(&self) -> impl Iterator<Item = u32> {
        let words = self.references_and_marks().iter().copied();
        words.filter(|word| *word != NO_PAYLOAD)
    }

    /// The definitions that it refers to, each as often as it does.
    pub fn earlier(&self) -> impl Iterator<Item = usize> {
        let words = self.references_and_marks().iter();
        words.filter_map(|word| definition_named(*word))
    }
}

/// "64+j means definition j"; the mark and every word below name none.
pub fn definition_named(reference: u32) -> Option<usize> {
    match reference {
        0..64 | NO_PAYLOAD => None,
        _ => Some(reference as usize - 64),
    }
}

/// The definitions of a description, up to the first that is none by its kind or its length.
pub fn definitions(words: &[u32]) -> impl Iterator<Item = Definition<'_>> {
    let mut rest = words;
    std::iter::from_fn(move || {
        let definition = match rest {
            [] => None,
            _ => Definition::read(rest).ok(),
        }?;
        rest = &rest[definition.words.len()..];
        Some(definition)
    })
}
