//! Order 10's faults: in what a rounding skipped, in the gaps, in what a refused placement leaves.
use super::{BEYOND, Fault, offset};
use crate::calls::{Question, WRITTEN};
use crate::compare::{GUARD, bytes_of};
use crate::encode;
use crate::model::{self, number, words_of};
use crate::original::Outcome;
use crate::port::{Answered, Call, Cell, Function};

/// Which of a placement's buffers holds what.
const OFFSETS: usize = 0;
const GAPS: usize = 1;

impl Fault {
    pub(super) fn in_padding(self, answered: &mut Answered) {
        match answered.call.function {
            Function::AlignTo if self == Fault::SkippedAfter => {
                answered.answer = encode::SKIPPED.without(answered.answer);
            }
            Function::Placement => {
                self.in_gaps(answered);
                self.in_last_gap_byte(answered);
                self.in_refused(answered);
                self.in_placement_answer(answered);
            }
            _ => {}
        }
    }

    /// The gaps that an accepted placement wrote are wrong.
    fn in_gaps(self, answered: &mut Answered) {
        let (call, answer) = (&answered.call, answered.answer);
        let lent = lent(&mut answered.after[GAPS]);
        let mut words = words_of(lent);
        let members = references(call);
        if encode::refusal(answer) != 0 || words.len() < members {
            return;
        }
        let after = encode::GAP_AFTER.of(answer) as u32;
        let (gaps, rest) = words.split_at_mut(members);
        match self {
            Fault::NoGaps => gaps.fill(0),
            Fault::GapBehind if members > 0 => {
                gaps.rotate_left(1);
                gaps[members - 1] = after;
            }
            Fault::GapOfEmpty => hand_on_empty(call, gaps),
            Fault::GapAtTheEnd if !rest.is_empty() => rest[0] = after,
            Fault::MiddleGaps if (257..=2_048).contains(&members) => gaps[256..].fill(0),
            Fault::LateGaps if members > 2_048 => gaps[2_048..].fill(0),
            Fault::ByteGap if members == 17 && call.cell == Cell::Byte => gaps[16] = 0,
            _ => return,
        }
        lent[..4 * words.len()].copy_from_slice(&bytes_of(&words));
    }

    /// The last byte of the gap buffer is changed over bytes, where no call may look at it.
    fn in_last_gap_byte(self, answered: &mut Answered) {
        let lent = lent(&mut answered.after[GAPS]);
        let is_beyond = match self {
            Fault::GapByteTail => lent.len() % 4 != 0,
            Fault::LongGaps => lent.len() >= BEYOND,
            _ => false,
        };
        if is_beyond && answered.call.cell == Cell::Byte {
            *lent.last_mut().expect("a byte that is beyond") ^= 1;
        }
    }

    /// A refused placement has written the first word of a buffer: 0, as the first offset and the first gap are.
    fn in_refused(self, answered: &mut Answered) {
        // The first member alone is never too large.
        let at = answered.answer as u32 as usize;
        let is_last = at > 0 && at + 1 == references(&answered.call);
        let buffer = match (self, encode::refusal(answered.answer)) {
            (Fault::LastTooLarge, number::TOO_LARGE) if is_last => OFFSETS,
            (Fault::SizeTooLarge, number::TOO_LARGE) if at == 0 => GAPS,
            (Fault::NoRoomForGaps, number::NO_ROOM) if has_room(answered, OFFSETS) => OFFSETS,
            (Fault::NoRoomForOffsets, number::NO_ROOM) if has_room(answered, GAPS) => GAPS,
            _ => return,
        };
        if let Some(first) = lent(&mut answered.after[buffer]).get_mut(..4) {
            first.fill(0);
        }
    }

    fn in_placement_answer(self, answered: &mut Answered) {
        answered.answer = match (self, encode::refusal(answered.answer)) {
            (Fault::LastAlignment, 0) => encode::GAP_AFTER.without(answered.answer),
            (Fault::OneRoom, number::NO_ROOM) if has_room(answered, OFFSETS) => {
                with_room(&answered.call)
            }
            _ => return,
        };
    }

    /// One byte more after the last member, where this is the fault.
    pub fn one_byte_more(self, fault: Option<Fault>, after: &mut u64) {
        if fault == Some(self) {
            *after += 1;
        }
    }

    /// What is wrong with the gaps that follow from a placement of the original.
    pub fn original_gaps(fault: Option<Fault>, outcome: &mut Outcome) {
        let Outcome::Is(answer, [_, gaps]) = outcome else {
            return;
        };
        match (fault, gaps.last_mut()) {
            (Some(Fault::OriginalGap), Some(last)) => *last += 1,
            (Some(Fault::OriginalAfter), Some(_)) => {
                let after = encode::GAP_AFTER.of(*answer);
                *answer = encode::GAP_AFTER.with(*answer, after + 1);
            }
            _ => {}
        }
    }
}

/// How many references a placement has.
fn references(call: &Call) -> usize {
    call.slices[1].len() / 4
}

/// Whether a buffer has a word for each reference.
fn has_room(answered: &Answered, buffer: usize) -> bool {
    let words = answered.after[buffer].len() / 4 - 2 * GUARD;
    words >= references(&answered.call)
}

/// A buffer without its guards.
fn lent(after: &mut [u8]) -> &mut [u8] {
    let lent = offset(0)..after.len() - offset(0);
    &mut after[lent]
}

/// The gaps by the fault `GapOfEmpty`.
fn hand_on_empty(call: &Call, gaps: &mut [u32]) {
    let [table, references, _] = call.slices.map(words_of);
    let sizes = model::member_sizes(call.numbers[0], &table, &references);
    for member in 1..gaps.len() {
        if sizes[member - 1] == 0 {
            gaps[member] += std::mem::take(&mut gaps[member - 1]);
        }
    }
}

/// What a placement answers with room for every offset and gap.
fn with_room(call: &Call) -> u64 {
    let [table, references, _] = call.slices.map(words_of);
    let [mut offsets, mut gaps] = [(); WRITTEN].map(|()| vec![0; references.len()]);
    let question = Question::Placement {
        memory: call.numbers[0],
        rooms: [references.len(); WRITTEN],
        references,
    };
    let written = [&mut offsets[..], &mut gaps];
    encode::answer(model::ask(&question, &table, call.numbers[1], written))
}
