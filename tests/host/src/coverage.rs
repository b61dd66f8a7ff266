//! Which calls were put to the port, and which refusals were due: a whole run that leaves out a call
//! over words or over bytes, one of the numbers that its k chooses, a refusal of it, or its report of rows
//! read back, of bytes skipped or of gaps, does not pass for one.
use crate::calls::WRITTEN;
use crate::compare::GUARD;
use crate::encode;
use crate::model::words_of;
use crate::port::{Call, Cell, Function};
use Function::*;

/// Each function, and the refusals that 01 has for it.
const REFUSALS: [(Function, &[u64]); 22] = [
    (AlignTo, &[6, 8]),
    (Max, &[]),
    (AddFlat, &[]),
    (MaxFlat, &[]),
    (NextField, &[6, 8]),
    (Flags, &[5]),
    (Enum, &[5]),
    (FixedLengthList, &[6, 8]),
    (Discriminant, &[5]),
    (Record, &[6, 8]),
    (Variant, &[5, 6, 8]),
    (Build, &[1, 2, 3, 4, 5, 6, 7, 9]),
    (Type, &[4, 8]),
    (SizeAlign, &[4, 8]),
    (Placement, &[1, 4, 6, 7, 8]),
    (Flatten, &[1, 4, 5, 8]),
    (Lowering, &[1, 4, 8]),
    (Lifting, &[1, 4, 8]),
    (AsyncStart, &[1, 4, 8]),
    (AsyncReturn, &[1, 4, 8]),
    (ContainsBorrow, &[1, 4, 8]),
    (Functype, &[1, 4, 8]),
];

/// The most numbers that a call's k chooses from, and one more for a k above the last.
const CHOICES: usize = 10;

/// The outcomes of answers that report a byte skipped or a gap (order 10), or a row read back (order 6): numbers
/// that are no refusal's.
const SKIPPED: u64 = 28;
const GAP_BEFORE: u64 = 29;
const GAP_AFTER: u64 = 30;
const READ_BACK: u64 = 31;

/// What a function, asked with this choice, reports.
fn reports(function: Function, chosen: usize) -> &'static [u64] {
    match (function, chosen) {
        (AlignTo, _) | (NextField, 2..) => &[SKIPPED],
        (Build, _) => &[READ_BACK],
        (Placement, _) => &[GAP_BEFORE, GAP_AFTER, READ_BACK],
        _ => &[],
    }
}

/// Whether an accepted call reports more than nothing, in its answer or in its second buffer, guards and all.
fn is_reported(report: u64, call: &Call, answer: u64, second: &[u8]) -> bool {
    let number = match report {
        SKIPPED if call.function == AlignTo => encode::SKIPPED.of(answer),
        SKIPPED => answer,
        GAP_BEFORE => {
            let gaps = words_of(second).into_iter().skip(GUARD);
            gaps.take(call.slices[1].len() / 4)
                .max()
                .unwrap_or(0)
                .into()
        }
        GAP_AFTER => encode::GAP_AFTER.of(answer),
        _ => call.function.has_read(answer).into(),
    };
    encode::refusal(answer) == 0 && number > 0
}

/// By function, cell and choice, one bit for each outcome: bit 0 for an answer, bit r for refusal r, and those of
/// the reports.
pub struct Coverage([[[u32; CHOICES]; 2]; REFUSALS.len()]);

impl Coverage {
    pub fn new() -> Coverage {
        Coverage([[[0; CHOICES]; 2]; REFUSALS.len()])
    }

    /// What a call was due to answer, and to leave in its buffers.
    pub fn asked(&mut self, call: &Call, answer: u64, [_, second]: [&[u8]; WRITTEN]) {
        let chosen = match call.function.choice() {
            Some((place, last)) => call.numbers[place].min(last + 1) as usize,
            None => 0,
        };
        let seen = &mut self.0[call.function as usize][call.cell as usize][chosen];
        *seen |= 1 << encode::refusal(answer);
        for report in reports(call.function, chosen) {
            let is_new = *seen & 1 << report == 0;
            if is_new && is_reported(*report, call, answer, second) {
                *seen |= 1 << report;
            }
        }
    }

    /// What a whole run must have asked and this one has not.
    pub fn missing(&self) -> Vec<String> {
        let mut missing = Vec::new();
        for (function, refusals) in REFUSALS {
            let choices = function.choice().map_or(1, |(_, last)| last as usize + 2);
            for cell in [Cell::Word, Cell::Byte] {
                if cell == Cell::Byte && !function.is_lent_memory() {
                    continue;
                }
                let seen = &self.0[function as usize][cell as usize][..choices];
                for (k, seen) in seen.iter().enumerate() {
                    let outcomes = refusals.iter().chain(&[0]).chain(reports(function, k));
                    let unseen = outcomes.filter(|outcome| seen & 1 << **outcome == 0);
                    missing.extend(unseen.map(|outcome| {
                        let what = name(*outcome);
                        format!("{function:?} over {cell:?}s, k {k}: {what}")
                    }));
                }
            }
        }
        missing
    }
}

fn name(outcome: u64) -> String {
    match outcome {
        0 => "an answer".to_string(),
        SKIPPED => "bytes skipped".to_string(),
        GAP_BEFORE => "a gap before a member".to_string(),
        GAP_AFTER => "a gap after the last".to_string(),
        READ_BACK => "rows read back".to_string(),
        number => format!("refusal {number}"),
    }
}
