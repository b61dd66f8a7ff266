//! Faults put into the port's answers or the original's, or into the rows of either that are tested by
//! themselves, to show that each is caught.
use crate::compare::{GUARD, bytes_of};
use crate::encode;
use crate::model::{
    self, BY_MEMORY, Definition, MOST_WORDS, ROW, Row, capacity, number, put_row, words_of,
};
use crate::port::{Answered, Call, Cell, Function};
use crate::reading;
use std::collections::HashSet;

mod functype;
mod padding;

/// What is wrong on purpose.
#[derive(Clone, Copy, PartialEq, Eq, Debug)]
pub enum Fault {
    /// A placement's last offset is one too great.
    OffsetOneOff,
    /// A refusal names the next definition or reference.
    PositionOneOff,
    /// The last word of a build's table is changed.
    TableWord,
    /// A word of a placement's buffer after the offsets is cleared.
    BufferTail,
    /// The flat types of the other memory.
    OtherMemory,
    /// BadRef is given where BadRow is due.
    WrongRefusal,
    /// Async return pushes lower's pointer (01, "Easy to get wrong").
    LowerPointer,
    /// Saturating as the Rust does, where 01 refuses (01, "Easy to get wrong").
    Saturates,
    /// The byte after the table's last whole word is written.
    ByteTail,
    /// A table of more than 16,384 words is refused over bytes, as if its rows were not there.
    LongTable,
    /// A type question's table is lent with one row less, though its rows still fit: another table, since its
    /// runs are shorter.
    CutTable,
    /// The last byte of a buffer of more than 16,384 words is changed over bytes.
    LongBuffer,
    /// The seventeenth reference of a list is lost over bytes.
    ShortList,
    /// A flat count of none is answered as 256.
    NoneAs256,
    /// An info whose flat count is above 255 is taken for one without a flat count.
    LargeCount,
    /// The parameters of a signature are answered for its results.
    OtherHalf,
    /// Rounding gives one alignment too much at a multiple.
    Rounding,
    /// Of more than 32 flags the group that is not full is lost.
    FullGroups,
    /// A definition is one deeper than its first reference, whatever the others are.
    FirstReference,
    /// A map is two deeper than its parts, as if its entry were a definition.
    EntryBetween,
    /// A build or a placement reports one row too many as read back.
    OneReadMore,
    /// A build counts the no-payload marks among what it read back.
    MarkRead,
    /// A build counts every word from 64 on as a reference, but for the mark.
    CountRead,
    /// A placement counts a definition once, however often its references name it.
    RepeatOnce,
    /// A refused build reports what it read back before.
    RefusedBuild,
    /// A refused placement reports what it read back before.
    RefusedPlacement,
    /// A rounding counts what it skipped from the value that it answers, and finds nothing.
    SkippedAfter,
    /// Every k above 1 chooses the moved end of a field.
    OldField,
    /// The gap after the last member is reckoned by that member's alignment, which leaves none.
    LastAlignment,
    /// A placement writes gaps of 0.
    NoGaps,
    /// Each gap stands one place too early: the one after a member is written for it.
    GapBehind,
    /// The gap before a member of no bytes is given to the next one.
    GapOfEmpty,
    /// The gap after the last member is written behind the others.
    GapAtTheEnd,
    /// The gaps of 257 to 2,048 members are lost from the 257th on.
    MiddleGaps,
    /// The gaps of more than 2,048 members are lost from there on.
    LateGaps,
    /// The seventeenth gap is lost over bytes.
    ByteGap,
    /// The byte after the gap buffer's last whole word is written.
    GapByteTail,
    /// The last byte of a gap buffer of more than 16,384 words is changed over bytes.
    LongGaps,
    /// A placement has written an offset before its last member is too large.
    LastTooLarge,
    /// A placement has written a gap before its size alone is too large.
    SizeTooLarge,
    /// A placement without room for the gaps has written an offset.
    NoRoomForGaps,
    /// A placement without room for the offsets has written a gap.
    NoRoomForOffsets,
    /// Room is tested for the offsets alone.
    OneRoom,
    /// The port's gaps come to one byte more, after the comparison, so that they agree with the model.
    PortSum,
    /// The last gap that follows from the original's offsets is one too great.
    OriginalGap,
    /// The gap after the last member that follows from the original's size is one too great.
    OriginalAfter,
    /// An async lift takes four flat parameters at most, as an async lower does.
    LiftTakesFour,
    /// An async lower takes sixteen flat parameters, as every other call does.
    LowerTakesSixteen,
    /// What an async call returns is a pointer in a 64-bit memory.
    WideStatus,
    /// A callback's I32 is returned by a sync lift too.
    SyncStatus,
    /// An async lift returns an I32 without a callback.
    StatusAlways,
    /// An async lower gets a pointer for each result list that is not empty (01's async return).
    PointerToNothing,
    /// An async lower gets no pointer for results without a flat count.
    NoneIsNothing,
    /// The same where by the standard, which has no such count, there are no flat types.
    StandardsNothing,
    /// A sync lift appends a pointer parameter for a large result.
    LiftAppends,
    /// A sync lower whose parameters are behind a pointer has none to its results.
    OnePointer,
    /// The appended pointer counts among the parameters, and they go behind a pointer.
    PointerCounted,
    /// Results are tested before parameters.
    ResultsFirst,
    /// The positions of results begin anew.
    PositionsAnew,
    /// Only 1 is taken for a yes.
    OnlyOne,
    /// The last parameter that the original's parts give is lost.
    OriginalParams,
    /// The port's built rows have the memories exchanged, after the comparison, so that they agree with the model.
    PortMemories,
    /// The same of the original's.
    OriginalMemories,
    /// The original's rows have a size one too great.
    OriginalSize,
    /// The original's lists have another first type.
    OriginalList,
}

pub const FAULTS: [Fault; 65] = [
    Fault::OffsetOneOff,
    Fault::PositionOneOff,
    Fault::TableWord,
    Fault::BufferTail,
    Fault::OtherMemory,
    Fault::WrongRefusal,
    Fault::LowerPointer,
    Fault::Saturates,
    Fault::ByteTail,
    Fault::LongTable,
    Fault::CutTable,
    Fault::LongBuffer,
    Fault::ShortList,
    Fault::NoneAs256,
    Fault::LargeCount,
    Fault::OtherHalf,
    Fault::Rounding,
    Fault::FullGroups,
    Fault::FirstReference,
    Fault::EntryBetween,
    Fault::OneReadMore,
    Fault::MarkRead,
    Fault::CountRead,
    Fault::RepeatOnce,
    Fault::RefusedBuild,
    Fault::RefusedPlacement,
    Fault::SkippedAfter,
    Fault::OldField,
    Fault::LastAlignment,
    Fault::NoGaps,
    Fault::GapBehind,
    Fault::GapOfEmpty,
    Fault::GapAtTheEnd,
    Fault::MiddleGaps,
    Fault::LateGaps,
    Fault::ByteGap,
    Fault::GapByteTail,
    Fault::LongGaps,
    Fault::LastTooLarge,
    Fault::SizeTooLarge,
    Fault::NoRoomForGaps,
    Fault::NoRoomForOffsets,
    Fault::OneRoom,
    Fault::PortSum,
    Fault::OriginalGap,
    Fault::OriginalAfter,
    Fault::LiftTakesFour,
    Fault::LowerTakesSixteen,
    Fault::WideStatus,
    Fault::SyncStatus,
    Fault::StatusAlways,
    Fault::PointerToNothing,
    Fault::NoneIsNothing,
    Fault::StandardsNothing,
    Fault::LiftAppends,
    Fault::OnePointer,
    Fault::PointerCounted,
    Fault::ResultsFirst,
    Fault::PositionsAnew,
    Fault::OnlyOne,
    Fault::OriginalParams,
    Fault::PortMemories,
    Fault::OriginalMemories,
    Fault::OriginalSize,
    Fault::OriginalList,
];

impl Fault {
    /// What is wrong with the call itself.
    pub fn before(fault: Option<Fault>, call: &mut Call) {
        let numbers = &mut call.numbers;
        match (fault, call.function) {
            (Some(Fault::OtherMemory), Function::Flatten) => {
                numbers[0] = u32::from(numbers[0] == 0);
            }
            (Some(Fault::LargeCount), Function::FixedLengthList) => {
                numbers[4] = numbers[4].min(255);
            }
            (Some(Fault::OtherHalf), Function::AsyncStart) => numbers[4] = 0,
            (Some(Fault::OldField), Function::NextField) => numbers[7] = numbers[7].min(1),
            (Some(Fault::ShortList), Function::Flatten) if call.cell == Cell::Byte => {
                let list = &mut call.slices[1];
                if list.len() / 4 == 17 {
                    *list = &list[..64];
                }
            }
            (Some(Fault::CutTable), Function::Type) => {
                let table = &mut call.slices[0];
                let left = table.len().saturating_sub(4 * ROW);
                if numbers[0] as usize <= capacity(left / 4) {
                    *table = &table[..left];
                }
            }
            (Some(fault), Function::Functype) => fault.before_functype(call),
            _ => {}
        }
    }

    /// What is wrong with what came back.
    pub fn after(fault: Option<Fault>, answered: &mut Answered) {
        if let Some(fault) = fault {
            fault.in_memory(answered);
            fault.in_depths(answered);
            fault.in_padding(answered);
            fault.in_functype(&answered.call, &mut answered.answer);
            fault.in_reads(&answered.call, &mut answered.answer);
            fault.in_answer(&answered.call, &mut answered.answer);
        }
    }

    /// A byte of the lent memory is changed.
    fn in_memory(self, answered: &mut Answered) {
        let Answered {
            call,
            answer,
            after,
            ..
        } = answered;
        let references = call.slices[1].len() / 4;
        let words = call.cell == Cell::Word;
        let after = &mut after[0];
        // The guards go off at both ends.
        let lent = after.len().saturating_sub(2 * offset(0));
        let last = offset(0) + lent.saturating_sub(1);
        let place = match (self, call.function) {
            (Fault::OffsetOneOff, Function::Placement)
                if encode::refusal(*answer) == 0 && references > 0 =>
            {
                offset(references - 1)
            }
            (Fault::BufferTail, Function::Placement) if lent > 4 * references => offset(references),
            (Fault::TableWord, Function::Build) if words && lent > 0 => last,
            (Fault::ByteTail, Function::Build) if !words && lent % 4 != 0 => last,
            (Fault::LongBuffer, Function::Placement) if !words && lent >= BEYOND => last,
            _ => return,
        };
        after[place] ^= 1;
    }

    /// The depths in a built table are those of a wrong rule.
    fn in_depths(self, answered: &mut Answered) {
        let Answered { call, answer, .. } = answered;
        let depth: fn(&Definition, &[u32]) -> u32 = match (self, call.function) {
            (Fault::FirstReference, Function::Build) => over_first_reference,
            (Fault::EntryBetween, Function::Build) => over_entry,
            _ => return,
        };
        let after = &mut answered.after[0];
        let lent = offset(0)..after.len() - offset(0);
        let lent = &mut after[lent];
        let mut table = words_of(lent);
        let words = words_of(call.slices[0]);
        let built = reading::definitions(&words, encode::low(*answer) as usize);
        let mut depths = Vec::with_capacity(built.len());
        for (index, definition) in built.iter().enumerate() {
            depths.push(depth(definition, &depths));
            let mut row = model::row(&table, index);
            row[15] = row[15] % 2 + 2 * depths[index];
            put_row(&mut table, index, &row);
        }
        lent[..4 * table.len()].copy_from_slice(&bytes_of(&table));
    }

    /// The rows read back are counted by a wrong rule.
    fn in_reads(self, call: &Call, answer: &mut u64) {
        let Some(reads) = call.function.reads() else {
            return;
        };
        let is_refused = encode::refusal(*answer) != 0;
        if is_refused != matches!(self, Fault::RefusedBuild | Fault::RefusedPlacement) {
            return;
        }
        let due = reads.of(*answer);
        let [first, second, ..] = call.slices;
        let number = match (self, call.function) {
            (Fault::OneReadMore, _) => due + 1,
            (Fault::MarkRead, Function::Build) => due + over_built(first, *answer, marks),
            (Fault::CountRead, Function::Build) => named_by(&words_of(first)).count() as u64,
            (Fault::RepeatOnce, Function::Placement) => {
                named_by(&words_of(second)).collect::<HashSet<_>>().len() as u64
            }
            (Fault::RefusedBuild, Function::Build) => over_built(first, *answer, rows_named),
            (Fault::RefusedPlacement, Function::Placement) => {
                let mut references = words_of(second);
                references.truncate(references_read(*answer));
                named_by(&references).count() as u64
            }
            _ => return,
        };
        *answer = reads.with(*answer, number);
    }

    fn in_answer(self, call: &Call, answer: &mut u64) {
        let function = call.function;
        let refusal = encode::refusal(*answer);
        let is_question = function.is_question();
        match (self, function) {
            (Fault::LowerPointer, Function::AsyncReturn) => {
                let [lift_memory, _, lower_memory, _, _, k, ..] = call.numbers;
                let count = *answer >> 40;
                if refusal == 0 && k == 0 && lift_memory != 0 && lower_memory == 0 && count > 1 {
                    *answer &= !(3 << (2 * (count - 1)));
                }
            }
            (Fault::Rounding, Function::AlignTo) => {
                let [place, align, ..] = call.numbers;
                if *answer == u64::from(place) && align > 1 {
                    *answer += u64::from(align);
                }
            }
            (Fault::FullGroups, Function::Flags) if refusal == 0 => *answer -= of_last_group(call),
            (Fault::Saturates, Function::FixedLengthList) if refusal == 6 => {
                *answer = u64::from(u32::MAX);
            }
            (Fault::NoneAs256, Function::Type) if *answer == 255 && call.numbers[2] == 4 => {
                *answer = 256;
            }
            (Fault::WrongRefusal, _) if refusal == 8 && is_question => {
                *answer = *answer & (u64::MAX >> 8) | 4 << 56;
            }
            (Fault::PositionOneOff, _)
                if refusal != 0 && (is_question || function == Function::Build) =>
            {
                *answer += 1;
            }
            (Fault::LongTable, _) if refusal == 0 && is_question => {
                if call.cell == Cell::Byte && call.slices[0].len() >= BEYOND {
                    *answer = 8 << 56;
                }
            }
            _ => {}
        }
    }

    /// The two memories of a row exchanged, where this is the fault.
    pub fn exchange(self, fault: Option<Fault>, row: &mut Row) {
        if fault == Some(self) {
            for (narrow, wide) in BY_MEMORY {
                row.swap(narrow, wide);
            }
        }
    }

    pub fn original_row(fault: Option<Fault>, row: &mut Row) {
        if fault == Some(Fault::OriginalSize) {
            row[1] = row[1].wrapping_add(1);
        }
    }

    pub fn original_answer(fault: Option<Fault>, answer: u64) -> u64 {
        let list = answer != encode::MEMORY && answer >> 40 > 0;
        if fault == Some(Fault::OriginalList) && list {
            return answer ^ 1;
        }
        answer
    }
}

/// Bytes of one word more than a byte call looks at.
const BEYOND: usize = 4 * (MOST_WORDS + 1);

/// Where a word of lent memory stands among its bytes, guards before it.
fn offset(word: usize) -> usize {
    4 * (GUARD + word)
}

/// A definition's depth by the fault `FirstReference`, from those of the definitions before it.
fn over_first_reference(definition: &Definition, before: &[u32]) -> u32 {
    let first = definition.references().next();
    let named = first.and_then(|word| before.get(model::definition_named(word)?));
    1 + named.unwrap_or(&0)
}

/// The same by the fault `EntryBetween`.
fn over_entry(definition: &Definition, before: &[u32]) -> u32 {
    let deepest = definition.earlier().map(|index| before[index]).max();
    let entry = u32::from(definition.kind == 5);
    1 + entry + deepest.unwrap_or(0)
}

/// The sum over the definitions that a build accepted, by its description and its answer.
fn over_built(description: &[u8], answer: u64, of_one: fn(&Definition) -> usize) -> u64 {
    let words = words_of(description);
    let built = reading::definitions(&words, encode::low(answer) as usize);
    built.iter().map(of_one).sum::<usize>() as u64
}

/// How many no-payload marks a definition has.
fn marks(definition: &Definition) -> usize {
    let places = definition.references_and_marks().len();
    places - definition.references().count()
}

/// How many of its references name a row.
fn rows_named(definition: &Definition) -> usize {
    definition.earlier().count()
}

/// How many references a placement had read when it was refused: all before TooLarge, else those before the
/// position.
fn references_read(answer: u64) -> usize {
    match encode::refusal(answer) {
        number::TOO_LARGE => usize::MAX,
        _ => answer as u32 as usize,
    }
}

/// The words that would name a definition if each were a reference.
fn named_by(words: &[u32]) -> impl Iterator<Item = usize> {
    words
        .iter()
        .filter_map(|word| model::definition_named(*word))
}

/// What a last group that is not full adds to the number that k chooses: four bytes, or one type.
fn of_last_group(call: &Call) -> u64 {
    let [count, k, ..] = call.numbers;
    match k {
        _ if count <= 32 || count % 32 == 0 => 0,
        0 | 2 => 4,
        1 | 3 => 0,
        _ => 1,
    }
}
