//! One call of the boundary as numbers and lent memory.
pub use crate::calls::WRITTEN;
use crate::calls::{Leaf, Question, Side};
use crate::compare::GUARD;
use crate::encode::{BUILD_READS, Bits, PLACEMENT_READS};
use std::fmt;
use std::ops::Range;

/// The functions of the boundary. The numbers are `emulated/server.c`'s too.
#[derive(Clone, Copy, PartialEq, Eq, Debug)]
#[repr(u32)]
pub enum Function {
    AlignTo = 0,
    Max = 1,
    AddFlat = 2,
    MaxFlat = 3,
    NextField = 4,
    Flags = 5,
    Enum = 6,
    FixedLengthList = 7,
    Discriminant = 8,
    Record = 9,
    Variant = 10,
    Build = 11,
    Type = 12,
    SizeAlign = 13,
    Placement = 14,
    Flatten = 15,
    Lowering = 16,
    Lifting = 17,
    AsyncStart = 18,
    AsyncReturn = 19,
    ContainsBorrow = 20,
    Functype = 21,
}

impl Function {
    /// Whether it has a twin over bytes.
    pub fn is_lent_memory(self) -> bool {
        self as u32 >= Function::Record as u32
    }

    /// Whether it is put to a table.
    pub fn is_question(self) -> bool {
        self as u32 > Function::Build as u32
    }

    /// Where it reports the rows that it read back, if it does.
    pub fn reads(self) -> Option<Bits> {
        match self {
            Function::Build => Some(BUILD_READS),
            Function::Placement => Some(PLACEMENT_READS),
            _ => None,
        }
    }

    /// Whether an answer of it reports a row.
    pub fn has_read(self, answer: u64) -> bool {
        self.reads().is_some_and(|reads| reads.of(answer) > 0)
    }

    /// Of a function that answers one of several numbers: which of its own numbers is the k that
    /// chooses, and the last one that k can choose.
    pub fn choice(self) -> Option<(usize, u32)> {
        match self {
            Function::NextField => Some((7, 2)),
            Function::Flags | Function::Enum => Some((1, 4)),
            Function::FixedLengthList => Some((6, 4)),
            Function::Record => Some((0, 4)),
            Function::Variant => Some((0, 7)),
            Function::Type => Some((2, 8)),
            Function::AsyncStart => Some((4, 1)),
            Function::AsyncReturn | Function::Functype => Some((5, 1)),
            _ => None,
        }
    }
}

/// The most numbers and the most slices to read that a call takes.
pub const NUMBERS: usize = 8;
pub const SLICES: usize = 3;

/// Which unit the lent memory has: a call over words, or its twin over bytes.
#[derive(Clone, Copy, PartialEq, Eq, Debug)]
pub enum Cell {
    Word,
    Byte,
}

/// A call: its numbers in order without the slices' lengths, and its slices in order without those
/// that are written. Memory is held as bytes; words are little-endian ones at a multiple of four.
#[derive(Clone)]
pub struct Call<'a> {
    pub function: Function,
    pub cell: Cell,
    pub numbers: [u32; NUMBERS],
    pub slices: [&'a [u8]; SLICES],
}

/// A buffer that a call is lent to write, as bytes with guards before and after: as it is before the
/// call and as it must be afterwards. Both are empty where there is no such buffer.
#[derive(Clone, Copy)]
pub struct Lent<'a> {
    pub before: &'a [u8],
    pub expected: &'a [u8],
}

impl Lent<'_> {
    /// What the call is lent, without the guards.
    pub fn part(&self) -> Range<usize> {
        let guard = if self.before.is_empty() { 0 } else { 4 * GUARD };
        guard..self.before.len() - guard
    }
}

/// What a call must answer, and the buffers that it is lent to write.
#[derive(Clone, Copy)]
pub struct Due<'a> {
    pub answer: u64,
    pub written: [Lent<'a>; WRITTEN],
}

impl fmt::Debug for Call<'_> {
    /// As words where they are words, and no longer than a reader would look at.
    fn fmt(&self, f: &mut fmt::Formatter<'_>) -> fmt::Result {
        write!(
            f,
            "{:?} over {:?}s {:?}",
            self.function, self.cell, self.numbers
        )?;
        for slice in self.slices {
            match self.cell {
                Cell::Word => write!(f, " {:?}", crate::model::words_of(slice))?,
                Cell::Byte => write!(f, " {slice:?}")?,
            }
        }
        Ok(())
    }
}

fn numbers(given: &[u32]) -> [u32; NUMBERS] {
    let mut numbers = [0; NUMBERS];
    numbers[..given.len()].copy_from_slice(given);
    numbers
}

/// A leaf; `infos` is the memory of those that take infos or cases.
pub fn leaf<'a>(leaf: &Leaf, cell: Cell, infos: &'a [u8]) -> Call<'a> {
    let (function, numbers) = match *leaf {
        Leaf::AlignTo(a, b) => (Function::AlignTo, numbers(&[a, b])),
        Leaf::Max(a, b) => (Function::Max, numbers(&[a, b])),
        Leaf::AddFlat(a, b) => (Function::AddFlat, numbers(&[a, b])),
        Leaf::MaxFlat(a, b) => (Function::MaxFlat, numbers(&[a, b])),
        Leaf::NextField {
            memory,
            info: [size32, align32, size64, align64, flat],
            end,
            k,
        } => {
            let given = [memory, size32, align32, size64, align64, flat, end, k];
            (Function::NextField, given)
        }
        Leaf::Flags(count, k) => (Function::Flags, numbers(&[count, k])),
        Leaf::Enum(count, k) => (Function::Enum, numbers(&[count, k])),
        Leaf::FixedLengthList {
            info: [size32, align32, size64, align64, flat],
            count,
            k,
        } => {
            let given = [size32, align32, size64, align64, flat, count, k];
            (Function::FixedLengthList, numbers(&given))
        }
        Leaf::Discriminant(count) => (Function::Discriminant, numbers(&[count])),
        Leaf::Record { k, .. } => (Function::Record, numbers(&[k])),
        Leaf::Variant { k, .. } => (Function::Variant, numbers(&[k])),
    };
    Call {
        function,
        cell,
        numbers,
        slices: [infos, &[], &[]],
    }
}

pub fn build(cell: Cell, description: &[u8]) -> Call<'_> {
    Call {
        function: Function::Build,
        cell,
        numbers: [0; NUMBERS],
        slices: [description, &[], &[]],
    }
}

/// A question about the first n rows of a table; `lists` are its lists of references.
pub fn question<'a>(
    question: &Question,
    cell: Cell,
    table: &'a [u8],
    n: u32,
    lists: [&'a [u8]; 2],
) -> Call<'a> {
    let (function, numbers) = match *question {
        Question::Type { reference, k } => (Function::Type, numbers(&[n, reference, k])),
        Question::SizeAlign { memory, reference } => {
            (Function::SizeAlign, numbers(&[memory, n, reference]))
        }
        Question::Placement { memory, .. } => (Function::Placement, numbers(&[memory, n])),
        Question::Flatten { memory, max, .. } => (Function::Flatten, numbers(&[memory, max, n])),
        Question::Lowering { side, .. } => {
            let given = [side.memory, side.asynchronous, n];
            (Function::Lowering, numbers(&given))
        }
        Question::Lifting { side, .. } => {
            let given = [side.memory, side.asynchronous, n];
            (Function::Lifting, numbers(&given))
        }
        Question::AsyncStart {
            lower,
            lift_memory,
            k,
            ..
        } => {
            let given = [lower.memory, lower.asynchronous, lift_memory, n, k];
            (Function::AsyncStart, numbers(&given))
        }
        Question::AsyncReturn { lift, lower, k, .. } => {
            let (lift, lift_async) = (lift.memory, lift.asynchronous);
            let given = [lift, lift_async, lower.memory, lower.asynchronous, n, k];
            (Function::AsyncReturn, numbers(&given))
        }
        Question::ContainsBorrow { .. } => (Function::ContainsBorrow, numbers(&[n])),
        Question::Functype { plain, k, .. } => {
            let Side {
                memory,
                asynchronous,
            } = plain.side;
            let given = [memory, asynchronous, plain.lower, plain.callback, n, k];
            (Function::Functype, numbers(&given))
        }
    };
    Call {
        function,
        cell,
        numbers,
        slices: [table, lists[0], lists[1]],
    }
}
