//! 01's questions put to a table.
use super::definition::definition_named;
use super::functype::{PlainCall, functype};
use super::layout::{self, Core, Layout, Memory, Passes, Type};
use super::leaf::info_number;
use super::signature::{self, Side};
use super::table::{self, capacity};
use super::{Answer, MOST_WORDS, Refused, number, padding, reads, row};
use crate::calls::{Question, WRITTEN};
use crate::encode;

/// The boundary's u64 of an answer. A placement's offsets go into the first of the buffers that are
/// lent to be written, its gaps into the second; every other word of these is kept.
pub fn ask(
    question: &Question,
    table: &[u32],
    n: u32,
    written: [&mut [u32]; WRITTEN],
) -> Answer<u64> {
    let table = Table { words: table, n };
    match question {
        Question::Type { reference, k } => {
            let lists = table.read(&[&[*reference]], None)?;
            let ty = &lists[0][0];
            let [flat32, flat64] = row::flat_words(&ty.flat);
            Ok(match k {
                0..=4 => info_number(ty, *k),
                5 => flat32,
                6 => flat64,
                7 => u64::from(ty.borrow),
                _ => ty.depth,
            })
        }
        Question::SizeAlign { memory, reference } => {
            let lists = table.read(&[&[*reference]], None)?;
            let layout = lists[0][0].layout_in(Memory::of(*memory));
            Ok(encode::layout(layout.size, layout.align))
        }
        Question::Placement {
            memory, references, ..
        } => placement(&table, Memory::of(*memory), references, written),
        Question::Flatten {
            memory,
            max,
            references,
        } => {
            let early = (*max > 16).then_some(number::BAD_COUNT);
            let lists = table.read(&[references], early)?;
            let flat = signature::flatten(Memory::of(*memory), *max as usize, &lists[0]);
            Ok(encode::list_or_memory(flat))
        }
        Question::Lowering { side, references } => {
            let lists = table.read(&[references], None)?;
            let flat = signature::lowering(Side::of(*side), &lists[0]);
            Ok(encode::list_or_memory(flat))
        }
        Question::Lifting { side, references } => {
            let lists = table.read(&[references], None)?;
            let flat = signature::lifting(Side::of(*side), &lists[0]);
            Ok(encode::list_or_memory(flat))
        }
        Question::AsyncStart {
            lower,
            lift_memory,
            k,
            ..
        } => half(&table, question, *k, |params, results| {
            let (lower, lift_memory) = (Side::of(*lower), Memory::of(*lift_memory));
            signature::async_start(lower, params, lift_memory, results)
        }),
        Question::AsyncReturn { lift, lower, k, .. } => {
            half(&table, question, *k, |params, results| {
                let (lift, lower) = (Side::of(*lift), Side::of(*lower));
                signature::async_return(lift, params, lower, results)
            })
        }
        Question::Functype { plain, k, .. } => half(&table, question, *k, |params, results| {
            functype(PlainCall::of(*plain), params, results)
        }),
        Question::ContainsBorrow { references } => {
            let lists = table.read(&[references], None)?;
            Ok(u64::from(lists[0].iter().any(|ty| ty.borrow)))
        }
    }
}

/// Of a signature over the types of the question's two lists, the half that k chooses.
fn half(
    table: &Table,
    question: &Question,
    k: u32,
    signature: impl Fn(&[Type], &[Type]) -> [Vec<Core>; 2],
) -> Answer<u64> {
    let lists = table.read(&question.lists(), None)?;
    let both = signature(&lists[0], &lists[1]);
    Ok(encode::list(&encode::half(both, k)))
}

/// "TooLarge names the first member whose start or end passes, 0 if only the size does." What is accepted
/// reports the rows that its references name, by order 6, and the gaps, by order 10, with "7 also when the gap
/// buffer is shorter than the references".
fn placement(
    table: &Table,
    memory: Memory,
    references: &[u32],
    [offset_words, gap_words]: [&mut [u32]; WRITTEN],
) -> Answer<u64> {
    let is_short = |words: &[u32]| words.len() < references.len();
    let no_room = is_short(offset_words) || is_short(gap_words);
    let lists = table.read(&[references], no_room.then_some(number::NO_ROOM))?;
    let layouts: Vec<_> = lists[0].iter().map(|ty| ty.layout_in(memory)).collect();
    let placed = layout::place(&layouts).map_err(|passes| Refused {
        number: number::TOO_LARGE,
        at: match passes {
            Passes::Member(position) => position as u64,
            Passes::Size => 0,
        },
    })?;
    let gaps = padding::gaps(&layouts, &placed);
    write(offset_words, &placed.starts);
    write(gap_words, &gaps.before);
    let Layout { size, align } = placed.layout;
    let reads = reads::of_references(references);
    Ok(encode::placement(size, align, gaps.after, reads))
}

/// "Into a lent u32 buffer, later words kept."
fn write(words: &mut [u32], numbers: &[u64]) {
    for (word, number) in words.iter_mut().zip(numbers) {
        *word = u32::try_from(*number).expect("a number within the limit");
    }
}

/// The sizes of the members of a placement that was accepted: a definition's is in its row.
pub fn member_sizes(memory: u32, table: &[u32], references: &[u32]) -> Vec<u64> {
    let memory = Memory::of(memory);
    let size_word = [1, 3][memory as usize];
    let size = |reference: &u32| match definition_named(*reference) {
        Some(index) => u64::from(table::row(table, index)[size_word]),
        None => {
            let scalar = layout::scalar_of(*reference).expect("an accepted reference");
            scalar.layout_in(memory).size
        }
    };
    references.iter().map(size).collect()
}

struct Table<'a> {
    words: &'a [u32],
    n: u32,
}

impl Table<'_> {
    /// The types of the references of one or two lists. "A question tests TooLong, n, maximum,
    /// NoRoom, then each reference in order (BadRef before BadRow)"; `early` is the refusal for the
    /// maximum or the room. "Two lists are tested in the order named, TooLong of both first, and
    /// positions count on from one into the other."
    fn read(&self, lists: &[&[u32]], early: Option<u64>) -> Answer<Vec<Vec<Type>>> {
        let refuse = |number| Err(Refused { number, at: 0 });
        if lists.iter().any(|list| list.len() > MOST_WORDS) {
            return refuse(number::TOO_LONG);
        }
        // "n above the capacity".
        if self.n as usize > capacity(self.words.len()) {
            return refuse(number::BAD_ROW);
        }
        if let Some(number) = early {
            return refuse(number);
        }
        let mut position = 0;
        let mut types = Vec::new();
        for list in lists {
            let mut found = Vec::new();
            for reference in *list {
                let ty = self.resolve(*reference).map_err(|number| Refused {
                    number,
                    at: position,
                })?;
                found.push(ty);
                position += 1;
            }
            types.push(found);
        }
        Ok(types)
    }

    fn resolve(&self, reference: u32) -> Result<Type, u64> {
        let Some(index) = definition_named(reference) else {
            return layout::scalar_of(reference).cloned().ok_or(number::BAD_REF);
        };
        if index >= self.n as usize {
            return Err(number::BAD_REF);
        }
        row::read(&table::row(self.words, index))
    }
}
