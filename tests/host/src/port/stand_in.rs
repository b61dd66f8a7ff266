//! The model in the port's place, for work on this program where the static library cannot be built.
//! Nothing is then learnt about the port.
use super::call::{NUMBERS, WRITTEN};
use super::{Call, Cell, Due, Function};
use crate::calls::{Leaf, PlainCall, Question, Side};
use crate::compare::bytes_of;
use crate::model::words_of;
use crate::{encode, model};

/// Answers a call: its answer, and the written buffers afterwards.
pub fn make(call: &Call, due: &Due) -> (u64, [Vec<u8>; WRITTEN]) {
    let mut after = due.written.map(|lent| lent.before.to_vec());
    let [first_part, second_part] = due.written.map(|lent| lent.part());
    let [first, second] = &mut after;
    let [first, second] = [&mut first[first_part], &mut second[second_part]];
    let answer = match (call.function, call.cell) {
        (Function::Build, Cell::Byte) => encode::answer(model::build_bytes(call.slices[0], first)),
        _ => {
            let mut words = [words_of(first), words_of(second)];
            let answer = answer(call, words.each_mut().map(|words| &mut words[..]));
            for (lent, words) in [first, second].into_iter().zip(&words) {
                lent[..4 * words.len()].copy_from_slice(&bytes_of(words));
            }
            answer
        }
    };
    (answer, after)
}

fn answer(call: &Call, written: [&mut [u32]; WRITTEN]) -> u64 {
    let Call {
        function, numbers, ..
    } = *call;
    let [first, second, third] = call.slices.map(words_of);
    if function == Function::Build {
        let [table, _] = written;
        encode::answer(model::build(&first, table))
    } else if function.is_question() {
        let rooms = written.each_ref().map(|words| words.len());
        let (question, n) = question(function, numbers, rooms, second, third);
        encode::answer(model::ask(&question, &first, n, written))
    } else {
        encode::leaf(model::leaf(&leaf(function, numbers, first)))
    }
}

fn leaf(function: Function, numbers: [u32; NUMBERS], words: Vec<u32>) -> Leaf {
    let [a, b, c, d, e, f, g, h] = numbers;
    match function {
        Function::AlignTo => Leaf::AlignTo(a, b),
        Function::Max => Leaf::Max(a, b),
        Function::AddFlat => Leaf::AddFlat(a, b),
        Function::MaxFlat => Leaf::MaxFlat(a, b),
        Function::NextField => Leaf::NextField {
            memory: a,
            info: [b, c, d, e, f],
            end: g,
            k: h,
        },
        Function::Flags => Leaf::Flags(a, b),
        Function::Enum => Leaf::Enum(a, b),
        Function::FixedLengthList => Leaf::FixedLengthList {
            info: [a, b, c, d, e],
            count: f,
            k: g,
        },
        Function::Discriminant => Leaf::Discriminant(a),
        Function::Record => Leaf::Record { infos: words, k: a },
        _ => Leaf::Variant { cases: words, k: a },
    }
}

/// The question, and the number of rows that it is put to.
fn question(
    function: Function,
    numbers: [u32; NUMBERS],
    rooms: [usize; WRITTEN],
    references: Vec<u32>,
    others: Vec<u32>,
) -> (Question, u32) {
    let [a, b, c, ..] = numbers;
    let memory = a;
    match function {
        Function::Type => (Question::Type { reference: b, k: c }, a),
        Function::SizeAlign => (
            Question::SizeAlign {
                memory,
                reference: c,
            },
            b,
        ),
        Function::Placement => (
            Question::Placement {
                memory,
                references,
                rooms,
            },
            b,
        ),
        Function::Flatten => (
            Question::Flatten {
                memory,
                max: b,
                references,
            },
            c,
        ),
        Function::ContainsBorrow => (Question::ContainsBorrow { references }, a),
        Function::Lowering => {
            let side = side(a, b);
            (Question::Lowering { side, references }, c)
        }
        Function::Lifting => {
            let side = side(a, b);
            (Question::Lifting { side, references }, c)
        }
        _ => of_two_lists(function, numbers, references, others),
    }
}

/// The same of a signature.
fn of_two_lists(
    function: Function,
    numbers: [u32; NUMBERS],
    references: Vec<u32>,
    others: Vec<u32>,
) -> (Question, u32) {
    let [a, b, c, d, e, f, ..] = numbers;
    match function {
        Function::AsyncStart => (
            Question::AsyncStart {
                lower: side(a, b),
                lift_memory: c,
                lower_types: references,
                lift_types: others,
                k: e,
            },
            d,
        ),
        Function::AsyncReturn => (
            Question::AsyncReturn {
                lift: side(a, b),
                lower: side(c, d),
                lift_types: references,
                lower_types: others,
                k: f,
            },
            e,
        ),
        _ => {
            let plain = PlainCall {
                side: side(a, b),
                lower: c,
                callback: d,
            };
            (
                Question::Functype {
                    plain,
                    params: references,
                    results: others,
                    k: f,
                },
                e,
            )
        }
    }
}

fn side(memory: u32, asynchronous: u32) -> Side {
    Side {
        memory,
        asynchronous,
    }
}
