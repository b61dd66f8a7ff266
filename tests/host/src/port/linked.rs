//! The port's static library, linked. Its declarations are those of the Rust crate, which a test of that
//! crate holds to the C header.
use super::call::{NUMBERS, SLICES, WRITTEN};
use super::{Call, Cell, Due, Function};
use crate::compare::bytes_of;
use crate::model::words_of;

#[path = "../../../../bindings/rust/src/raw.rs"]
mod raw;

/// A function that makes the call that is asked for, over words or over bytes. Slices and buffers are in
/// the units of the call.
macro_rules! run_over {
    ($run:ident, $unit:ty, $calls:ident) => {
        fn $run(
            function: Function,
            x: [u32; NUMBERS],
            slices: [&[$unit]; SLICES],
            written: [&mut [$unit]; WRITTEN],
        ) -> u64 {
            use raw::$calls as port;
            let [(a, a_len), (b, b_len), (c, c_len)] = slices.map(|s| (s.as_ptr(), s.len()));
            let [(out, out_len), (gaps, gaps_len)] = written.map(|s| (s.as_mut_ptr(), s.len()));
            // SAFETY: each pointer comes from a slice of the length beside it, lent for the call
            // alone, and the mutable ones are lent to nobody else.
            unsafe {
                match function {
                    Function::Record => port::record(a, a_len, x[0]),
                    Function::Variant => port::variant(a, a_len, x[0]),
                    Function::Build => port::build(a, a_len, out, out_len),
                    Function::Type => port::type_of(a, a_len, x[0], x[1], x[2]),
                    Function::SizeAlign => port::size_align(x[0], a, a_len, x[1], x[2]),
                    Function::Placement => port::placement(
                        x[0], a, a_len, x[1], b, b_len, out, out_len, gaps, gaps_len,
                    ),
                    Function::Flatten => port::flatten(x[0], x[1], a, a_len, x[2], b, b_len),
                    Function::Lowering => port::lowering(x[0], x[1], a, a_len, x[2], b, b_len),
                    Function::Lifting => port::lifting(x[0], x[1], a, a_len, x[2], b, b_len),
                    Function::AsyncStart => port::async_start(
                        x[0], x[1], x[2], a, a_len, x[3], b, b_len, c, c_len, x[4],
                    ),
                    Function::AsyncReturn => port::async_return(
                        x[0], x[1], x[2], x[3], a, a_len, x[4], b, b_len, c, c_len, x[5],
                    ),
                    Function::ContainsBorrow => port::contains_borrow(a, a_len, x[0], b, b_len),
                    Function::Functype => port::functype(
                        x[0], x[1], x[2], x[3], a, a_len, x[4], b, b_len, c, c_len, x[5],
                    ),
                    _ => over_numbers(function, x),
                }
            }
        }
    };
}

run_over!(run_words, u32, words);
run_over!(run_bytes, u8, bytes);

fn over_numbers(function: Function, x: [u32; NUMBERS]) -> u64 {
    match function {
        Function::AlignTo => raw::lampughjata_align_to(x[0], x[1]),
        Function::Max => raw::lampughjata_max(x[0], x[1]),
        Function::AddFlat => raw::lampughjata_add_flat(x[0], x[1]),
        Function::MaxFlat => raw::lampughjata_max_flat(x[0], x[1]),
        Function::NextField => {
            raw::lampughjata_next_field(x[0], x[1], x[2], x[3], x[4], x[5], x[6], x[7])
        }
        Function::Flags => raw::lampughjata_flags(x[0], x[1]),
        Function::Enum => raw::lampughjata_enum(x[0], x[1]),
        Function::FixedLengthList => {
            raw::lampughjata_fixed_length_list(x[0], x[1], x[2], x[3], x[4], x[5], x[6])
        }
        Function::Discriminant => raw::lampughjata_discriminant(x[0]),
        _ => unreachable!("a call over lent memory"),
    }
}

/// Makes a call: its answer, and the written buffers afterwards.
pub fn make(call: &Call, due: &Due) -> (u64, [Vec<u8>; WRITTEN]) {
    match call.cell {
        Cell::Byte => over_bytes(call, due),
        Cell::Word => over_words(call, due),
    }
}

fn over_bytes(call: &Call, due: &Due) -> (u64, [Vec<u8>; WRITTEN]) {
    let mut after = due.written.map(|lent| lent.before.to_vec());
    let [first, second] = &mut after;
    let [part, second_part] = due.written.map(|lent| lent.part());
    let written = [&mut first[part], &mut second[second_part]];
    let answer = run_bytes(call.function, call.numbers, call.slices, written);
    (answer, after)
}

/// The guards go along as words, so that a word written beside a part shows.
fn over_words(call: &Call, due: &Due) -> (u64, [Vec<u8>; WRITTEN]) {
    let slices = call.slices.map(words_of);
    let slices = slices.each_ref().map(|words| &words[..]);
    let mut after = due.written.map(|lent| words_of(lent.before));
    let [first, second] = &mut after;
    let [part, second_part] = due.written.map(|lent| {
        let part = lent.part();
        part.start / 4..part.end / 4
    });
    let written = [&mut first[part], &mut second[second_part]];
    let answer = run_words(call.function, call.numbers, slices, written);
    (answer, after.map(|words| bytes_of(&words)))
}
