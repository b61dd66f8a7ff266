//! The port behind one door: a call goes in, and what the port answered and left in lent memory is
//! held to what it should be.
//!
//! On x86-64 the port's static library is linked (`linked`). On another processor it cannot be, and a
//! small program that links it runs under an emulator (`emulated`); calls then go in batches. Where there
//! is no port at all, the model stands in for it (`stand_in`).

#[cfg(not(feature = "emulated"))]
mod at_once;
mod call;
#[cfg(feature = "emulated")]
mod emulated;
#[cfg(feature = "linked")]
mod linked;
#[cfg(feature = "stand-in")]
mod stand_in;

pub use call::{Call, Cell, Due, Function, Lent, build, leaf, question};

#[cfg(not(feature = "emulated"))]
pub use at_once::Port;
#[cfg(feature = "emulated")]
pub use emulated::Port;

use call::WRITTEN;

/// A call that was made, and what is to be compared: the answer, and the buffers that the call was lent
/// to write, guards and all.
pub struct Answered<'a> {
    pub call: Call<'a>,
    pub answer: u64,
    pub after: [Vec<u8>; WRITTEN],
    pub expected_answer: u64,
    pub expected_after: [&'a [u8]; WRITTEN],
}

impl<'a> Answered<'a> {
    fn new(call: Call<'a>, answer: u64, after: [Vec<u8>; WRITTEN], due: Due<'a>) -> Answered<'a> {
        Answered {
            call,
            answer,
            after,
            expected_answer: due.answer,
            expected_after: due.written.map(|lent| lent.expected),
        }
    }
}
