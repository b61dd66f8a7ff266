//! A port that answers at once: the linked library, or the model in its place.
#[cfg(feature = "linked")]
use super::linked::make;
#[cfg(feature = "stand-in")]
use super::stand_in::make;
use super::{Answered, Call, Due};
use std::io;

pub struct Port;

impl Port {
    pub fn open() -> io::Result<Port> {
        Ok(Port)
    }

    pub fn call(&mut self, call: Call, due: Due, answered: &mut dyn FnMut(Answered)) {
        let (answer, after) = make(&call, &due);
        answered(Answered::new(call, answer, after, due));
    }

    /// Nothing waits.
    pub fn flush(&mut self, _: &mut dyn FnMut(Answered)) {}
}
