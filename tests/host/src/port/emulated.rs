//! The port in a program of its own, under an emulator: `emulated/server.c`, which links the static library
//! and tells the format of what goes over its standard input and output.
use super::call::{NUMBERS, SLICES, WRITTEN};
use super::{Answered, Call, Cell, Due, Function, Lent};
use crate::compare::bytes_of;
use std::io::{self, Read, Write};
use std::process::{Child, ChildStdin, ChildStdout, Command, Stdio};

/// A batch is sent when it has so many bytes.
const BATCH: usize = 4 << 20;
/// The words of a request's header, and one to make their bytes a multiple of eight.
const HEADER: usize = 2 + NUMBERS + SLICES + 3 * WRITTEN + 1;

pub struct Port {
    _server: Child,
    requests: ChildStdin,
    answers: ChildStdout,
    batch: Vec<u8>,
    waiting: Vec<Waiting>,
}

/// A call in the batch: where its request begins, and what is due.
struct Waiting {
    function: Function,
    cell: Cell,
    request: usize,
    expected_answer: u64,
    expected_after: [Vec<u8>; WRITTEN],
}

impl Port {
    /// Starts the server that the environment names.
    pub fn open() -> io::Result<Port> {
        let named = |name: &str| {
            let value = std::env::var(name);
            value.map_err(|_| io::Error::other(format!("{name} is not set (use tests/host/run)")))
        };
        let mut server = Command::new(named("PORT_EMULATOR")?)
            .arg(named("PORT_SERVER")?)
            .stdin(Stdio::piped())
            .stdout(Stdio::piped())
            .spawn()?;
        let requests = server.stdin.take().expect("a piped input");
        let answers = server.stdout.take().expect("a piped output");
        Ok(Port {
            _server: server,
            requests,
            answers,
            batch: Vec::with_capacity(2 * BATCH),
            waiting: Vec::new(),
        })
    }

    /// Puts the call into the batch, and sends that when it is full.
    pub fn call(&mut self, call: Call, due: Due, answered: &mut dyn FnMut(Answered)) {
        self.waiting.push(Waiting {
            function: call.function,
            cell: call.cell,
            request: self.batch.len(),
            expected_answer: due.answer,
            expected_after: due.written.map(|lent| lent.expected.to_vec()),
        });
        let unit: u32 = match call.cell {
            Cell::Word => 4,
            Cell::Byte => 1,
        };
        let mut header = vec![call.function as u32, unit];
        header.extend(call.numbers);
        header.extend(call.slices.map(|slice| slice.len() as u32));
        for lent in due.written {
            let part = lent.part();
            header.extend([lent.before.len(), part.start, part.len()].map(|x| x as u32));
        }
        header.resize(HEADER, 0);
        self.batch.extend(bytes_of(&header));
        let written = due.written.map(|lent| lent.before);
        for memory in call.slices.into_iter().chain(written) {
            self.batch.extend(memory);
            self.batch.resize(self.batch.len().next_multiple_of(8), 0);
        }
        if self.batch.len() >= BATCH {
            self.flush(answered);
        }
    }

    /// Sends the batch and hands on what came back.
    pub fn flush(&mut self, answered: &mut dyn FnMut(Answered)) {
        if self.waiting.is_empty() {
            return;
        }
        let length = self.batch.len() as u64;
        let sent = self
            .requests
            .write_all(&length.to_le_bytes())
            .and_then(|()| self.requests.write_all(&self.batch))
            .and_then(|()| self.requests.flush());
        sent.unwrap_or_else(|error| gone(&error));
        for waiting in std::mem::take(&mut self.waiting) {
            let answer = u64::from_le_bytes(self.read(8).try_into().expect("eight bytes"));
            let after = waiting.expected_after.each_ref().map(|expected| {
                let mut after = self.read(expected.len().next_multiple_of(8));
                after.truncate(expected.len());
                after
            });
            let call = waiting.call(&self.batch[waiting.request..]);
            answered(Answered::new(call, answer, after, waiting.due()));
        }
        self.batch.clear();
    }

    fn read(&mut self, length: usize) -> Vec<u8> {
        let mut bytes = vec![0; length];
        let read = self.answers.read_exact(&mut bytes);
        read.unwrap_or_else(|error| gone(&error));
        bytes
    }
}

/// The server does not end by itself: a call has crashed it, which no call may do.
fn gone(error: &io::Error) -> ! {
    eprintln!("the program that runs the port has ended in a batch of calls: {error}");
    std::process::exit(3)
}

impl Waiting {
    /// What was due; the buffers as they were before the call are in its request alone.
    fn due(&self) -> Due<'_> {
        Due {
            answer: self.expected_answer,
            written: self.expected_after.each_ref().map(|expected| Lent {
                before: &[],
                expected,
            }),
        }
    }

    /// The call again, from its request.
    fn call<'a>(&self, request: &'a [u8]) -> Call<'a> {
        let word = |place: usize| {
            let four = &request[4 * place..4 * place + 4];
            u32::from_le_bytes(four.try_into().expect("four bytes"))
        };
        let numbers = std::array::from_fn(|place| word(2 + place));
        let mut at = 4 * HEADER;
        let slices: [&[u8]; SLICES] = std::array::from_fn(|place| {
            let length = word(2 + NUMBERS + place) as usize;
            let slice = &request[at..at + length];
            at += length.next_multiple_of(8);
            slice
        });
        Call {
            function: self.function,
            cell: self.cell,
            numbers,
            slices,
        }
    }
}
