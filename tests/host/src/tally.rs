//! What was compared and what differed, and the line that says so while a run goes on.
use crate::coverage::Coverage;
use crate::model::{self, Row};
use std::io::{IsTerminal, Write};
use std::time::{Duration, Instant};

/// So many differences are printed in full.
const PRINTED: u64 = 10;

pub struct Tally {
    /// Answers of the port compared with the model: the u64 of a call and all memory lent to it.
    pub answers: u64,
    /// Of these, by a byte call.
    pub by_bytes: u64,
    /// Of these, builds and placements that report a row read back.
    pub read_back: u64,
    /// Answers and rows of the original that the model was compared with.
    pub original: u64,
    /// The same for types that hold an enum or variant of 256 or 65,536 cases, and for discriminants,
    /// enums and flags asked for by themselves: the oracle has stand-ins there, so they are not
    /// counted as equal to the Rust. The same for what an async plain call returns, where nothing is the
    /// original's.
    pub apart: u64,
    /// Rows that builds wrote, whose numbers for 64 were compared with those for 32.
    pub port_rows: u64,
    pub original_rows: u64,
    /// Placements of the port whose gaps and members were summed, and those of them that have a gap.
    pub sums: u64,
    pub with_gaps: u64,
    /// Where 01 refuses as too large: the original panicked, or gave 4294967295.
    pub panicked: u64,
    pub saturated: u64,
    /// Where 01 refuses as too deep: the original went on, or panicked since it is too large as well.
    pub went_on: u64,
    pub panicked_too: u64,
    pub differences: u64,
    pub coverage: Coverage,
    pub section: &'static str,
    /// The first difference ends the run.
    stop_at_first: bool,
    began: Instant,
    printed: Instant,
}

/// The payload of the panic that ends a run at its first difference.
pub struct Caught {
    pub section: &'static str,
    pub answers: u64,
}

impl Tally {
    pub fn new(stop_at_first: bool) -> Tally {
        Tally {
            answers: 0,
            by_bytes: 0,
            read_back: 0,
            original: 0,
            apart: 0,
            port_rows: 0,
            original_rows: 0,
            sums: 0,
            with_gaps: 0,
            panicked: 0,
            saturated: 0,
            went_on: 0,
            panicked_too: 0,
            differences: 0,
            coverage: Coverage::new(),
            section: "",
            stop_at_first,
            began: Instant::now(),
            printed: Instant::now(),
        }
    }

    pub fn answer(&mut self, same: bool, by_bytes: bool, report: impl FnOnce() -> String) {
        self.answers += 1;
        self.by_bytes += u64::from(by_bytes);
        self.consistent(same, report);
        if self.answers % 4096 == 0 {
            self.progress();
        }
    }

    pub fn original(&mut self, same: bool, apart: bool, report: impl FnOnce() -> String) {
        match apart {
            true => self.apart += 1,
            false => self.original += 1,
        }
        self.consistent(same, report);
    }

    /// A row that a build of the port wrote.
    pub fn port_row(&mut self, row: &Row) {
        self.port_rows += 1;
        self.never_smaller("port", row);
    }

    /// A row that a build of the original wrote.
    pub fn original_row(&mut self, row: &Row) {
        self.original_rows += 1;
        self.never_smaller("original", row);
    }

    fn never_smaller(&mut self, whose: &str, row: &Row) {
        self.consistent(model::never_smaller(row), || {
            format!("a row of the {whose} is smaller for 64 than for 32: {row:?}")
        });
    }

    /// A placement that the port accepted, and whether its gaps and members come to its size.
    pub fn sum(&mut self, holds: bool, has_gaps: bool, report: impl FnOnce() -> String) {
        self.sums += 1;
        self.with_gaps += u64::from(has_gaps);
        self.consistent(holds, report);
    }

    pub fn overflow(&mut self, panicked: bool, saturated: bool, report: impl FnOnce() -> String) {
        self.panicked += u64::from(panicked);
        self.saturated += u64::from(saturated && !panicked);
        self.consistent(panicked || saturated, report);
    }

    pub fn too_deep(&mut self, panicked: bool, went_on: bool, report: impl FnOnce() -> String) {
        self.went_on += u64::from(went_on);
        self.panicked_too += u64::from(panicked);
        self.consistent(panicked || went_on, report);
    }

    /// Something that must hold and is not counted as an answer.
    pub fn consistent(&mut self, holds: bool, report: impl FnOnce() -> String) {
        if holds {
            return;
        }
        if self.stop_at_first {
            std::panic::resume_unwind(Box::new(Caught {
                section: self.section,
                answers: self.answers,
            }));
        }
        self.differences += 1;
        if self.differences <= PRINTED {
            let report: String = report().chars().take(4000).collect();
            eprintln!(
                "\ndifference {} ({}): {report}",
                self.differences, self.section
            );
        }
    }

    pub fn begin(&mut self, section: &'static str) {
        self.section = section;
    }

    /// One line, rewritten on a terminal, else now and then.
    fn progress(&mut self) {
        let terminal = std::io::stderr().is_terminal();
        let pause = Duration::from_millis(if terminal { 200 } else { 10_000 });
        if self.stop_at_first || self.printed.elapsed() < pause {
            return;
        }
        self.printed = Instant::now();
        let (start, end) = if terminal {
            ("\r", "\x1b[K")
        } else {
            ("", "\n")
        };
        eprint!(
            "{start}{:>4} s  {:<34} {:>12} answers, {} differences{end}",
            self.began.elapsed().as_secs(),
            self.section,
            self.answers,
            self.differences
        );
        let _ = std::io::stderr().flush();
    }

    pub fn summary(&self) -> String {
        format!(
            "{} answers of the port compared with the model ({} by byte calls, {} with rows read back), \
             {} of the original with the model, {} apart (stand-ins, statuses), {} rows of the port and {} of the original compared in \
             the two memories, {} placements summed, {} of them with gaps, {} refusals 6 where the original panicked and {} where it saturated, {} \
             refusals 9 where it went on and {} where it panicked, in {} s: {} differences",
            self.answers,
            self.by_bytes,
            self.read_back,
            self.original,
            self.apart,
            self.port_rows,
            self.original_rows,
            self.sums,
            self.with_gaps,
            self.panicked,
            self.saturated,
            self.went_on,
            self.panicked_too,
            self.began.elapsed().as_secs(),
            self.differences
        )
    }
}
