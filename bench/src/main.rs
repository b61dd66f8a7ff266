//! The port's build and questions beside the original's and beside plain Rust: one machine, one run,
//! the same inputs, release builds. Buffers are warm: each was written by the work before and is not
//! cleared between.
//!
//!     bench FILE [more]
//!
//! FILE keeps the best times of the same code linked in other places; with `more`, another link follows and
//! nothing is printed yet. `run` starts this.

mod builds;
mod infos;
mod inputs;
mod over_bytes;
mod plain;
mod port;
mod questions;
mod report;
mod table;
mod tested;
mod timing;

use report::Report;
use std::process::ExitCode;
use timing::Links;

fn main() -> ExitCode {
    let mut arguments = std::env::args().skip(1);
    let Some(file) = arguments.next() else {
        eprintln!("bench: no file to keep the times in (use bench/run)");
        return ExitCode::from(2);
    };
    let is_last = arguments.next().is_none();
    let mut report = Report::new(Links::read(&file), is_last);
    report
        .note("ns, best and lower quartile of 300 rounds; buffers warm and not cleared between\n");
    builds::run(&mut report);
    questions::run(&mut report);
    over_bytes::run(&mut report);
    infos::run(&mut report);
    if let Err(error) = report.end().write(&file) {
        eprintln!("bench: the times cannot be kept: {error}");
        return ExitCode::from(2);
    }
    ExitCode::SUCCESS
}
