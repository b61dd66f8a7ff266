//! Compares the port (through its static library), the original (compiled beside it) and a model
//! written from document 01. `run` builds all three and starts this; `run --help` tells the options.

mod calls;
mod compare;
mod coverage;
mod differences;
mod encode;
mod faults;
mod generate;
mod model;
mod options;
mod original;
mod port;
mod random;
mod reading;
mod recorded;
mod sections;
mod tally;

use compare::Run;
use faults::{FAULTS, Fault};
use options::{Options, Task};
use port::Port;
use random::Random;
use std::panic::{AssertUnwindSafe, catch_unwind};
use std::process::ExitCode;
use tally::{Caught, Tally};

/// One call in so many is made over bytes too in a quick run; in a whole run each is.
const QUICK_BYTES: u64 = 2;

fn main() -> ExitCode {
    let options = match Options::read(std::env::args().skip(1)) {
        Ok(options) => options,
        Err(message) => {
            eprintln!("{message}");
            return ExitCode::from(2);
        }
    };
    // The original panics where it overflows; that is an outcome here and no news.
    std::panic::set_hook(Box::new(|panic| {
        if !oracle::is_guarded() {
            eprintln!("{panic}");
        }
    }));
    match &options.task {
        Task::Help => {
            println!("{}", options::USE);
            ExitCode::SUCCESS
        }
        Task::Compare => compare(&options),
        Task::Faults => show_faults(&options),
        Task::Differences => {
            differences::print();
            ExitCode::SUCCESS
        }
        Task::Record(file) => match recorded::write(file) {
            Ok(told) => {
                println!("{told}");
                ExitCode::SUCCESS
            }
            Err(error) => {
                eprintln!("{file}: {error}");
                ExitCode::from(2)
            }
        },
    }
}

fn compare(options: &Options) -> ExitCode {
    let port = match Port::open() {
        Ok(port) => port,
        Err(error) => {
            eprintln!("the port cannot be reached: {error}");
            return ExitCode::from(2);
        }
    };
    let mut run = new_run(options, port, options.fault, false);
    sections(&mut run, options);
    let differences = run.tally.differences;
    let missing = match options.only.as_str() {
        "" => run.tally.coverage.missing(),
        _ => vec![],
    };
    eprintln!();
    for call in &missing {
        println!("never asked: {call}");
    }
    if cfg!(feature = "stand-in") {
        println!("the model stood in for the port: nothing is learnt about the port");
    }
    println!("{}", run.tally.summary());
    ExitCode::from(u8::from(differences > 0 || !missing.is_empty()))
}

/// Runs with each fault in turn until the first difference, which there must be.
fn show_faults(options: &Options) -> ExitCode {
    let mut missed = 0;
    for (number, fault) in FAULTS.into_iter().enumerate() {
        let Ok(port) = Port::open() else {
            eprintln!("the port cannot be reached");
            return ExitCode::from(2);
        };
        let mut run = new_run(options, port, Some(fault), true);
        let ended = catch_unwind(AssertUnwindSafe(|| sections(&mut run, options)));
        let caught = ended
            .err()
            .and_then(|panic| panic.downcast::<Caught>().ok());
        match caught {
            Some(caught) => println!(
                "fault {} ({fault:?}): caught in \"{}\" after {} answers",
                number + 1,
                caught.section,
                caught.answers
            ),
            None => {
                println!("fault {} ({fault:?}): NOT CAUGHT", number + 1);
                missed += 1;
            }
        }
    }
    println!("{} faults, {missed} not caught", FAULTS.len());
    ExitCode::from(u8::from(missed > 0))
}

fn new_run(options: &Options, port: Port, fault: Option<Fault>, stop_at_first: bool) -> Run {
    Run {
        port,
        fault,
        random: Random::new(options.seed),
        tally: Tally::new(stop_at_first),
        cases: options.cases,
        quick: options.quick,
        bytes_once_in: if options.quick { QUICK_BYTES } else { 1 },
    }
}

fn sections(run: &mut Run, options: &Options) {
    for (name, section) in sections::SECTIONS {
        if name.contains(&options.only) {
            run.tally.begin(name);
            section(run);
            // What still waits belongs to this section.
            run.flush();
        }
    }
}
