//! The command line.
use crate::faults::{FAULTS, Fault};

pub struct Options {
    pub task: Task,
    pub seed: u64,
    pub cases: u64,
    pub quick: bool,
    pub fault: Option<Fault>,
    /// Only sections whose name has this in it.
    pub only: String,
}

pub enum Task {
    Help,
    Compare,
    Faults,
    Differences,
    /// Into the file of this name.
    Record(String),
}

pub const USE: &str = "\
compares port, model and original
  --quick          a run of less than two minutes
  --seed N         another seed for the random cases
  --cases N        the number of random cases (sections take multiples of it)
  --only TEXT      only the sections whose name has TEXT in it
  --fault N        with a fault put into the port's or the original's answers
  --faults         with each fault in turn, until it is caught
  --differences    compares nothing: what original and model say where 01 differs from the Rust
  --record FILE    compares nothing: writes the recorded list of the original's answers";

const QUICK_CASES: u64 = 2_000;
const FULL_CASES: u64 = 20_000;
const SEED: u64 = 20_260_101;

impl Options {
    pub fn read(mut arguments: impl Iterator<Item = String>) -> Result<Options, String> {
        let mut options = Options {
            task: Task::Compare,
            seed: SEED,
            cases: 0,
            quick: false,
            fault: None,
            only: String::new(),
        };
        while let Some(argument) = arguments.next() {
            let mut value = || {
                let value = arguments.next();
                value.ok_or(format!("{argument} wants a value\n{USE}"))
            };
            match argument.as_str() {
                "--quick" => options.quick = true,
                "--seed" => options.seed = number(&argument, value()?)?,
                "--cases" => options.cases = number(&argument, value()?)?,
                "--only" => options.only = value()?,
                "--fault" => options.fault = Some(fault(number(&argument, value()?)?)?),
                "--faults" => options.task = Task::Faults,
                "--differences" => options.task = Task::Differences,
                "--record" => options.task = Task::Record(value()?),
                "--help" => options.task = Task::Help,
                _ => return Err(format!("unknown option {argument}\n{USE}")),
            }
        }
        if matches!(options.task, Task::Faults) {
            options.quick = true;
        }
        if options.cases == 0 {
            options.cases = if options.quick {
                QUICK_CASES
            } else {
                FULL_CASES
            };
        }
        Ok(options)
    }
}

fn number(option: &str, value: String) -> Result<u64, String> {
    let parsed = value.parse();
    parsed.map_err(|_| format!("{option} wants a number, not {value}"))
}

fn fault(number: u64) -> Result<Fault, String> {
    let fault = (number as usize)
        .checked_sub(1)
        .and_then(|index| FAULTS.get(index));
    let all = FAULTS.len();
    fault
        .copied()
        .ok_or(format!("there are faults 1 to {all}, not {number}"))
}
