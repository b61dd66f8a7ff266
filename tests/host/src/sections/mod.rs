//! What is compared, section by section.
use crate::compare::Run;
use crate::model::{Answer, Refused};

mod beyond;
mod depth;
mod examples;
mod functype;
mod leaves;
mod limits;
mod padding;
mod questions;
mod random;
mod reads;
mod short;
mod sizes;
mod tables;
mod ways;

/// A section's name and what it runs.
pub const SECTIONS: [(&str, fn(&mut Run)); 17] = [
    ("01's examples", examples::run),
    ("leaves over numbers", leaves::numbers),
    ("leaves over infos", leaves::infos),
    ("counts around each boundary", leaves::counts),
    ("joins of short flat lists", short::joins),
    ("short descriptions, all", short::all),
    ("random and damaged descriptions", random::run),
    ("sizes around 4 GiB", sizes::run),
    ("long and deep descriptions", limits::descriptions),
    ("buffers and byte lengths", limits::buffers),
    ("limits of questions", limits::questions),
    ("tables no build wrote", tables::run),
    ("longer than byte calls look at", beyond::run),
    ("short and long over bytes", ways::run),
    ("rows read back", reads::run),
    ("padding", padding::run),
    ("plain calls", functype::run),
];

fn refusal<T>(number: u64, at: u64) -> Answer<T> {
    Err(Refused { number, at })
}
