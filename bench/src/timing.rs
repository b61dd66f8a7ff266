//! Times of several contenders, who take turns round by round.
use std::collections::BTreeMap;
use std::io;
use std::time::{Duration, Instant};

const ROUNDS: usize = 300;
/// A turn repeats its work for about so long.
const TURN: Duration = Duration::from_micros(250);

/// Something to be timed, with the name that it is printed by.
pub struct Contender<'a> {
    pub name: &'static str,
    work: Box<dyn FnMut() + 'a>,
}

impl<'a> Contender<'a> {
    pub fn new(name: &'static str, work: impl FnMut() + 'a) -> Contender<'a> {
        let work = Box::new(work);
        Contender { name, work }
    }
}

/// Nanoseconds of one piece of work: the best of all rounds, and the lower quartile.
#[derive(Clone, Copy)]
pub struct Time {
    pub best: f64,
    pub quartile: f64,
}

/// Each contender's times. What else the machine does slows some rounds down and none up: the best is the
/// code's own time, and where the quartile is far from it the machine was busy.
pub fn times(contenders: &mut [&mut Contender]) -> Vec<Time> {
    let repeats: Vec<u32> = contenders.iter_mut().map(|c| repeats(c)).collect();
    let mut rounds = vec![Vec::with_capacity(ROUNDS); contenders.len()];
    for _ in 0..ROUNDS {
        for (place, contender) in contenders.iter_mut().enumerate() {
            let begun = Instant::now();
            for _ in 0..repeats[place] {
                (contender.work)();
            }
            let each = begun.elapsed().as_nanos() as f64 / f64::from(repeats[place]);
            rounds[place].push(each);
        }
    }
    rounds.iter_mut().map(|rounds| time_of(rounds)).collect()
}

/// How often the work is done in a turn; finding out warms it up.
fn repeats(contender: &mut Contender) -> u32 {
    let begun = Instant::now();
    let mut twice = 0;
    while begun.elapsed() < 2 * TURN {
        (contender.work)();
        twice += 1;
    }
    (twice / 2).max(1)
}

fn time_of(rounds: &mut [f64]) -> Time {
    rounds.sort_by(f64::total_cmp);
    Time {
        best: rounds[0],
        quartile: rounds[rounds.len() / 4],
    }
}

/// The best times so far of the same code linked in other places, by the name of what was timed.
#[derive(Default)]
pub struct Links(BTreeMap<String, Time>);

impl Links {
    /// From a file of earlier links, which need not be there: a line for each name, after its two times.
    pub fn read(file: &str) -> Links {
        let text = std::fs::read_to_string(file).unwrap_or_default();
        let line = |line: &str| {
            let mut parts = line.splitn(3, ' ');
            let best = parts.next()?.parse().ok()?;
            let quartile = parts.next()?.parse().ok()?;
            Some((parts.next()?.to_string(), Time { best, quartile }))
        };
        Links(text.lines().filter_map(line).collect())
    }

    pub fn write(&self, file: &str) -> io::Result<()> {
        let line =
            |(name, time): (&String, &Time)| format!("{} {} {name}\n", time.best, time.quartile);
        std::fs::write(file, self.0.iter().map(line).collect::<String>())
    }

    /// The better of this time and those so far.
    pub fn best(&mut self, name: String, time: Time) -> Time {
        let kept = self.0.entry(name).or_insert(time);
        kept.best = kept.best.min(time.best);
        kept.quartile = kept.quartile.min(time.quartile);
        *kept
    }
}
