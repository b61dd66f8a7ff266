//! What is printed: the times, and at the end their ratios beside the aims.
use crate::timing::{Contender, Links, Time, times};

/// How a ratio is held to its aim.
#[derive(Clone, Copy)]
pub enum Aim {
    AtLeast(f64),
    AtMost(f64),
}

/// One line of the summary.
struct Ratio {
    what: String,
    ratio: f64,
    aim: Aim,
}

pub struct Report {
    links: Links,
    ratios: Vec<Ratio>,
    /// Nothing is printed before the last link.
    is_last: bool,
}

/// Contenders at the same work.
pub struct Group<'a> {
    pub what: String,
    pub contenders: Vec<Contender<'a>>,
}

/// The times of one group of contenders, in their order.
pub struct Timed(Vec<Time>);

impl Timed {
    /// How many times the second's time the first takes.
    pub fn ratio(&self, first: usize, second: usize) -> f64 {
        self.0[first].best / self.0[second].best
    }

    pub fn best(&self, contender: usize) -> f64 {
        self.0[contender].best
    }
}

impl Report {
    pub fn new(links: Links, is_last: bool) -> Report {
        Report {
            links,
            ratios: Vec::new(),
            is_last,
        }
    }

    /// Times one group.
    pub fn time(&mut self, group: Group) -> Timed {
        let [timed] = self.time_together([group]);
        timed
    }

    /// Times groups whose times are to be compared with each other too: all contenders take turns. Prints
    /// each, with how many times the last one's time of its group it takes.
    pub fn time_together<const N: usize>(&mut self, mut groups: [Group; N]) -> [Timed; N] {
        let contenders = groups.iter_mut().flat_map(|group| &mut group.contenders);
        let mut measured = times(&mut contenders.collect::<Vec<_>>()).into_iter();
        groups.map(|Group { what, contenders }| {
            let names = contenders.iter().map(|contender| contender.name);
            let kept = names.map(|name| {
                let time = measured.next().expect("a time for each contender");
                self.links.best(format!("{what}: {name}"), time)
            });
            let timed = Timed(kept.collect());
            if self.is_last {
                print(&what, &contenders, &timed);
            }
            timed
        })
    }

    /// Prints a line.
    pub fn note(&self, line: &str) {
        if self.is_last {
            println!("{line}");
        }
    }

    /// Puts a ratio into the summary.
    pub fn aim(&mut self, what: impl Into<String>, ratio: f64, aim: Aim) {
        let what = what.into();
        self.ratios.push(Ratio { what, ratio, aim });
    }

    /// The summary; hands the times back.
    pub fn end(self) -> Links {
        if self.is_last {
            println!("times divided by times (best rounds), beside the aims");
            for Ratio { what, ratio, aim } in &self.ratios {
                let (aim, by) = match aim {
                    Aim::AtLeast(aim) => (format!("at least {aim:.2}"), aim / ratio - 1.0),
                    Aim::AtMost(aim) => (format!("at most {aim:.2}"), ratio / aim - 1.0),
                };
                let told = match by > 0.0 {
                    true => format!("missed by {:.0} %", 100.0 * by),
                    false => "met".to_string(),
                };
                println!("  {what:<84} {ratio:>8.2}   {aim:<14} {told}");
            }
        }
        self.links
    }
}

fn print(what: &str, contenders: &[Contender], timed: &Timed) {
    let last = contenders.len() - 1;
    println!("{what}");
    for (place, contender) in contenders.iter().enumerate() {
        let Time { best, quartile } = timed.0[place];
        let ratio = timed.ratio(place, last);
        let (name, last) = (contender.name, contenders[last].name);
        println!("  {name:<36} {best:>12.1} {quartile:>12.1} {ratio:>8.2} of {last}");
    }
    println!();
}
