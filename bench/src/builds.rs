//! Builds: the port beside the original's whole build, its arithmetic, and plain words.
use crate::report::{Aim, Group, Report};
use crate::table::{MOST_ROWS, ROW, row};
use crate::timing::Contender;
use crate::{inputs, plain, port};
use oracle::{Arithmetic, Original, Parsed};
use std::hint::black_box;

pub const TABLE: usize = ROW * MOST_ROWS;

/// The contenders, by their places.
const NAMES: [&str; 4] = [
    "(a) the original's whole build",
    "(b) the original's arithmetic",
    "(c) plain words, no tests",
    "the port",
];
const WHOLE: usize = 0;
const ARITHMETIC: usize = 1;
const PLAIN: usize = 2;
const PORT: usize = 3;

/// What the definitions of an input are.
const ALL_KINDS: &str = "all kinds in turn";
const RANDOM_KINDS: &str = "random kinds";
const RECORDS: &str = "records of 14";

/// How many random descriptions are built in turn.
const RANDOM: u64 = 16;

pub fn run(report: &mut Report) {
    // Together, since the cost of one definition is compared between them.
    let mixed = [10, 100, 1_000].map(|many| [inputs::mixed(many)]);
    let [ten, hundred, thousand] = &mixed;
    let mut inputs = [ten, hundred, thousand].map(|words| Input::new(ALL_KINDS, words));
    let [few, _, many] = report.time_together(inputs.each_mut().map(Input::group));
    report.note("growth of one definition's cost from 10 definitions to 1,000 (1.00: linear)");
    for (contender, name) in NAMES.iter().enumerate() {
        let growth = many.best(contender) / few.best(contender) / 100.0;
        report.note(&format!("  {name:<36} {growth:>12.2}"));
    }
    report.note("");
    let random: Vec<_> = (0..RANDOM)
        .map(|seed| inputs::random(1_000, seed))
        .collect();
    let records = [inputs::records(1_000)];
    let random = report.time(Input::new(RANDOM_KINDS, &random).group());
    let records = report.time(Input::new(RECORDS, &records).group());
    for (kinds, timed, most) in [
        (ALL_KINDS, &many, 1.3),
        (RANDOM_KINDS, &random, 1.6),
        (RECORDS, &records, 1.35),
    ] {
        let over = format!("build, 1000 definitions, {kinds}: the port over plain words");
        report.aim(over, timed.ratio(PORT, PLAIN), Aim::AtMost(most));
    }
    for (whose, contender, least) in [
        ("whole build", WHOLE, 20.0),
        ("arithmetic", ARITHMETIC, 1.0),
    ] {
        let ahead =
            format!("build, 1000 definitions, {ALL_KINDS}: the original's {whose} over the port");
        report.aim(ahead, many.ratio(contender, PORT), Aim::AtLeast(least));
    }
}

/// Descriptions that are built in turn, each of so many definitions, and what their contenders work with.
struct Input<'a> {
    descriptions: &'a [Vec<u32>],
    n: u32,
    kinds: &'static str,
    parsed: Vec<Parsed>,
    arithmetic: Arithmetic,
    plain_table: Vec<u32>,
    port_table: Vec<u32>,
}

impl<'a> Input<'a> {
    fn new(kinds: &'static str, descriptions: &'a [Vec<u32>]) -> Input<'a> {
        let (mut plain_table, mut port_table) = (vec![0; TABLE], vec![0; TABLE]);
        let counts = descriptions
            .iter()
            .map(|words| check(words, &mut plain_table, &mut port_table));
        let n = counts.reduce(|n, m| {
            if n == m {
                n
            } else {
                panic!("{n} and {m} definitions")
            }
        });
        Input {
            descriptions,
            n: n.expect("a description"),
            kinds,
            parsed: descriptions
                .iter()
                .map(|words| Original::parse(words))
                .collect(),
            arithmetic: Arithmetic::new(),
            plain_table,
            port_table,
        }
    }

    fn group(&mut self) -> Group<'_> {
        let words: usize = self.descriptions.iter().map(Vec::len).sum();
        let what = match self.descriptions.len() {
            1 => format!(
                "build, {} definitions, {} ({words} words)",
                self.n, self.kinds
            ),
            many => format!(
                "build, {} definitions, {} ({many} descriptions in turn)",
                self.n, self.kinds
            ),
        };
        let Input {
            parsed,
            arithmetic,
            plain_table,
            port_table,
            ..
        } = self;
        let mut parsed = parsed.iter().cycle();
        let [mut first, mut second, mut third] =
            [self.descriptions; 3].map(|all| all.iter().cycle());
        let contenders = vec![
            Contender::new(NAMES[WHOLE], move || {
                black_box(Original::build_parsed(black_box(next(&mut parsed))));
            }),
            Contender::new(NAMES[ARITHMETIC], move || {
                black_box(arithmetic.build(black_box(next(&mut first))));
            }),
            Contender::new(NAMES[PLAIN], move || {
                // SAFETY: `check` saw the description accepted and the rows right.
                black_box(unsafe { plain::build(black_box(next(&mut second)), plain_table) });
            }),
            Contender::new(NAMES[PORT], move || {
                black_box(port::words::build(black_box(next(&mut third)), port_table));
            }),
        ];
        Group { what, contenders }
    }
}

/// Of what goes round and has no end.
fn next<T>(round: &mut impl Iterator<Item = T>) -> T {
    round.next().expect("there is one at least")
}

/// Plain words and port must write the original's rows, or their times mean nothing. How many rows.
pub fn check(words: &[u32], plain_table: &mut [u32], port_table: &mut [u32]) -> u32 {
    let mut original = Original::new();
    let converted = original.build(words, usize::MAX);
    let n = converted.expect("the original converts the input") as u32;
    // SAFETY: the original converted the description, and the table has room for 1,024 rows.
    let built = unsafe { plain::build(words, plain_table) };
    assert_eq!(built, n);
    let answer = port::words::build(words, port_table);
    assert_eq!(port::rows(answer), Some(n), "the port accepts the input");
    for index in 0..n as usize {
        let said = Some(original.row(index));
        assert_eq!(row(plain_table, index), said, "plain words' row {index}");
        assert_eq!(row(port_table, index), said, "the port's row {index}");
    }
    n
}
