//! Questions: the port beside the original, and beside Rust that makes the same tests.
use crate::report::{Aim, Group, Report};
use crate::tested::{List, Placed, Signature, Way};
use crate::timing::Contender;
use crate::{builds, inputs, port, tested};
use oracle::Original;
use oracle::component::InterfaceType;
use std::hint::black_box;

const ROWS: u32 = 1_000;

pub fn run(report: &mut Report) {
    for (many, least) in [
        (1, 1.2),
        (8, 1.2),
        (64, 1.2),
        (256, 1.2),
        (1_000, 1.2),
        // The shortest list that is placed twice.
        (2_049, 1.0),
        (16_384, 1.4),
    ] {
        placement(report, many, least);
    }
    flatten(report);
    functype(report);
    size_align(report);
}

/// A table of 1,000 rows, and the original with the same types.
fn table() -> (Vec<u32>, Original) {
    let words = inputs::mixed(ROWS);
    let mut tables = [vec![0; builds::TABLE], vec![0; builds::TABLE]];
    let [plain, port] = &mut tables;
    builds::check(&words, plain, port);
    let [_, table] = tables;
    (table, Original::build_parsed(&Original::parse(&words)))
}

fn types_of(original: &mut Original, references: &[u32]) -> Vec<InterfaceType> {
    let types = references.iter().map(|word| original.reference(*word));
    types.collect::<Option<_>>().expect("good references")
}

/// What a placement writes.
#[derive(Debug, PartialEq)]
struct Buffers {
    offsets: Vec<u32>,
    gaps: Vec<u32>,
}

impl Buffers {
    fn new(many: usize) -> Buffers {
        Buffers {
            offsets: vec![0; many],
            gaps: vec![0; many],
        }
    }

    #[inline]
    fn by_rust(&mut self, table: &[u32], references: &[u32]) -> Option<Placed> {
        tested::placement(table, ROWS, references, &mut self.offsets, &mut self.gaps)
    }

    #[inline]
    fn by_port(&mut self, table: &[u32], references: &[u32]) -> u64 {
        port::words::placement(table, ROWS, references, &mut self.offsets, &mut self.gaps)
    }
}

/// In the 32-bit memory. The original reports no gaps: they are what its offsets and sizes leave.
fn by_original(original: &Original, types: &[InterfaceType]) -> (Buffers, Placed) {
    let placed = original.placement(false, types).expect("a placement");
    let (size, align, offsets) = (placed.size, placed.align, placed.offsets);
    let (mut end, mut gaps) = (0, Vec::new());
    for (ty, offset) in types.iter().zip(&offsets) {
        gaps.push(offset - end);
        end = offset + original.size_align(false, ty).0;
    }
    let after = size - end;
    (Buffers { offsets, gaps }, Placed { size, align, after })
}

fn placement(report: &mut Report, many: usize, least: f64) {
    let (table, mut original) = table();
    let references = inputs::references(many, ROWS);
    let types = types_of(&mut original, &references);
    let (written, answer) = by_original(&original, &types);
    let (mut rust, mut ported) = (Buffers::new(many), Buffers::new(many));
    assert_eq!(rust.by_rust(&table, &references), Some(answer));
    assert_eq!(rust, written);
    let said = port::placed(answer, &references);
    let placed = ported.by_port(&table, &references);
    assert_eq!(placed, said, "the port's placement");
    assert_eq!(ported, written, "the port's offsets and gaps");

    let contenders = vec![
        Contender::new("(a) the original (32 and 64 both)", || {
            black_box(original.placement(false, black_box(&types)));
        }),
        Contender::new("(t) Rust with the same tests", || {
            black_box(rust.by_rust(&table, black_box(&references)));
        }),
        Contender::new("the port", || {
            black_box(ported.by_port(&table, black_box(&references)));
        }),
    ];
    let what = format!("placement of {many}, 1,000 rows");
    let timed = report.time(Group { what, contenders });
    let ahead = format!("placement of {many}: the original over the port");
    report.aim(ahead, timed.ratio(0, 2), Aim::AtLeast(least));
}

/// The original's list of references that travel flat.
fn flat_by_original(original: &mut Original, references: &[u32]) -> (Vec<InterfaceType>, List) {
    let types = types_of(original, references);
    let flat = original.flatten(false, 16, &types).expect("a list");
    let (packed, count) = (flat.packed, flat.count);
    (types, List { packed, count })
}

fn flatten(report: &mut Report) {
    let (table, mut original) = table();
    let references = inputs::flat_references();
    let (types, expected) = flat_by_original(&mut original, &references);
    let flat = tested::flatten(&table, ROWS, 16, &references);
    assert_eq!(flat, Some(Some(expected)));
    let answer = port::words::flatten(&table, ROWS, 16, &references);
    assert_eq!(answer, port::list(expected), "the port's list");

    let contenders = vec![
        Contender::new("(a) the original", || {
            black_box(original.flatten(false, 16, black_box(&types)));
        }),
        Contender::new("(t) Rust with the same tests", || {
            black_box(tested::flatten(&table, ROWS, 16, black_box(&references)));
        }),
        Contender::new("the port", || {
            let references = black_box(&references);
            black_box(port::words::flatten(&table, ROWS, 16, references));
        }),
    ];
    let what = "flatten of 6 to 16 types, 1,000 rows".to_string();
    let timed = report.time(Group { what, contenders });
    let ahead = "flatten of 6: the original over the port";
    report.aim(ahead, timed.ratio(0, 2), Aim::AtLeast(1.8));
}

/// Both lists of Rust's signature must be the port's.
fn check_ways(by_rust: impl Fn(Way) -> Option<Signature>, by_port: impl Fn(Way, u32) -> u64) {
    for way in Way::all() {
        let Signature { params, results } = by_rust(way).expect("a signature");
        let lists = [params, results].map(port::list);
        assert_eq!([0, 1].map(|k| by_port(way, k)), lists, "{way:?}");
    }
}

/// A sync lower with sixteen flat parameters and a large result, for which a pointer is the seventeenth: no list is longer.
/// The original has no such function. So Rust is held to the port in every way, and the timed list to the original's of the
/// parameters.
fn functype(report: &mut Report) {
    let (table, mut original) = table();
    let params = inputs::flat_references();
    // One of the two records.
    let results = [params[0]];
    let by_rust =
        |way| tested::functype(way, &table, ROWS, black_box(&params), black_box(&results));
    let by_port = |way, k| {
        let (params, results) = (black_box(&params), black_box(&results));
        port::words::functype(way, &table, ROWS, params, results, k)
    };
    check_ways(by_rust, by_port);
    let (_, flat) = flat_by_original(&mut original, &params);
    let expected = port::list(flat.with_pointer());
    let answer = by_port(Way::SYNC_LOWER, 0);
    assert_eq!(answer, expected, "the port's parameters");

    let contenders = vec![
        Contender::new("(t) Rust with the same tests", || {
            black_box(by_rust(black_box(Way::SYNC_LOWER)));
        }),
        Contender::new("(2) two flattens by the port", || {
            let (params, results) = (black_box(&params), black_box(&results));
            black_box(port::words::flatten(&table, ROWS, 16, params));
            black_box(port::words::flatten(&table, ROWS, 1, results));
        }),
        Contender::new("the port", || {
            black_box(by_port(black_box(Way::SYNC_LOWER), 0));
        }),
    ];
    let what = "functype, 6 parameters and 1 result, 1,000 rows".to_string();
    let timed = report.time(Group { what, contenders });
    for (place, whose, most) in [
        (0, "Rust with the same tests", 1.25),
        (1, "two flattens", 1.1),
    ] {
        let over = format!("functype: the port over {whose}");
        report.aim(over, timed.ratio(2, place), Aim::AtMost(most));
    }
}

/// Reference by reference, in the 32-bit memory.
fn size_align(report: &mut Report) {
    let (table, mut original) = table();
    let references = inputs::references(ROWS as usize, ROWS);
    let types = types_of(&mut original, &references);
    for (reference, ty) in references.iter().zip(&types) {
        let expected = original.size_align(false, ty);
        let tested = tested::size_align(&table, ROWS, *reference);
        assert_eq!(tested, Some(expected));
        let answer = port::words::size_align(&table, ROWS, *reference);
        assert_eq!(answer, port::layout(expected), "the port's layout");
    }

    let contenders = vec![
        Contender::new("(a) the original", || {
            for ty in black_box(&types) {
                black_box(original.size_align(false, ty));
            }
        }),
        Contender::new("(t) Rust with the same tests", || {
            for reference in black_box(&references) {
                black_box(tested::size_align(&table, ROWS, *reference));
            }
        }),
        Contender::new("the port", || {
            for reference in black_box(&references) {
                black_box(port::words::size_align(&table, ROWS, *reference));
            }
        }),
    ];
    let what = "size_align of 1,000 references one by one, 1,000 rows".to_string();
    report.time(Group { what, contenders });
}
