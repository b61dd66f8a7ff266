//! Records and variants of infos, over words and over bytes, beside the original. The original is lent the infos as its own structs, and
//! tests none of them.
use crate::port::{bytes, bytes_of, words};
use crate::report::{Group, Report};
use crate::timing::Contender;
use oracle::component::{CanonicalAbiInfo, VariantInfo};
use std::hint::black_box;

const MANY: [usize; 5] = [1, 4, 8, 32, 1_000];
/// U8, U32, a string and a record of U16 and U32, as infos: size and alignment in both memories, flat count.
const INFOS: [[u32; 5]; 4] = [
    [1, 1, 1, 1, 1],
    [4, 4, 4, 4, 1],
    [8, 4, 16, 8, 2],
    [8, 4, 8, 4, 2],
];

pub fn run(report: &mut Report) {
    for many in MANY {
        record(report, many);
    }
    for many in MANY {
        variant(report, many);
    }
}

fn infos(many: usize) -> impl Iterator<Item = [u32; 5]> {
    INFOS.into_iter().cycle().take(many)
}

fn abi([size32, align32, size64, align64, flat]: [u32; 5]) -> CanonicalAbiInfo {
    CanonicalAbiInfo {
        size32,
        align32,
        size64,
        align64,
        flat_count: Some(flat as u8),
    }
}

fn record(report: &mut Report, many: usize) {
    let abis: Vec<_> = infos(many).map(abi).collect();
    let lent: Vec<u32> = infos(many).flatten().collect();
    beside(
        report,
        format!("record of {many} infos"),
        CanonicalAbiInfo::record(abis.iter()).size32,
        || CanonicalAbiInfo::record(black_box(&abis).iter()).size32,
        &lent,
        words::record,
        bytes::record,
    );
}

/// Every second case has a payload.
fn variant(report: &mut Report, many: usize) {
    let cases: Vec<_> = infos(many)
        .enumerate()
        .map(|(place, info)| (place % 2 == 0).then_some(info))
        .collect();
    let abis: Vec<_> = cases.iter().map(|case| case.map(abi)).collect();
    let lent: Vec<u32> = cases
        .iter()
        .flat_map(|case| {
            let info = case.unwrap_or_default();
            [u32::from(case.is_some())].into_iter().chain(info)
        })
        .collect();
    let original = || {
        VariantInfo::new(black_box(&abis).iter().map(Option::as_ref))
            .1
            .size32
    };
    beside(
        report,
        format!("variant of {many} cases"),
        original(),
        original,
        &lent,
        words::variant,
        bytes::variant,
    );
}

/// All three must give the same size in the 32-bit memory.
fn beside(
    report: &mut Report,
    what: String,
    size: u32,
    original: impl Fn() -> u32,
    lent: &[u32],
    over_words: fn(&[u32]) -> u64,
    over_bytes: fn(&[u8]) -> u64,
) {
    let lent_bytes = bytes_of(lent);
    assert_eq!(over_words(lent), u64::from(size), "{what}");
    assert_eq!(
        over_bytes(&lent_bytes),
        u64::from(size),
        "{what} over bytes"
    );
    let contenders = vec![
        Contender::new("(a) the original", || {
            black_box(original());
        }),
        Contender::new("the port over bytes", || {
            black_box(over_bytes(black_box(&lent_bytes)));
        }),
        Contender::new("the port over words", || {
            black_box(over_words(black_box(lent)));
        }),
    ];
    report.time(Group { what, contenders });
}
