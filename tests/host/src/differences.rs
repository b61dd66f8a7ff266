//! Where the original differs from 01: the smallest inputs, and what each says, for
//! docs/DIFFERENCES.md. Built with the profile `shipped` the original wraps where it panics else.
use crate::calls::{Leaf, Question};
use crate::original::Outcome;
use crate::{encode, generate, model, original};
use oracle::{Original, Stopped};
use std::time::Instant;

/// Descriptions, by what they show.
const DESCRIPTIONS: [(&str, &[&[u32]]); 9] = [
    (
        "a fixed list's size saturates",
        &[
            &[10, 4, 2_147_483_648],
            &[10, 12, 268_435_456],
            &[10, 4, 2_147_483_648, 1, 1, 64],
            &[10, 4, 2_147_483_648, 8, 64],
        ],
    ),
    (
        "a sum passes 4294967295",
        &[
            &[10, 2, 4_294_967_295, 1, 2, 64, 2],
            &[10, 4, 2_147_483_647, 1, 2, 64, 2],
            &[10, 2, 4_294_967_289, 10, 8, 0, 1, 2, 64, 65],
            &[10, 12, 268_435_455, 1, 2, 64, 12],
            &[10, 2, 4_294_967_295, 8, 64],
            &[10, 2, 4_294_967_295, 5, 64, 2],
        ],
    ),
    ("no cases", &[&[2, 0], &[7, 0]]),
    (
        "flags above 32, which the standard lacks (equal)",
        &[&[6, 33], &[6, 512]],
    ),
    ("flags above 512", &[&[6, 513], &[6, 8_160], &[6, 8_161]]),
    (
        "size 0, which the standard lacks (equal)",
        &[
            &[1, 0],
            &[4, 0],
            &[6, 0],
            &[10, 8, 0],
            &[10, 8, 0, 1, 1, 64],
            &[10, 8, 0, 1, 2, 2, 64],
            &[1, 0, 10, 64, 3],
            &[1, 0, 8, 64],
        ],
    ),
    (
        "a fixed list of no elements without a flat count (equal)",
        &[&[10, 6, 17, 10, 64, 0], &[10, 6, 17, 3, 64]],
    ),
    (
        "counts where the stand-in may differ from the Rust",
        &[&[7, 256], &[7, 65_536]],
    ),
    ("wide enums", &[&[7, 16_777_217], &[7, 4_294_967_295]]),
];

fn leaves() -> Vec<Leaf> {
    vec![
        Leaf::AlignTo(4_294_967_295, 8),
        Leaf::AlignTo(5, 3),
        Leaf::AlignTo(5, 0),
        Leaf::AlignTo(5, 16),
        Leaf::NextField {
            memory: 0,
            info: [4, 4, 4, 4, 1],
            end: 4_294_967_293,
            k: 0,
        },
        Leaf::NextField {
            memory: 0,
            info: [5, 4, 4, 4, 1],
            end: 0,
            k: 1,
        },
        Leaf::NextField {
            memory: 0,
            info: [4, 4, 4, 4, 17],
            end: 0,
            k: 1,
        },
        Leaf::FixedLengthList {
            info: [2, 2, 2, 2, 1],
            count: 2_147_483_648,
            k: 0,
        },
        Leaf::FixedLengthList {
            info: [5, 4, 4, 4, 1],
            count: 1,
            k: 0,
        },
        Leaf::Record {
            infos: vec![5, 4, 4, 4, 1],
            k: 0,
        },
        Leaf::Record {
            infos: vec![3, 3, 4, 4, 1],
            k: 0,
        },
        Leaf::Record {
            infos: vec![4, 4, 4, 4, 17],
            k: 4,
        },
        Leaf::Variant {
            cases: vec![1, 5, 4, 4, 4, 1],
            k: 0,
        },
        Leaf::Variant {
            cases: vec![1, 3, 3, 4, 4, 1],
            k: 0,
        },
        Leaf::MaxFlat(17, 200),
        Leaf::Flags(8_160, 4),
    ]
}

/// A record and a variant that pass 4294967295: size and alignment in both memories, and of the variant
/// where its payload stands.
fn large_leaves() -> Vec<Leaf> {
    let large = [4_294_967_295, 1, 4_294_967_295, 1, 255];
    let infos = [large, [1, 1, 1, 1, 1]].concat();
    let cases = [&[1], &large[..]].concat();
    let record = |k| Leaf::Record {
        infos: infos.clone(),
        k,
    };
    let variant = |k| Leaf::Variant {
        cases: cases.clone(),
        k,
    };
    let records = [0, 1, 2, 3].map(record).into_iter();
    records.chain([0, 1, 2, 3, 6, 7].map(variant)).collect()
}

pub fn print() {
    let checked = cfg!(debug_assertions);
    let how = if checked {
        "overflow and assertions checked"
    } else {
        "as shipped, unchecked"
    };
    println!("the original: {how}");
    for (what, inputs) in DESCRIPTIONS {
        println!("\n{what}");
        for words in inputs {
            println!("  words {words:?}");
            println!("    original: {}", original_build(words));
            println!("    model:    {}", model_build(words));
        }
    }
    println!("\nleaves");
    for leaf in leaves().into_iter().chain(large_leaves()) {
        println!("  {leaf:?}");
        println!("    original: {}", outcome(original::leaf(&leaf)));
        println!("    model:    {}", said(encode::leaf(model::leaf(&leaf))));
    }
    questions();
    limits();
    cost();
}

/// The last row that there is, and where the build ended.
fn original_build(words: &[u32]) -> String {
    let mut original = Original::new();
    match original.build(words, usize::MAX) {
        Ok(n) if original.agrees_with_itself(n - 1) => row(&original.row(n - 1)),
        Ok(n) => {
            let told = row(&original.row(n - 1));
            format!("{told} (its flat list is not of that length)")
        }
        Err(Stopped::Panicked(index)) => format!("panics at definition {index}"),
        Err(Stopped::Unreadable(index)) => format!("cannot be given definition {index}"),
    }
}

fn model_build(words: &[u32]) -> String {
    let mut table = [0; 4 * model::ROW];
    match model::build(words, &mut table) {
        Ok(answer) => row(&model::row(&table, encode::low(answer) as usize - 1)),
        Err(refused) => format!("refusal {} at {}", refused.number, refused.at),
    }
}

fn row(row: &model::Row) -> String {
    let flat = match row[5] {
        255 => "none".to_string(),
        flat => flat.to_string(),
    };
    let (size32, align32, size64, align64) = (row[1], row[2], row[3], row[4]);
    let mut told = format!("{size32}/{align32}, {size64}/{align64}, flat {flat}");
    if row[8] != 0 {
        told += &format!(
            ", discriminant {}, payload at {} and {}",
            row[8], row[9], row[10]
        );
    }
    if row[0] == 5 {
        told += &format!(", entry {}/{}, {}/{}", row[11], row[12], row[13], row[14]);
        told += &format!(", value at {} and {}", row[9], row[10]);
    }
    told
}

fn outcome(outcome: Outcome) -> String {
    match outcome {
        // The bytes that a rounding skipped are not the original's.
        Outcome::Is(answer, _) => encode::SKIPPED.without(answer).to_string(),
        Outcome::Saturated(answer) => answer.to_string(),
        Outcome::Panicked => "panics".to_string(),
        Outcome::Nothing => "has no such call".to_string(),
    }
}

fn said(answer: u64) -> String {
    match encode::refusal(answer) {
        0 => answer.to_string(),
        number => format!("refusal {number}"),
    }
}

fn questions() {
    println!("\nquestions");
    let mut original = Original::new();
    let words = [10, 2, 4_294_967_295];
    original
        .build(&words, 1)
        .expect("a list of 4294967295 bytes");
    let large = original.reference(64).expect("definition 0");
    let borrow = original.reference(14).expect("Borrow");
    let both = [large, large];
    println!("  parameters 64, 64 after {words:?} (together above 4 GiB)");
    println!(
        "    the original makes their tuple: {}",
        original.makes_tuple(&both)
    );
    println!(
        "    its flat list at maximum 16: {:?}",
        original.flatten(false, 16, &both)
    );
    println!("  contains_borrow_resource, no parameters, one result Borrow");
    println!(
        "    original: {:?} (None: panics)",
        original.contains_borrow(&[], &[borrow])
    );
    println!("    model:    has no results; no parameters give 0");
    let one = original.reference(6).expect("U32");
    let types = [one; 17];
    println!("  flatten at maximum 17, seventeen U32");
    println!("    original: {:?}", original.flatten(false, 17, &types));
    println!("    model:    refusal 5");
}

/// What 01 limits and the original does not.
fn limits() {
    println!("\nlimits");
    let mut original = Original::new();
    let definitions = [1, 0].repeat(1_025);
    println!("  1025 definitions of an empty record");
    let built = original.build(&definitions, usize::MAX).ok();
    println!("    original: {built:?} (None: panics)");
    let built = model::build(&definitions, &mut [0; 16_400]);
    println!("    model:    {}", ended(built));
    deepest();
    println!("  a record of 16383 U8, in 16385 words");
    let words = [vec![1, 16_383], vec![2; 16_383]].concat();
    println!("    original: {}", original_build(&words));
    println!("    model:    {}", model_build(&words));
    println!("  placement of 16385 U8");
    let references = vec![original.reference(2).expect("U8"); 16_385];
    let placed = original
        .placement(false, &references)
        .map(|to| (to.size, to.align));
    println!("    original: {placed:?} (None: panics)");
    let question = Question::Placement {
        memory: 0,
        references: vec![2; 16_385],
        rooms: [16_385; 2],
    };
    let asked = model::ask(&question, &[], 0, [&mut [0; 16_385], &mut [0; 16_385]]);
    println!("    model:    {}", ended(asked));
}

/// Order 5's limit: the last of 101 definitions, each on the one before.
fn deepest() {
    let options = generate::chain(8, 2, 101);
    println!("  101 options, the first of U8 and each other of the one before");
    println!("    original: {}", original_build(&options));
    let built = model::build(&options, &mut [0; 16_400]);
    println!("    model:    {}", ended(built));
}

fn ended(answer: model::Answer<u64>) -> String {
    match answer {
        Ok(value) => value.to_string(),
        Err(refused) => format!("refusal {} at {}", refused.number, refused.at),
    }
}

fn cost() {
    println!("\ncost in the original");
    let begun = Instant::now();
    let told = original_build(&[1, 0, 10, 64, 1_000_000_000]);
    println!(
        "  words [1, 0, 10, 64, 1000000000]: {told}, in {:?}",
        begun.elapsed()
    );
    for depth in [10, 16] {
        let mut words = vec![3, 2];
        for index in 0..depth {
            words.extend([5, 64 + index, 64 + index]);
        }
        let begun = Instant::now();
        let built = Original::unchanged()
            .build(&words, usize::MAX)
            .map_err(|_| ());
        let took = begun.elapsed();
        println!("  {depth} maps, each of the one before twice: {built:?} definitions in {took:?}");
    }
}
