//! The original, asked the boundary's calls.
use crate::calls::{Info, Leaf, PlainCall, Question, Side, WRITTEN};
use crate::encode;
use oracle::component::{CanonicalAbiInfo, InterfaceType, VariantInfo, types_opened};
use oracle::{Flat, Original, guarded};

/// What the original makes of a call.
#[derive(Clone, Debug)]
pub enum Outcome {
    /// The answer, and what stands in the buffers that are written.
    Is(u64, [Vec<u32>; WRITTEN]),
    /// It answered with a size of 4294967295, which may be what became of a greater one.
    Saturated(u64),
    /// An assertion failed or a sum overflowed.
    Panicked,
    /// The original has no such call, or only a stand-in's.
    Nothing,
}

impl Outcome {
    fn of(answer: Option<u64>) -> Outcome {
        answer.map_or(Outcome::Panicked, Outcome::is)
    }

    /// An answer without buffers.
    fn is(answer: u64) -> Outcome {
        Outcome::Is(answer, [vec![], vec![]])
    }
}

/// Whether a leaf's answer is the stand-in's for `DiscriminantSize` or `FlagsSize`.
pub fn is_stand_in(leaf: &Leaf) -> bool {
    match leaf {
        Leaf::Flags(..) | Leaf::Enum(..) | Leaf::Discriminant(..) => true,
        Leaf::Variant { cases, .. } => [256, 65_536].contains(&(cases.len() / 6)),
        _ => false,
    }
}

pub fn leaf(leaf: &Leaf) -> Outcome {
    match leaf {
        Leaf::AlignTo(a, b) => Outcome::of(guarded(|| align_to(*a, *b))),
        Leaf::Max(a, b) => Outcome::of(Some(types_opened::max(*a, *b).into())),
        Leaf::AddFlat(a, b) => {
            let sum = types_opened::add_flat(flat_count(*a), flat_count(*b));
            Outcome::of(Some(flat_word(sum)))
        }
        Leaf::MaxFlat(a, b) => {
            let greatest = types_opened::max_flat(flat_count(*a), flat_count(*b));
            Outcome::of(Some(flat_word(greatest)))
        }
        Leaf::NextField {
            memory,
            info,
            end,
            k,
        } => Outcome::of(guarded(|| next_field(*memory, info, *end, *k))),
        Leaf::Flags(count, k) => {
            let flags = guarded(|| CanonicalAbiInfo::flags(*count as usize));
            Outcome::of(flags.map(|flags| number(&flags, *k)))
        }
        Leaf::Enum(count, k) => {
            let enumeration = guarded(|| CanonicalAbiInfo::enum_(*count as usize));
            Outcome::of(enumeration.map(|enumeration| number(&enumeration, *k)))
        }
        Leaf::FixedLengthList { info, count, k } => {
            let list = CanonicalAbiInfo::fixed_length_list_static(&abi(info), *count as usize);
            let saturated = list.size32 == u32::MAX || list.size64 == u32::MAX;
            match saturated {
                true => Outcome::Saturated(number(&list, *k)),
                false => Outcome::is(number(&list, *k)),
            }
        }
        Leaf::Discriminant(_) => Outcome::Nothing,
        Leaf::Record { infos, k } => {
            let abis: Vec<_> = infos.chunks_exact(5).map(abi_of).collect();
            let record = guarded(|| CanonicalAbiInfo::record(abis.iter()));
            let twin = guarded(|| CanonicalAbiInfo::record_static(&abis));
            assert_eq!(
                record, twin,
                "the original's record and record_static differ"
            );
            Outcome::of(record.map(|record| number(&record, *k)))
        }
        Leaf::Variant { cases, k } => variant(cases, *k),
    }
}

/// What it skipped follows from its value.
fn align_to(place: u32, align: u32) -> u64 {
    let value = types_opened::align_to(place, align);
    encode::rounded(value.into(), distance(place, value))
}

/// What it skipped follows from the offset.
fn next_field(memory: u32, info: &Info, end: u32, k: u32) -> u64 {
    let mut moved = end;
    let offset = match memory {
        0 => abi(info).next_field32(&mut moved),
        _ => abi(info).next_field64(&mut moved),
    };
    match k {
        0 => offset.into(),
        1 => moved.into(),
        _ => distance(end, offset),
    }
}

fn variant(words: &[u32], k: u32) -> Outcome {
    let case = |case: &[u32]| (case[0] != 0).then(|| abi_of(&case[1..]));
    let cases: Vec<_> = words.chunks_exact(6).map(case).collect();
    let whole = guarded(|| VariantInfo::new(cases.iter().map(Option::as_ref)));
    let twins = guarded(|| {
        let info = VariantInfo::new_static(&cases);
        (info, CanonicalAbiInfo::variant_static(&cases))
    });
    assert_eq!(
        whole, twins,
        "the original's variant and its static twins differ"
    );
    Outcome::of(whole.map(|(info, abi)| match k {
        0..=4 => number(&abi, k),
        5 => u32::from(info.size).into(),
        6 => info.payload_offset32.into(),
        _ => info.payload_offset64.into(),
    }))
}

pub fn ask(original: &mut Original, question: &Question) -> Outcome {
    let lists = question.lists().map(|list| {
        let types = list.iter().map(|reference| original.reference(*reference));
        types.collect::<Option<Vec<InterfaceType>>>()
    });
    let [Some(first), Some(second)] = lists else {
        return Outcome::Nothing;
    };
    let is = Outcome::is;
    match question {
        Question::Type { reference, k } => match original.reference(*reference) {
            Some(ty) => is(match k {
                0..=7 => original.numbers(&ty)[*k as usize].into(),
                _ => original.depth(&ty).into(),
            }),
            None => Outcome::Nothing,
        },
        Question::SizeAlign { memory, reference } => match original.reference(*reference) {
            Some(ty) => {
                let (size, align) = original.size_align(*memory != 0, &ty);
                is(encode::layout(size.into(), align.into()))
            }
            None => Outcome::Nothing,
        },
        Question::Placement { memory, .. } => placement(original, *memory != 0, &first),
        Question::Flatten { memory, max, .. } => is(list_or_memory(original.flatten(
            *memory != 0,
            *max as usize,
            &first,
        ))),
        Question::Lowering { side, .. } => {
            is(list_or_memory(original.lowering(side_of(*side), &first)))
        }
        Question::Lifting { side, .. } => {
            is(list_or_memory(original.lifting(side_of(*side), &first)))
        }
        Question::AsyncStart {
            lower,
            lift_memory,
            k,
            ..
        } => {
            let lower = side_of(*lower);
            // 01 has no async setting for the lift side here: both must answer alike.
            let both = [0, 1].map(|asynchronous| {
                let memory = *lift_memory;
                let lift = side_of(Side {
                    memory,
                    asynchronous,
                });
                original.async_start((lower, &first), (lift, &second))
            });
            assert_eq!(both[0], both[1], "the lift side's async flag plays a part");
            is(list(encode::half(both[0], *k)))
        }
        Question::AsyncReturn { lift, lower, k, .. } => {
            let (lift, lower) = (side_of(*lift), side_of(*lower));
            let both = original.async_return((lift, &first), (lower, &second));
            is(list(encode::half(both, *k)))
        }
        Question::ContainsBorrow { .. } => {
            Outcome::of(original.contains_borrow(&first, &[]).map(u64::from))
        }
        Question::Functype { plain, k, .. } => {
            let both = functype(original, *plain, &first, &second);
            is(list(encode::half(both, *k)))
        }
    }
}

/// It has no such function: its `signature` reads back a core type that it is given. Its parts are asked.
///
/// The original's: what is passed of the parameters, at its own maxima and with its own pointer, since the halves of
/// `async_start_signature` are a lower's parameters and a lift's; whether the results go through memory, and their types if
/// not, by `flatten_lowering_types` and `flatten_lifting_types`. Put together here, by the standard: where the pointer to
/// results goes, its type, and what an async call returns.
fn functype(
    original: &mut Original,
    plain: PlainCall,
    params: &[InterfaceType],
    results: &[InterfaceType],
) -> [Flat; 2] {
    let side = side_of(plain.side);
    let pointer = Flat {
        count: 1,
        packed: side.memory64.into(),
    };
    let [of_lower, of_lift] = original.async_start((side, params), (side, params));
    if plain.lower == 0 {
        let returned = match (side.asynchronous, plain.callback) {
            (false, _) => original.lifting(side, results).unwrap_or(pointer),
            (true, 0) => NOTHING,
            (true, _) => STATUS,
        };
        return [of_lift, returned];
    }
    let flat = original.lowering(side, results);
    let passed = match flat {
        Some(_) => of_lower,
        None => append(of_lower, pointer),
    };
    let returned = match side.asynchronous {
        true => STATUS,
        false => flat.unwrap_or(NOTHING),
    };
    [passed, returned]
}

const NOTHING: Flat = Flat {
    count: 0,
    packed: 0,
};

/// One I32, in either memory.
const STATUS: Flat = Flat {
    count: 1,
    packed: 0,
};

fn append(first: Flat, second: Flat) -> Flat {
    Flat {
        count: first.count + second.count,
        packed: first.packed | second.packed << (2 * first.count),
    }
}

/// It has no gaps: they follow from its offsets and the sizes that it gives the members, the one after the last
/// from its own size. It has no number of rows read back either.
fn placement(original: &Original, memory64: bool, types: &[InterfaceType]) -> Outcome {
    let Some(placed) = original.placement(memory64, types) else {
        return Outcome::Panicked;
    };
    let mut end = 0;
    let mut gaps = Vec::with_capacity(types.len());
    for (ty, offset) in types.iter().zip(&placed.offsets) {
        gaps.push(distance(end, *offset) as u32);
        let (size, _) = original.size_align(memory64, ty);
        end = offset.wrapping_add(size);
    }
    let after = distance(end, placed.size);
    let answer = encode::placement(placed.size.into(), placed.align.into(), after, 0);
    Outcome::Is(answer, [placed.offsets, gaps])
}

/// The bytes from one place to another. No gap has more than 7: 8 stands for more, and for a place that is before.
fn distance(from: u32, to: u32) -> u64 {
    to.wrapping_sub(from).min(8).into()
}

fn side_of(side: Side) -> oracle::Side {
    oracle::Side {
        memory64: side.memory != 0,
        asynchronous: side.asynchronous != 0,
    }
}

fn list(flat: Flat) -> u64 {
    encode::flat(flat.count.into(), flat.packed)
}

fn list_or_memory(flat: Option<Flat>) -> u64 {
    flat.map_or(encode::MEMORY, list)
}

/// The boundary's flat count: 255 is none, and so is what is above, where that is not refused.
fn flat_count(word: u32) -> Option<u8> {
    u8::try_from(word).ok().filter(|count| *count != 255)
}

fn flat_word(count: Option<u8>) -> u64 {
    count.map_or(255, u64::from)
}

fn abi(info: &Info) -> CanonicalAbiInfo {
    let [size32, align32, size64, align64, flat] = *info;
    CanonicalAbiInfo {
        size32,
        align32,
        size64,
        align64,
        flat_count: flat_count(flat),
    }
}

fn abi_of(words: &[u32]) -> CanonicalAbiInfo {
    abi(&words.try_into().expect("five words"))
}

fn number(abi: &CanonicalAbiInfo, k: u32) -> u64 {
    match k {
        0 => abi.size32.into(),
        1 => abi.align32.into(),
        2 => abi.size64.into(),
        3 => abi.align64.into(),
        _ => flat_word(abi.flat_count),
    }
}
