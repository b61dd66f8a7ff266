//! By hand, for timing: the original's arithmetic without its tables. Sizes by `CanonicalAbiInfo` and
//! `VariantInfo`, flat types and handles by `TypeInformation`, over vectors; no names, no interning.
use super::*;
use std::hint::black_box;

pub struct Arithmetic {
    scalars: [InterfaceType; 18],
    /// For the scalars' infos, which are the original's own.
    builder: ComponentTypesBuilder,
    abis: Vec<CanonicalAbiInfo>,
    infos: Vec<TypeInformation>,
}

impl Arithmetic {
    pub fn new() -> Arithmetic {
        let resource = TypeResourceTableIndex::from_u32(0);
        let error = TypeComponentLocalErrorContextTableIndex::from_u32(0);
        Arithmetic {
            scalars: [
                InterfaceType::Bool,
                InterfaceType::S8,
                InterfaceType::U8,
                InterfaceType::S16,
                InterfaceType::U16,
                InterfaceType::S32,
                InterfaceType::U32,
                InterfaceType::S64,
                InterfaceType::U64,
                InterfaceType::Float32,
                InterfaceType::Float64,
                InterfaceType::Char,
                InterfaceType::String,
                InterfaceType::Own(resource),
                InterfaceType::Borrow(resource),
                InterfaceType::Future(TypeFutureTableIndex::from_u32(0)),
                InterfaceType::Stream(TypeStreamTableIndex::from_u32(0)),
                InterfaceType::ErrorContext(error),
            ],
            builder: ComponentTypesBuilder::new(&Validator),
            abis: Vec::new(),
            infos: Vec::new(),
        }
    }

    /// Reckons every definition of a good description; answers their number.
    pub fn build(&mut self, words: &[u32]) -> usize {
        self.abis.clear();
        self.infos.clear();
        let mut at = 0;
        while at < words.len() {
            let rest = &words[at..];
            let (members, length) = match rest[0] {
                1 | 2 | 4 => (&rest[2..2 + rest[1] as usize], 2 + rest[1] as usize),
                5 | 9 => (&rest[1..3], 3),
                10 => (&rest[1..2], 3),
                6 | 7 => (&rest[..0], 2),
                _ => (&rest[1..2], 2),
            };
            let count = rest[length - 1];
            let (abi, info) = self.definition(rest[0], members, count);
            self.abis.push(abi);
            self.infos.push(info);
            at += length;
        }
        self.abis.len()
    }

    /// `count` is the number of labels, cases or elements of kinds 6, 7 and 10.
    fn definition(
        &self,
        kind: u32,
        members: &[u32],
        count: u32,
    ) -> (CanonicalAbiInfo, TypeInformation) {
        let abis = members.iter().map(|word| self.abi(*word));
        let infos = members.iter().map(|word| self.info(*word));
        let mut info = TypeInformation::new();
        let abi = match kind {
            1 | 4 => {
                info.build_record(infos);
                CanonicalAbiInfo::record(abis)
            }
            2 | 9 => {
                let payload = |word: &u32| *word != u32::MAX;
                let cases = members.iter().map(|w| payload(w).then(|| self.info(*w)));
                info.build_variant(cases);
                let cases = members.iter().map(|w| payload(w).then(|| self.abi(*w)));
                let (variant, abi) = VariantInfo::new(cases);
                black_box(variant);
                abi
            }
            3 | 5 => {
                info = TypeInformation::string();
                info.handles =
                    infos.fold(info.handles, |all, part| Handles::join(all, part.handles));
                if kind == 5 {
                    self.entry(members);
                }
                CanonicalAbiInfo::POINTER_PAIR
            }
            6 => {
                if count > 0 {
                    info.flat.push(FlatType::I32, FlatType::I32);
                }
                CanonicalAbiInfo::flags(count as usize)
            }
            7 => {
                info.flat.push(FlatType::I32, FlatType::I32);
                let (variant, abi) = VariantInfo::new((0..count as usize).map(|_| None));
                black_box(variant);
                abi
            }
            8 => {
                info.build_variant([None, Some(self.info(members[0]))]);
                let (variant, abi) = VariantInfo::new([None, Some(self.abi(members[0]))]);
                black_box(variant);
                abi
            }
            _ => {
                let element = self.info(members[0]);
                info.handles = element.handles;
                repeat(&mut info, element, count);
                CanonicalAbiInfo::fixed_length_list_static(self.abi(members[0]), count as usize)
            }
        };
        (abi, info)
    }

    /// What `map_type` reckons of an entry.
    fn entry(&self, key_and_value: &[u32]) {
        let (key, value) = (self.abi(key_and_value[0]), self.abi(key_and_value[1]));
        black_box(CanonicalAbiInfo::record([key, value].into_iter()));
        let (mut offset32, mut offset64) = (0, 0);
        key.next_field32(&mut offset32);
        black_box(value.next_field32(&mut offset32));
        key.next_field64(&mut offset64);
        black_box(value.next_field64(&mut offset64));
    }

    fn abi(&self, word: u32) -> &CanonicalAbiInfo {
        match word {
            0..64 => self.builder.canonical_abi(&self.scalars[word as usize]),
            _ => &self.abis[word as usize - 64],
        }
    }

    fn info(&self, word: u32) -> &TypeInformation {
        match word {
            0..64 => self.builder.type_information(&self.scalars[word as usize]),
            _ => &self.infos[word as usize - 64],
        }
    }
}

impl Default for Arithmetic {
    fn default() -> Self {
        Arithmetic::new()
    }
}

/// The loop of `fixed_length_lists`, which takes the element from the original's tables.
fn repeat(info: &mut TypeInformation, element: &TypeInformation, count: u32) {
    match element.flat.as_flat_types() {
        Some(types) => {
            'outer: for _ in 0..count {
                for (t32, t64) in types.memory32.iter().zip(types.memory64) {
                    if !info.flat.push(*t32, *t64) {
                        break 'outer;
                    }
                }
            }
        }
        None => info.flat.len = u8::try_from(MAX_FLAT_TYPES + 1).unwrap(),
    }
}
