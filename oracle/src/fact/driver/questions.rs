//! By hand: 01's questions put to the functions of signature.rs and types.rs.
use super::*;

/// One side of an adapter.
#[derive(Clone, Copy)]
pub struct Side {
    pub memory64: Memory64,
    pub asynchronous: bool,
}

/// A list of core types: how many, and two bits for each, the first lowest.
#[derive(Clone, Copy, PartialEq, Eq, Debug)]
pub struct Flat {
    pub count: u32,
    pub packed: u64,
}

#[derive(Clone, PartialEq, Eq, Debug)]
pub struct Placed {
    pub offsets: Vec<u32>,
    pub size: u32,
    pub align: u32,
}

impl Original {
    pub fn size_align(&self, memory64: Memory64, ty: &InterfaceType) -> (u32, u32) {
        let options = options(memory64, false);
        let memory = options.data_model.unwrap_memory();
        self.builder.size_align(memory, ty)
    }

    /// Offsets by `next_field32` or `next_field64`, size and alignment by `CanonicalAbiInfo::record`.
    /// None when the original overflows in this memory.
    pub fn placement(&self, memory64: Memory64, types: &[InterfaceType]) -> Option<Placed> {
        let abis = || types.iter().map(|ty| self.builder.canonical_abi(ty));
        let this_memory = |record: CanonicalAbiInfo| match memory64 {
            true => (record.size64, record.align64),
            false => (record.size32, record.align32),
        };
        let offsets = guarded(|| {
            let mut end = 0;
            let next = |abi: &CanonicalAbiInfo| match memory64 {
                true => abi.next_field64(&mut end),
                false => abi.next_field32(&mut end),
            };
            abis().map(next).collect()
        })?;
        let whole = guarded(|| this_memory(CanonicalAbiInfo::record(abis())));
        // `record` reckons both memories: where it panics, the other one's half is emptied.
        let (size, align) = whole.or_else(|| {
            let halves: Vec<_> = abis().map(|abi| half(abi, memory64)).collect();
            guarded(|| this_memory(CanonicalAbiInfo::record(halves.iter())))
        })?;
        Some(Placed {
            offsets,
            size,
            align,
        })
    }

    pub fn flatten(&self, memory64: Memory64, max: usize, types: &[InterfaceType]) -> Option<Flat> {
        let types = types.iter().copied();
        let list = self
            .builder
            .flatten_types(&options(memory64, false), max, types);
        list.map(flat)
    }

    pub fn lowering(&self, side: Side, types: &[InterfaceType]) -> Option<Flat> {
        let options = options(side.memory64, side.asynchronous);
        let list = self
            .builder
            .flatten_lowering_types(&options, types.iter().copied());
        list.map(flat)
    }

    pub fn lifting(&self, side: Side, types: &[InterfaceType]) -> Option<Flat> {
        let options = options(side.memory64, side.asynchronous);
        let list = self
            .builder
            .flatten_lifting_types(&options, types.iter().copied());
        list.map(flat)
    }

    /// Parameters and results; the lists are the two sides' parameter types.
    pub fn async_start(
        &mut self,
        lower: (Side, &[InterfaceType]),
        lift: (Side, &[InterfaceType]),
    ) -> [Flat; 2] {
        let lower = self.adapter(lower.0, lower.1, &[]);
        let lift = self.adapter(lift.0, lift.1, &[]);
        let signature = self.builder.async_start_signature(&lower, &lift);
        [signature.params, signature.results].map(flat)
    }

    /// Parameters and results; the lists are the two sides' result types.
    pub fn async_return(
        &mut self,
        lift: (Side, &[InterfaceType]),
        lower: (Side, &[InterfaceType]),
    ) -> [Flat; 2] {
        let lower = self.adapter(lower.0, &[], lower.1);
        let lift = self.adapter(lift.0, &[], lift.1);
        let signature = self.builder.async_return_signature(&lower, &lift);
        [signature.params, signature.results].map(flat)
    }

    /// None when the original panics: it asserts, where assertions are on, that no result has a
    /// borrow.
    pub fn contains_borrow(
        &mut self,
        params: &[InterfaceType],
        results: &[InterfaceType],
    ) -> Option<bool> {
        let side = Side {
            memory64: false,
            asynchronous: false,
        };
        let adapter = self.adapter(side, params, results);
        guarded(|| self.builder.contains_borrow_resource(&adapter))
    }

    /// Whether `new_tuple_type`, which the original calls for a function's parameters and for its
    /// results, gets through.
    pub fn makes_tuple(&mut self, types: &[InterfaceType]) -> bool {
        guarded(|| self.builder.new_tuple_type(types.into())).is_some()
    }

    fn adapter(
        &mut self,
        side: Side,
        params: &[InterfaceType],
        results: &[InterfaceType],
    ) -> AdapterOptions {
        let params = self.tuple(params);
        let results = self.tuple(results);
        let ty = self.builder.add_func_type(TypeFunc {
            async_: side.asynchronous,
            param_names: Vec::new(),
            params,
            results,
        });
        AdapterOptions {
            instance: RuntimeComponentInstanceIndex::from_u32(0),
            ty,
            flags: GlobalIndex::from_u32(0),
            post_return: None,
            options: options(side.memory64, side.asynchronous),
        }
    }

    /// A function's parameters or results. Where their size passes 4 GiB `new_tuple_type` overflows;
    /// the signatures do not look at the size, so that of no member stands for it then.
    fn tuple(&mut self, types: &[InterfaceType]) -> TypeTupleIndex {
        let builder = &mut self.builder;
        let made = guarded(|| builder.new_tuple_type(types.into()));
        made.unwrap_or_else(|| {
            let abi = CanonicalAbiInfo::ZERO;
            let types = types.into();
            self.builder.add_tuple_type(TypeTuple { types, abi })
        })
    }
}

fn half(abi: &CanonicalAbiInfo, memory64: Memory64) -> CanonicalAbiInfo {
    let mut abi = abi.clone();
    let (size, align) = match memory64 {
        true => (&mut abi.size32, &mut abi.align32),
        false => (&mut abi.size64, &mut abi.align64),
    };
    (*size, *align) = (0, 1);
    abi
}

fn options(memory64: Memory64, asynchronous: bool) -> Options {
    let idx_type = match memory64 {
        true => IndexType::I64,
        false => IndexType::I32,
    };
    Options {
        string_encoding: StringEncoding::Utf8,
        callback: None,
        async_: asynchronous,
        core_type: ModuleInternedTypeIndex::from_u32(0),
        data_model: DataModel::LinearMemory(LinearMemoryOptions {
            memory: Some((MemoryIndex::from_u32(0), Memory { idx_type })),
            realloc: None,
        }),
    }
}

fn flat(types: Vec<ValType>) -> Flat {
    let code = |ty: &ValType| match ty {
        ValType::I32 => 0,
        ValType::I64 => 1,
        ValType::F32 => 2,
        ValType::F64 => 3,
        ValType::V128 => unreachable!("no flat type is a vector"),
    };
    Flat {
        count: types.len() as u32,
        packed: types.iter().rev().fold(0, |word, ty| word << 2 | code(ty)),
    }
}
