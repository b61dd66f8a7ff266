//! The calls of the port's boundary as data, so that port, model and original are asked alike and a
//! difference can be printed.

/// size32, align32, size64, align64, flat count.
pub type Info = [u32; 5];

/// A call over numbers or lent infos.
#[derive(Clone, Debug)]
pub enum Leaf {
    AlignTo(u32, u32),
    Max(u32, u32),
    AddFlat(u32, u32),
    MaxFlat(u32, u32),
    NextField {
        memory: u32,
        info: Info,
        end: u32,
        k: u32,
    },
    Flags(u32, u32),
    Enum(u32, u32),
    FixedLengthList {
        info: Info,
        count: u32,
        k: u32,
    },
    Discriminant(u32),
    /// Five words an info.
    Record {
        infos: Vec<u32>,
        k: u32,
    },
    /// Six words a case: whether it has a payload, then the info.
    Variant {
        cases: Vec<u32>,
        k: u32,
    },
}

/// One side of a call between components, by the boundary's numbers.
#[derive(Clone, Copy, Debug)]
pub struct Side {
    pub memory: u32,
    pub asynchronous: u32,
}

/// A question put to a table.
#[derive(Clone, Debug)]
pub enum Question {
    Type {
        reference: u32,
        k: u32,
    },
    SizeAlign {
        memory: u32,
        reference: u32,
    },
    Placement {
        memory: u32,
        references: Vec<u32>,
        /// The lengths of the lent buffers in words: the offsets', then the gaps'.
        rooms: [usize; WRITTEN],
    },
    Flatten {
        memory: u32,
        max: u32,
        references: Vec<u32>,
    },
    Lowering {
        side: Side,
        references: Vec<u32>,
    },
    Lifting {
        side: Side,
        references: Vec<u32>,
    },
    AsyncStart {
        lower: Side,
        lift_memory: u32,
        lower_types: Vec<u32>,
        lift_types: Vec<u32>,
        k: u32,
    },
    AsyncReturn {
        lift: Side,
        lower: Side,
        lift_types: Vec<u32>,
        lower_types: Vec<u32>,
        k: u32,
    },
    ContainsBorrow {
        references: Vec<u32>,
    },
    /// The core signature of a plain call (order 1): how it is called, the function's types, and which half.
    Functype {
        plain: PlainCall,
        params: Vec<u32>,
        results: Vec<u32>,
        k: u32,
    },
}

/// How a function is called without an adapter, by the boundary's numbers.
#[derive(Clone, Copy, Debug)]
pub struct PlainCall {
    pub side: Side,
    pub lower: u32,
    pub callback: u32,
}

/// The most buffers that a call is lent to write: a placement's offsets and its gaps.
pub const WRITTEN: usize = 2;

impl Question {
    /// The lists of references in the order of the call's arguments; empty ones where the question
    /// has fewer than two.
    pub fn lists(&self) -> [&[u32]; 2] {
        match self {
            Question::Type { .. } | Question::SizeAlign { .. } => [&[], &[]],
            Question::Placement { references, .. }
            | Question::Flatten { references, .. }
            | Question::Lowering { references, .. }
            | Question::Lifting { references, .. }
            | Question::ContainsBorrow { references } => [references, &[]],
            Question::AsyncStart {
                lower_types,
                lift_types,
                ..
            } => [lower_types, lift_types],
            Question::AsyncReturn {
                lift_types,
                lower_types,
                ..
            } => [lift_types, lower_types],
            Question::Functype {
                params, results, ..
            } => [params, results],
        }
    }

    /// Every reference of the question.
    pub fn references(&self) -> impl Iterator<Item = u32> {
        let single = match self {
            Question::Type { reference, .. } | Question::SizeAlign { reference, .. } => {
                Some(*reference)
            }
            _ => None,
        };
        let lists = self.lists();
        single
            .into_iter()
            .chain(lists.into_iter().flatten().copied())
    }

    /// Whether it asks what an async plain call returns, which tells nothing of its types.
    pub fn is_a_status(&self) -> bool {
        match self {
            Question::Functype { plain, k, .. } => plain.side.asynchronous != 0 && *k > 0,
            _ => false,
        }
    }

    /// The length of each buffer that the question lends, in words.
    pub fn rooms(&self) -> [Option<usize>; WRITTEN] {
        match self {
            Question::Placement { rooms, .. } => rooms.map(Some),
            _ => [None; WRITTEN],
        }
    }
}
