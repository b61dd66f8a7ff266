//! 01's layout rules and flat types, each as a function of what is known of the parts.
use std::sync::LazyLock;

/// No start, end or size may be above this.
pub const LIMIT: u64 = 4_294_967_295;
/// "A sum or product above 16 is none."
pub const FLAT_MAX: u64 = 16;
/// Order 4: "5 now begins at 513".
pub const MOST_LABELS: u64 = 512;
/// Order 5: "9 TooDeep above 100".
pub const DEEPEST: u64 = 100;

#[derive(Clone, Copy, PartialEq, Eq, Debug)]
pub enum Core {
    I32,
    I64,
    F32,
    F64,
}

#[derive(Clone, Copy, PartialEq, Eq, Debug)]
pub enum Memory {
    Bits32,
    Bits64,
}

pub const MEMORIES: [Memory; 2] = [Memory::Bits32, Memory::Bits64];

impl Memory {
    /// The boundary's word: 0 is 32-bit, any other 64-bit.
    pub fn of(word: u32) -> Memory {
        MEMORIES[usize::from(word != 0)]
    }

    pub fn pointer(self) -> Core {
        match self {
            Memory::Bits32 => Core::I32,
            Memory::Bits64 => Core::I64,
        }
    }
}

/// Size and alignment in one memory.
#[derive(Clone, Copy, PartialEq, Eq, Debug)]
pub struct Layout {
    pub size: u64,
    pub align: u64,
}

/// The flat types in the two memories, equally many; None for 01's "none".
pub type Flat = Option<[Vec<Core>; 2]>;

/// What 01 says of a type: its layout and flat types in both memories, whether it reaches a Borrow, and
/// how deep it goes.
#[derive(Clone, PartialEq, Eq, Debug)]
pub struct Type {
    pub layout: [Layout; 2],
    pub flat: Flat,
    pub borrow: bool,
    /// 0 for a reference that names no definition.
    pub depth: u64,
}

impl Type {
    pub fn layout_in(&self, memory: Memory) -> Layout {
        self.layout[memory as usize]
    }

    pub fn flat_in(&self, memory: Memory) -> Option<&[Core]> {
        self.flat.as_ref().map(|lists| &lists[memory as usize][..])
    }
}

/// Some start, end or size is above 4294967295.
#[derive(Clone, Copy, PartialEq, Eq, Debug)]
pub struct TooLarge;

/// The first multiple of the alignment at or after a place, "with the bytes it skipped" (order 10).
pub struct Rounded {
    pub place: u64,
    pub skipped: u64,
}

/// Goes on byte by byte.
pub fn round_up(place: u64, align: u64) -> Rounded {
    let mut rounded = Rounded { place, skipped: 0 };
    while rounded.place % align != 0 {
        rounded.place += 1;
        rounded.skipped += 1;
    }
    rounded
}

fn within_limit(place: u64) -> Result<u64, TooLarge> {
    if place > LIMIT {
        Err(TooLarge)
    } else {
        Ok(place)
    }
}

// ---- what is reached ----------------------------------------------------------------------------

/// Order 5: "one more than the deepest definition it refers to, 1 if it refers to none, list elements and
/// map parts included."
pub fn depth_over(parts: &[&Type]) -> u64 {
    1 + parts.iter().map(|part| part.depth).max().unwrap_or(0)
}

/// "If a Borrow is reached through any reference, list elements too."
fn borrow_in(parts: &[&Type]) -> bool {
    parts.iter().any(|part| part.borrow)
}

// ---- types without parts ------------------------------------------------------------------------

/// "Scalars: 1, 2, 4 or 8 bytes, alignment equal to size, flat 1."
fn scalar(size: u64, core: Core) -> Type {
    Type {
        layout: [Layout { size, align: size }; 2],
        flat: Some([vec![core], vec![core]]),
        borrow: false,
        depth: 0,
    }
}

/// "String, list, map: 8 with alignment 4, or 16 with alignment 8; flat 2."
fn pointer_pair() -> Type {
    Type {
        layout: [Layout { size: 8, align: 4 }, Layout { size: 16, align: 8 }],
        flat: Some(MEMORIES.map(|memory| vec![memory.pointer(); 2])),
        borrow: false,
        depth: 0,
    }
}

/// A list of its element, or a map of its key and value.
pub fn list_or_map(parts: &[&Type]) -> Type {
    Type {
        borrow: borrow_in(parts),
        depth: depth_over(parts),
        ..pointer_pair()
    }
}

/// The references 0 to 17, in order.
static SCALARS: LazyLock<[Type; 18]> = LazyLock::new(|| {
    let handle = || scalar(4, Core::I32);
    [
        scalar(1, Core::I32), // Bool
        scalar(1, Core::I32), // S8
        scalar(1, Core::I32), // U8
        scalar(2, Core::I32), // S16
        scalar(2, Core::I32), // U16
        scalar(4, Core::I32), // S32
        scalar(4, Core::I32), // U32
        scalar(8, Core::I64), // S64
        scalar(8, Core::I64), // U64
        scalar(4, Core::F32), // Float32
        scalar(8, Core::F64), // Float64
        scalar(4, Core::I32), // Char
        pointer_pair(),       // String
        handle(),             // Own
        Type {
            borrow: true,
            ..handle()
        }, // Borrow
        handle(),             // Future
        handle(),             // Stream
        handle(),             // ErrorContext
    ]
});

pub fn scalar_of(reference: u32) -> Option<&'static Type> {
    SCALARS.get(reference as usize)
}

/// "Flags: n = 0 gives 0, 1, flat 0; to 8, one byte; to 16, two; to 32, four, alignment equal to size and
/// flat 1." Order 4: "above 32, alignment 4, size four bytes and one flat I32 for each started group of 32
/// labels", up to 512 labels. None above.
pub fn flags(count: u64) -> Option<Type> {
    let (size, align, flat) = match count {
        0 => (0, 1, 0),
        1..=8 => (1, 1, 1),
        9..=16 => (2, 2, 1),
        17..=32 => (4, 4, 1),
        33..=MOST_LABELS => (4 * groups(count), 4, groups(count)),
        _ => return None,
    };
    let flat = vec![Core::I32; flat as usize];
    Some(Type {
        layout: [Layout { size, align }; 2],
        flat: Some([flat.clone(), flat]),
        borrow: false,
        depth: depth_over(&[]),
    })
}

/// The labels 0, 32, 64 and so on start a group each.
fn groups(count: u64) -> u64 {
    (0..count).step_by(32).count() as u64
}

/// "Discriminant 1 byte for n up to 256, 2 up to 65,536, else 4."
pub fn discriminant(cases: u64) -> u64 {
    match cases {
        0..=256 => 1,
        257..=65_536 => 2,
        _ => 4,
    }
}

// ---- records ------------------------------------------------------------------------------------

/// Where members stand in one memory, and the whole's layout.
pub struct Placement {
    pub starts: Vec<u64>,
    pub layout: Layout,
}

/// What is too large in a placement: the first member whose start or end passes, or only the size.
pub enum Passes {
    Member(usize),
    Size,
}

/// "Each member starts at the first multiple of its alignment at or after the end before it.
/// Alignment is the greatest of the members', 1 for none; the size is the last end rounded up to it."
pub fn place(members: &[Layout]) -> Result<Placement, Passes> {
    let mut starts = Vec::with_capacity(members.len());
    let mut end = 0;
    for (position, member) in members.iter().enumerate() {
        let start = round_up(end, member.align).place;
        end = start + member.size;
        if start > LIMIT || end > LIMIT {
            return Err(Passes::Member(position));
        }
        starts.push(start);
    }
    let align = members.iter().map(|member| member.align).max().unwrap_or(1);
    let size = round_up(end, align).place;
    if size > LIMIT {
        return Err(Passes::Size);
    }
    let layout = Layout { size, align };
    Ok(Placement { starts, layout })
}

pub fn place_in(memory: Memory, members: &[&Type]) -> Result<Placement, TooLarge> {
    let layouts: Vec<_> = members
        .iter()
        .map(|member| member.layout_in(memory))
        .collect();
    place(&layouts).map_err(|_| TooLarge)
}

/// A record or tuple.
pub fn record(members: &[&Type]) -> Result<Type, TooLarge> {
    let layout32 = place_in(Memory::Bits32, members)?.layout;
    let layout64 = place_in(Memory::Bits64, members)?.layout;
    Ok(Type {
        layout: [layout32, layout64],
        flat: append(members),
        borrow: borrow_in(members),
        depth: depth_over(members),
    })
}

/// "Flat is the sum": one member's flat types after the other's.
fn append(members: &[&Type]) -> Flat {
    let mut lists = [vec![], vec![]];
    for member in members {
        let member = member.flat.as_ref()?;
        for (list, types) in lists.iter_mut().zip(member) {
            list.extend_from_slice(types);
        }
        if lists[0].len() as u64 > FLAT_MAX {
            return None;
        }
    }
    Some(lists)
}

// ---- variants -----------------------------------------------------------------------------------

/// A variant's layouts beside what it has as a type.
pub struct Variant {
    pub whole: Type,
    pub discriminant: u64,
    pub payload_offset: [u64; 2],
}

/// A variant of so many cases (one at least), with the payloads of those that have one.
pub fn variant(cases: u64, payloads: &[&Type]) -> Result<Variant, TooLarge> {
    let discriminant = discriminant(cases);
    let of = |memory| variant_layout(discriminant, memory, payloads);
    let (offset32, layout32) = of(Memory::Bits32)?;
    let (offset64, layout64) = of(Memory::Bits64)?;
    Ok(Variant {
        whole: Type {
            layout: [layout32, layout64],
            flat: join_payloads(payloads),
            borrow: borrow_in(payloads),
            depth: depth_over(payloads),
        },
        discriminant,
        payload_offset: [offset32, offset64],
    })
}

/// "The payload starts at the discriminant size rounded up to the variant's alignment, the greatest
/// of the discriminant's and all payloads'. Size is payload offset plus greatest payload, rounded up."
fn variant_layout(
    discriminant: u64,
    memory: Memory,
    payloads: &[&Type],
) -> Result<(u64, Layout), TooLarge> {
    let mut align = discriminant;
    let mut greatest = 0;
    for payload in payloads {
        let payload = payload.layout_in(memory);
        align = align.max(payload.align);
        greatest = greatest.max(payload.size);
    }
    let offset = round_up(discriminant, align).place;
    let size = within_limit(round_up(offset + greatest, align).place)?;
    Ok((offset, Layout { size, align }))
}

/// "A variant gives I32, then cases joined place by place."
fn join_payloads(payloads: &[&Type]) -> Flat {
    let mut joined: [Vec<Core>; 2] = [vec![], vec![]];
    for payload in payloads {
        let payload = payload.flat.as_ref()?;
        for (list, types) in joined.iter_mut().zip(payload) {
            for (place, core) in types.iter().enumerate() {
                match list.get_mut(place) {
                    Some(before) => *before = join(*before, *core),
                    None => list.push(*core),
                }
            }
        }
    }
    if joined[0].len() as u64 + 1 > FLAT_MAX {
        return None;
    }
    Some(joined.map(|mut list| {
        list.insert(0, Core::I32);
        list
    }))
}

/// "Equal types stay, I32 with F32 gives I32, all other pairs I64."
fn join(a: Core, b: Core) -> Core {
    match (a, b) {
        (Core::I32, Core::I32) => Core::I32,
        (Core::I64, Core::I64) => Core::I64,
        (Core::F32, Core::F32) => Core::F32,
        (Core::F64, Core::F64) => Core::F64,
        (Core::I32, Core::F32) | (Core::F32, Core::I32) => Core::I32,
        _ => Core::I64,
    }
}

// ---- fixed lists --------------------------------------------------------------------------------

/// "Size times count, element's alignment, flat product."
pub fn fixed_list(element: &Type, count: u64) -> Result<Type, TooLarge> {
    let of = |memory| -> Result<Layout, TooLarge> {
        let Layout { size, align } = element.layout_in(memory);
        let size = within_limit(size * count)?;
        Ok(Layout { size, align })
    };
    Ok(Type {
        layout: [of(Memory::Bits32)?, of(Memory::Bits64)?],
        flat: repeat(element.flat.as_ref(), count),
        borrow: element.borrow,
        depth: depth_over(&[element]),
    })
}

/// "Count 0: its flat count is 0, but none if the element's is none."
fn repeat(element: Option<&[Vec<Core>; 2]>, count: u64) -> Flat {
    let element = element?;
    let product = element[0].len() as u64 * count;
    if product > FLAT_MAX {
        return None;
    }
    // An element without flat types gives none, however often it is repeated.
    let times = if product == 0 { 0 } else { count as usize };
    Some([element[0].repeat(times), element[1].repeat(times)])
}
