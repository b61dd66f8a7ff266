//! Stand-in for wasmtime-component-util, which is not among the published files.
//!
//! `DiscriminantSize::from_count` and `FlagsSize::from_count` are written from document 01, order 4 of
//! 02 and the standard, not from the crate. A discriminant's or a flags' size that is compared with this
//! oracle is therefore compared with the document and not with the Rust. The interface (variants,
//! `byte_size`, `From`) is the one that types.rs and types_builder.rs use.

#[derive(Debug, Copy, Clone, PartialEq, Eq, Hash)]
pub enum DiscriminantSize {
    Size1,
    Size2,
    Size4,
}

impl DiscriminantSize {
    /// 01: "discriminant 1 byte for n up to 256, 2 up to 65,536, else 4 (standard)".
    pub const fn from_count(count: usize) -> Option<Self> {
        if count <= 256 {
            Some(Self::Size1)
        } else if count <= 65_536 {
            Some(Self::Size2)
        } else if count <= u32::MAX as usize {
            Some(Self::Size4)
        } else {
            None
        }
    }

    pub const fn byte_size(&self) -> u32 {
        match self {
            Self::Size1 => 1,
            Self::Size2 => 2,
            Self::Size4 => 4,
        }
    }
}

impl From<DiscriminantSize> for u32 {
    fn from(size: DiscriminantSize) -> u32 {
        size.byte_size()
    }
}

#[derive(Debug, Copy, Clone, PartialEq, Eq, Hash)]
pub enum FlagsSize {
    Size0,
    Size1,
    Size2,
    Size4Plus(u8),
}

impl FlagsSize {
    /// 01: "n = 0 gives 0, 1, flat 0; to 8, one byte; to 16, two; to 32, four". Above 32 (02, order 4):
    /// "four bytes and one flat I32 for each started group of 32 labels", as types.rs reads `Size4Plus`.
    pub const fn from_count(count: usize) -> FlagsSize {
        if count == 0 {
            FlagsSize::Size0
        } else if count <= 8 {
            FlagsSize::Size1
        } else if count <= 16 {
            FlagsSize::Size2
        } else {
            let groups = (count - 1) / 32 + 1;
            assert!(groups <= u8::MAX as usize, "too many flags");
            FlagsSize::Size4Plus(groups as u8)
        }
    }
}
