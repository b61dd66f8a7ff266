//! Where the members of a WebAssembly component's types stand in memory, and as which core types a call
//! carries them: the layout and flattening of the canonical ABI, for 32-bit and 64-bit memories.
//!
//! The answers come from a static library that is proved: each size, offset, gap and signature is that of a
//! definition written from the Canonical ABI, and each call returns for every word and table given to it,
//! with a numbered [`Refusal`] where there is no answer. This crate only gives the library's numbers
//! their types. It copies nothing: tables and references are lent to the library as they are, and a placement's
//! offsets and gaps are written where they are answered.
//!
//! A description lists definitions in u32 words ([`Description`] writes it), a [`Table`] has one row for
//! each, and every question is put to a table. The leaves and the calls over bytes have no types of their own here:
//! they are in [`raw`], as C has them.
//!
//! ```
//! use lampughjata::{Description, Layout, Memory, Reference, Table};
//!
//! let mut description = Description::new();
//! let named = description.record(&[Reference::U8, Reference::STRING, Reference::U8]);
//! let table = Table::build(description.words())?;
//!
//! let layout = table.size_align(Memory::Memory64, named)?;
//! assert_eq!(layout, Layout { size: 32, align: 8 });
//! # Ok::<(), lampughjata::Refused>(())
//! ```
#![deny(unsafe_code)]
#![warn(missing_debug_implementations)]

mod answer;
#[allow(unsafe_code)]
mod calls;
mod core_types;
mod description;
#[allow(unsafe_code)]
pub mod raw;
mod refusal;
mod table;

pub use core_types::{CoreType, CoreTypes, Flattened, Signature};
pub use description::{Description, Reference};
pub use refusal::{Place, Refusal, Refused, Result};
pub use table::{Calling, Context, Function, Info, Layout, Memory, Placement, Side, Table};
