//! The oracle: types.rs, types_builder.rs and signature.rs of wasmtime-environ 50.0.1, compiled from
//! the published text that `../extract` copies, behind a driver that speaks document 01's words.
//!
//! README.md lists what is the original's and what is by hand. The items of this file stand in for
//! parts of wasmtime-environ that were not published or that concern core wasm only.

// The published files are compiled as they are: most of them is not used here, and what they expect
// of the lints of the whole crate does not come about.
#![allow(
    dead_code,
    unused_imports,
    unused_macros,
    ambiguous_glob_reexports,
    unfulfilled_lint_expectations
)]

extern crate alloc;

pub mod component;
pub mod core_wasm;
pub mod fact;

pub use component::Arithmetic;
pub use core_wasm::*;
pub use cranelift_entity::{EntityRef, PrimaryMap};
pub use fact::driver::{
    Flat, Memory64, Original, Parsed, Placed, Side, Stopped, guarded, is_guarded,
};

/// Stand-in for wasmtime_core::error.
pub mod error {
    #[derive(Debug)]
    pub struct Error(pub String);
    #[derive(Debug)]
    pub struct OutOfMemory;
    pub type Result<T, E = Error> = core::result::Result<T, E>;

    macro_rules! bail {
        ($($message:tt)*) => { return Err($crate::error::Error(format!($($message)*))) };
    }
    pub(crate) use bail;
}

/// Stand-in for src/prelude.rs, which re-exports from crates that are not here.
pub mod prelude {
    pub(crate) use crate::error::bail;
    pub use crate::error::{Error, OutOfMemory, Result};
    pub use crate::{PanicOnOom, TryClone};
    pub use alloc::borrow::ToOwned;
    pub use alloc::boxed::Box;
    pub use alloc::format;
    pub use alloc::string::{String, ToString};
    pub use alloc::vec;
    pub use alloc::vec::Vec;
    pub use wasmparser::collections::{IndexMap, IndexSet};
}

/// Stand-in for wasmtime_core::alloc::TryClone.
pub trait TryClone: Sized {
    fn try_clone(&self) -> Result<Self, error::OutOfMemory>;
}

/// Stand-in for wasmtime_core::alloc::PanicOnOom.
pub trait PanicOnOom: Clone {
    fn clone_panic_on_oom(&self) -> Self {
        self.clone()
    }
}
impl PanicOnOom for String {}
