//! The calls of the static library, as `lampughjata.h` declares them, and nothing else: the project's comparison
//! and its timings take their declarations from this file too. `tests/header.rs` holds it to the header.
//!
//! A slice passes as a pointer and then its length in elements, everything else as a number. Each call is safe for
//! every number, word and length: the library is proved to return, to read only the slices that it is lent and to
//! write only the mutable ones. Left to the caller is that each pointer has so many elements behind it, and that a
//! mutable slice is lent to nobody else.

unsafe extern "C" {
    pub safe fn lampughjata_align_to(place: u32, align: u32) -> u64;
    pub safe fn lampughjata_max(a: u32, b: u32) -> u64;
    pub safe fn lampughjata_add_flat(a: u32, b: u32) -> u64;
    pub safe fn lampughjata_max_flat(a: u32, b: u32) -> u64;
    pub safe fn lampughjata_next_field(
        memory: u32,
        size32: u32,
        align32: u32,
        size64: u32,
        align64: u32,
        flat: u32,
        end: u32,
        k: u32,
    ) -> u64;
    pub safe fn lampughjata_flags(count: u32, k: u32) -> u64;
    pub safe fn lampughjata_enum(count: u32, k: u32) -> u64;
    pub safe fn lampughjata_fixed_length_list(
        size32: u32,
        align32: u32,
        size64: u32,
        align64: u32,
        flat: u32,
        count: u32,
        k: u32,
    ) -> u64;
    pub safe fn lampughjata_discriminant(count: u32) -> u64;
}

/// Declares the calls over lent memory: over words, or their twins over bytes.
macro_rules! declare_over {
    ($unit:ty, $suffix:literal) => {
        unsafe extern "C" {
            #[link_name = concat!("lampughjata_record", $suffix)]
            pub fn record(infos: *const $unit, infos_len: usize, k: u32) -> u64;

            #[link_name = concat!("lampughjata_variant", $suffix)]
            pub fn variant(cases: *const $unit, cases_len: usize, k: u32) -> u64;

            #[link_name = concat!("lampughjata_build", $suffix)]
            pub fn build(
                words: *const $unit,
                words_len: usize,
                table: *mut $unit,
                table_len: usize,
            ) -> u64;

            #[link_name = concat!("lampughjata_type", $suffix)]
            pub fn type_of(
                table: *const $unit,
                table_len: usize,
                rows: u32,
                reference: u32,
                k: u32,
            ) -> u64;

            #[link_name = concat!("lampughjata_size_align", $suffix)]
            pub fn size_align(
                memory: u32,
                table: *const $unit,
                table_len: usize,
                rows: u32,
                reference: u32,
            ) -> u64;

            #[link_name = concat!("lampughjata_placement", $suffix)]
            pub fn placement(
                memory: u32,
                table: *const $unit,
                table_len: usize,
                rows: u32,
                references: *const $unit,
                references_len: usize,
                offsets: *mut $unit,
                offsets_len: usize,
                gaps: *mut $unit,
                gaps_len: usize,
            ) -> u64;

            #[link_name = concat!("lampughjata_flatten", $suffix)]
            pub fn flatten(
                memory: u32,
                max: u32,
                table: *const $unit,
                table_len: usize,
                rows: u32,
                references: *const $unit,
                references_len: usize,
            ) -> u64;

            #[link_name = concat!("lampughjata_lowering", $suffix)]
            pub fn lowering(
                memory: u32,
                asynchronous: u32,
                table: *const $unit,
                table_len: usize,
                rows: u32,
                references: *const $unit,
                references_len: usize,
            ) -> u64;

            #[link_name = concat!("lampughjata_lifting", $suffix)]
            pub fn lifting(
                memory: u32,
                asynchronous: u32,
                table: *const $unit,
                table_len: usize,
                rows: u32,
                references: *const $unit,
                references_len: usize,
            ) -> u64;

            #[link_name = concat!("lampughjata_async_start", $suffix)]
            pub fn async_start(
                lower_memory: u32,
                lower_async: u32,
                lift_memory: u32,
                table: *const $unit,
                table_len: usize,
                rows: u32,
                lower: *const $unit,
                lower_len: usize,
                lift: *const $unit,
                lift_len: usize,
                k: u32,
            ) -> u64;

            #[link_name = concat!("lampughjata_async_return", $suffix)]
            pub fn async_return(
                lift_memory: u32,
                lift_async: u32,
                lower_memory: u32,
                lower_async: u32,
                table: *const $unit,
                table_len: usize,
                rows: u32,
                lift: *const $unit,
                lift_len: usize,
                lower: *const $unit,
                lower_len: usize,
                k: u32,
            ) -> u64;

            #[link_name = concat!("lampughjata_functype", $suffix)]
            pub fn functype(
                memory: u32,
                asynchronous: u32,
                lower: u32,
                callback: u32,
                table: *const $unit,
                table_len: usize,
                rows: u32,
                params: *const $unit,
                params_len: usize,
                results: *const $unit,
                results_len: usize,
                k: u32,
            ) -> u64;

            #[link_name = concat!("lampughjata_contains_borrow", $suffix)]
            pub fn contains_borrow(
                table: *const $unit,
                table_len: usize,
                rows: u32,
                references: *const $unit,
                references_len: usize,
            ) -> u64;
        }
    };
}

/// The calls that are lent words.
pub mod words {
    declare_over!(u32, "");
}

/// Their twins, which are lent little-endian bytes.
pub mod bytes {
    declare_over!(u8, "_bytes");
}
