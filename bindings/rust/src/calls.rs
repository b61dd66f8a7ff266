//! The library's calls over words, each as a function over slices. All of the crate's unsafe code is here.
//!
//! Why the functions are safe: `raw` says what is left to a caller. Each pointer comes from `lent` or `written`, with
//! the length of its own slice, and Rust's references see to it that a mutable slice is lent to nobody else.
use crate::Reference;
use crate::raw::words as raw;

/// A table as every question takes it.
#[derive(Clone, Copy)]
pub struct RawTable<'a> {
    pub words: &'a [u32],
    pub rows: u32,
}

/// A side of a call between two components, in the library's numbers.
#[derive(Clone, Copy)]
pub struct RawSide<'a> {
    pub memory: u32,
    pub asynchronous: u32,
    pub types: &'a [Reference],
}

/// A function that is lifted or lowered without an adapter, in the library's numbers.
#[derive(Clone, Copy)]
pub struct RawFunction<'a> {
    pub memory: u32,
    pub asynchronous: u32,
    pub callback: u32,
    pub params: &'a [Reference],
    pub results: &'a [Reference],
}

fn lent(words: &[u32]) -> (*const u32, usize) {
    (words.as_ptr(), words.len())
}

/// The references as the words they are: `Reference` is a transparent struct of one u32.
fn lent_references(references: &[Reference]) -> (*const u32, usize) {
    (references.as_ptr().cast(), references.len())
}

fn written(words: &mut [u32]) -> (*mut u32, usize) {
    (words.as_mut_ptr(), words.len())
}

pub fn build(description: &[u32], table: &mut [u32]) -> u64 {
    let (words, words_len) = lent(description);
    let (table, table_len) = written(table);
    // SAFETY: as at the top.
    unsafe { raw::build(words, words_len, table, table_len) }
}

pub fn type_of(table: RawTable, Reference(reference): Reference, k: u32) -> u64 {
    let (words, words_len) = lent(table.words);
    // SAFETY: as at the top.
    unsafe { raw::type_of(words, words_len, table.rows, reference, k) }
}

pub fn size_align(memory: u32, table: RawTable, Reference(reference): Reference) -> u64 {
    let (words, words_len) = lent(table.words);
    // SAFETY: as at the top.
    unsafe { raw::size_align(memory, words, words_len, table.rows, reference) }
}

pub fn placement(
    memory: u32,
    table: RawTable,
    references: &[Reference],
    offsets: &mut [u32],
    gaps: &mut [u32],
) -> u64 {
    let (words, words_len) = lent(table.words);
    let (list, list_len) = lent_references(references);
    let (offsets, offsets_len) = written(offsets);
    let (gaps, gaps_len) = written(gaps);
    // SAFETY: as at the top.
    unsafe {
        raw::placement(
            memory,
            words,
            words_len,
            table.rows,
            list,
            list_len,
            offsets,
            offsets_len,
            gaps,
            gaps_len,
        )
    }
}

pub fn flatten(memory: u32, max: u32, table: RawTable, references: &[Reference]) -> u64 {
    let (words, words_len) = lent(table.words);
    let (list, list_len) = lent_references(references);
    // SAFETY: as at the top.
    unsafe { raw::flatten(memory, max, words, words_len, table.rows, list, list_len) }
}

/// The results of one side: of a function that is lowered, or of one that is lifted.
#[derive(Clone, Copy)]
pub enum Results {
    Lowering,
    Lifting,
}

pub fn results(which: Results, table: RawTable, side: RawSide) -> u64 {
    let call = match which {
        Results::Lowering => raw::lowering,
        Results::Lifting => raw::lifting,
    };
    let (words, words_len) = lent(table.words);
    let (list, list_len) = lent_references(side.types);
    let (memory, asynchronous) = (side.memory, side.asynchronous);
    // SAFETY: as at the top.
    unsafe {
        call(
            memory,
            asynchronous,
            words,
            words_len,
            table.rows,
            list,
            list_len,
        )
    }
}

/// Whether lift is async plays no part.
pub fn async_start(table: RawTable, lower: RawSide, lift: RawSide, k: u32) -> u64 {
    let (words, words_len) = lent(table.words);
    let (lower_list, lower_len) = lent_references(lower.types);
    let (lift_list, lift_len) = lent_references(lift.types);
    // SAFETY: as at the top.
    unsafe {
        raw::async_start(
            lower.memory,
            lower.asynchronous,
            lift.memory,
            words,
            words_len,
            table.rows,
            lower_list,
            lower_len,
            lift_list,
            lift_len,
            k,
        )
    }
}

pub fn async_return(table: RawTable, lift: RawSide, lower: RawSide, k: u32) -> u64 {
    let (words, words_len) = lent(table.words);
    let (lift_list, lift_len) = lent_references(lift.types);
    let (lower_list, lower_len) = lent_references(lower.types);
    // SAFETY: as at the top.
    unsafe {
        raw::async_return(
            lift.memory,
            lift.asynchronous,
            lower.memory,
            lower.asynchronous,
            words,
            words_len,
            table.rows,
            lift_list,
            lift_len,
            lower_list,
            lower_len,
            k,
        )
    }
}

pub fn functype(table: RawTable, lower: u32, function: RawFunction, k: u32) -> u64 {
    let (words, words_len) = lent(table.words);
    let (params, params_len) = lent_references(function.params);
    let (results, results_len) = lent_references(function.results);
    // SAFETY: as at the top.
    unsafe {
        raw::functype(
            function.memory,
            function.asynchronous,
            lower,
            function.callback,
            words,
            words_len,
            table.rows,
            params,
            params_len,
            results,
            results_len,
            k,
        )
    }
}

pub fn contains_borrow(table: RawTable, references: &[Reference]) -> u64 {
    let (words, words_len) = lent(table.words);
    let (list, list_len) = lent_references(references);
    // SAFETY: as at the top.
    unsafe { raw::contains_borrow(words, words_len, table.rows, list, list_len) }
}
