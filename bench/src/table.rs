//! Where a table's words stand.

/// The words of a row.
pub const ROW: usize = 16;
/// The rows that a table can have.
pub const MOST_ROWS: usize = 1_024;

/// How many rows a buffer of so many words has room for.
#[inline]
pub fn capacity(words: usize) -> usize {
    (words / ROW).min(MOST_ROWS)
}

/// Where a word of a row stands in a table with room for so many rows: the one place of this program
/// that knows.
#[inline]
fn place(capacity: usize, row: usize, word: usize) -> usize {
    word * capacity + row
}

/// One word of a row.
///
/// # Safety
/// The table has room for the row.
#[inline]
pub unsafe fn cell(table: &[u32], row: usize, word: usize) -> u32 {
    unsafe { *table.get_unchecked(place(capacity(table.len()), row, word)) }
}

/// Writes the words of a row.
///
/// # Safety
/// The table has room for the row.
#[inline]
pub unsafe fn put_row(table: &mut [u32], row: usize, words: [u32; ROW]) {
    let capacity = capacity(table.len());
    for (word, value) in words.into_iter().enumerate() {
        unsafe { *table.get_unchecked_mut(place(capacity, row, word)) = value };
    }
}

/// The words of a row, if the table has room for it.
#[inline]
pub fn row(table: &[u32], index: usize) -> Option<[u32; ROW]> {
    let is_there = index < capacity(table.len());
    // SAFETY: it was tested.
    is_there.then(|| std::array::from_fn(|word| unsafe { cell(table, index, word) }))
}
