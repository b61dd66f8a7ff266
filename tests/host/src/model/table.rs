//! Where a table's cells stand: the one place of this program that knows.
use super::{MOST_ROWS, ROW};

/// 01's sixteen words of a definition.
pub type Row = [u32; ROW];

/// "The table's capacity (the number of whole rows, at most 1,024)."
pub fn capacity(words: usize) -> usize {
    (words / ROW).min(MOST_ROWS)
}

/// A row of a table that has room for it: "sixteen runs, one per word of the old row, each as long as
/// the table's capacity", and an entry of each.
pub fn row(table: &[u32], index: usize) -> Row {
    let mut runs = table.chunks_exact(capacity(table.len()));
    std::array::from_fn(|_| runs.next().expect("sixteen runs")[index])
}

/// Writes a row of a table that has room for it.
pub fn put_row(table: &mut [u32], index: usize, row: &Row) {
    let runs = table.chunks_exact_mut(capacity(table.len()));
    for (run, value) in runs.zip(row) {
        run[index] = *value;
    }
}

/// A table of so many words with these rows in it, as far as it has room for them. Every other word of
/// it is some row's too, or 7.
pub fn table_of(rows: &[Row], words: usize) -> Vec<u32> {
    let mut table: Vec<u32> = rows.concat();
    table.resize(words, 7);
    for (index, row) in rows.iter().enumerate().take(capacity(words)) {
        put_row(&mut table, index, row);
    }
    table
}
