//! The same calls over little-endian bytes.
use super::{Answer, MOST_WORDS, Refused, build, number};

/// The whole words of lent bytes.
pub fn words_of(bytes: &[u8]) -> Vec<u32> {
    let word = |four: &[u8]| u32::from_le_bytes(four.try_into().expect("four bytes"));
    bytes.chunks_exact(4).map(word).collect()
}

/// A build over bytes follows the program's rule: "More than 65,536 bytes `refused 1 0`; otherwise a
/// length not divisible by four `refused 2 0`." Bytes after the table's last whole word are kept.
pub fn build_bytes(description: &[u8], table: &mut [u8]) -> Answer<u64> {
    let refuse = |number| Err(Refused { number, at: 0 });
    if description.len() > 4 * MOST_WORDS {
        return refuse(number::TOO_LONG);
    }
    if description.len() % 4 != 0 {
        return refuse(number::TRUNCATED);
    }
    let mut words = words_of(table);
    let answer = build(&words_of(description), &mut words);
    for (four, word) in table.chunks_exact_mut(4).zip(&words) {
        four.copy_from_slice(&word.to_le_bytes());
    }
    answer
}
