//! What the comparison itself must know of an accepted description.
use crate::model::{self, Definition};

/// The first `n` definitions of a description that a build accepted at least so far.
pub fn definitions(words: &[u32], n: usize) -> Vec<Definition<'_>> {
    let found: Vec<_> = model::definitions(words).take(n).collect();
    assert_eq!(
        found.len(),
        n,
        "an accepted description is whole: {words:?}"
    );
    found
}

/// Which definitions hold an enum or variant of 256 or 65,536 cases. The oracle has a stand-in for
/// the discriminant's size, and these are the counts where the Rust's may be another.
pub fn suspects(definitions: &[Definition]) -> Vec<bool> {
    let mut suspects = Vec::with_capacity(definitions.len());
    for definition in definitions {
        let itself = [2, 7].contains(&definition.kind) && [256, 65_536].contains(&definition.count);
        let suspect = itself || definition.earlier().any(|index| suspects[index]);
        suspects.push(suspect);
    }
    suspects
}

/// How many conversions the published line makes, which converts a definition again for each
/// reference to it.
pub fn conversions(definitions: &[Definition]) -> u64 {
    let mut conversions: Vec<u64> = Vec::with_capacity(definitions.len());
    for definition in definitions {
        let parts = definition.earlier().map(|index| conversions[index]);
        conversions.push(parts.fold(1, u64::saturating_add));
    }
    conversions.into_iter().fold(0, u64::saturating_add)
}
