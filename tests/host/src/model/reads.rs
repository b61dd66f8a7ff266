//! Order 6: "how many rows it read back", of a build or a placement that is accepted.
use super::definition::{definition_named, definitions};

/// "Exactly the number of references of the form 64+j in the description, by a definition over the words."
pub fn of_description(words: &[u32]) -> u64 {
    definitions(words)
        .map(|definition| of_references(definition.references_and_marks()))
        .sum()
}

/// "Placement reports likewise for its references": each counts as often as it stands there.
pub fn of_references(references: &[u32]) -> u64 {
    let named = references.iter().filter_map(|word| definition_named(*word));
    named.count() as u64
}
