//! Descriptions of types in u32 words, and the references that words and questions hold.
use std::iter;

/// A type: a scalar, a handle, or a definition by its index.
///
/// Any word may be put into one. The library refuses those that mean nothing.
#[derive(Clone, Copy, Debug, PartialEq, Eq, Hash)]
#[repr(transparent)]
pub struct Reference(pub u32);

impl Reference {
    pub const BOOL: Reference = Reference(0);
    pub const S8: Reference = Reference(1);
    pub const U8: Reference = Reference(2);
    pub const S16: Reference = Reference(3);
    pub const U16: Reference = Reference(4);
    pub const S32: Reference = Reference(5);
    pub const U32: Reference = Reference(6);
    pub const S64: Reference = Reference(7);
    pub const U64: Reference = Reference(8);
    pub const FLOAT32: Reference = Reference(9);
    pub const FLOAT64: Reference = Reference(10);
    pub const CHAR: Reference = Reference(11);
    pub const STRING: Reference = Reference(12);
    pub const OWN: Reference = Reference(13);
    pub const BORROW: Reference = Reference(14);
    pub const FUTURE: Reference = Reference(15);
    pub const STREAM: Reference = Reference(16);
    pub const ERROR_CONTEXT: Reference = Reference(17);

    /// The word of "no payload".
    const NO_PAYLOAD: u32 = u32::MAX;
    /// The word of definition 0.
    const FIRST_DEFINITION: u32 = 64;

    /// Definition `index` of a description. Where that is beyond what a word can hold, it is the last
    /// definition that a word can mean, which no table has either.
    pub const fn definition(index: u32) -> Reference {
        match Self::FIRST_DEFINITION.saturating_add(index) {
            Self::NO_PAYLOAD => Reference(Self::NO_PAYLOAD - 1),
            word => Reference(word),
        }
    }

    fn or_none(payload: Option<Reference>) -> u32 {
        payload.map_or(Self::NO_PAYLOAD, |Reference(word)| word)
    }
}

/// Writes a description definition by definition. Each method appends one and answers the reference by
/// which later definitions and questions mean it.
///
/// Nothing is tested here: [`Table::build`](crate::Table::build) says what is wrong with a description,
/// and takes words from elsewhere as well. It refuses a definition with a depth above 100
/// ([`Info::depth`](crate::Info::depth)).
#[derive(Clone, Debug, Default, PartialEq, Eq)]
pub struct Description {
    words: Vec<u32>,
    definitions: usize,
}

impl Description {
    pub fn new() -> Description {
        Description::default()
    }

    pub fn words(&self) -> &[u32] {
        &self.words
    }

    pub fn record(&mut self, members: &[Reference]) -> Reference {
        self.define_counted(1, members.iter().map(|member| member.0))
    }

    /// A case without a payload is `None`.
    pub fn variant(&mut self, cases: &[Option<Reference>]) -> Reference {
        self.define_counted(2, cases.iter().map(|case| Reference::or_none(*case)))
    }

    pub fn list(&mut self, element: Reference) -> Reference {
        self.define(3, [element.0])
    }

    pub fn tuple(&mut self, members: &[Reference]) -> Reference {
        self.define_counted(4, members.iter().map(|member| member.0))
    }

    pub fn map(&mut self, key: Reference, value: Reference) -> Reference {
        self.define(5, [key.0, value.0])
    }

    /// As many flags as `count`. A build refuses more than 512.
    pub fn flags(&mut self, count: u32) -> Reference {
        self.define(6, [count])
    }

    /// An enum of `count` cases.
    pub fn enumeration(&mut self, count: u32) -> Reference {
        self.define(7, [count])
    }

    pub fn option(&mut self, payload: Reference) -> Reference {
        self.define(8, [payload.0])
    }

    pub fn result(&mut self, ok: Option<Reference>, err: Option<Reference>) -> Reference {
        self.define(9, [ok, err].map(Reference::or_none))
    }

    /// A list whose length is part of its type.
    pub fn fixed_list(&mut self, element: Reference, count: u32) -> Reference {
        self.define(10, [element.0, count])
    }

    /// A definition whose words are counted in the first of them.
    fn define_counted(
        &mut self,
        kind: u32,
        references: impl ExactSizeIterator<Item = u32>,
    ) -> Reference {
        let count = word(references.len());
        self.define(kind, iter::once(count).chain(references))
    }

    fn define(&mut self, kind: u32, words: impl IntoIterator<Item = u32>) -> Reference {
        let index = self.definitions;
        self.definitions += 1;
        self.words.push(kind);
        self.words.extend(words);
        Reference::definition(word(index))
    }
}

/// A length as a word. One that no word can hold is of a description that is refused as too long.
fn word(length: usize) -> u32 {
    u32::try_from(length).unwrap_or(u32::MAX)
}
