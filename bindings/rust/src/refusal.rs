//! Why a call refuses, and at what.
use std::error::Error;
use std::fmt;

/// What a call answers: its value, or why it refuses and at what.
pub type Result<T> = std::result::Result<T, Refused>;

/// Why a call refuses. The numbers are fixed; a C program sees the same.
#[derive(Clone, Copy, Debug, PartialEq, Eq, Hash)]
#[repr(u8)]
pub enum Refusal {
    /// More than 16,384 words in a description, or references in a question.
    TooLong = 1,
    /// The description ends in the middle of a definition.
    Truncated = 2,
    /// A definition's kind is not 1 to 10.
    BadKind = 3,
    /// A word that is no reference, or a reference to a definition that is not there (yet).
    BadRef = 4,
    /// A variant or enum of no case, more than 512 flags, a maximum above 16.
    BadCount = 5,
    /// An offset or a size above 4294967295: of a placement in its own memory, else in either.
    TooLarge = 6,
    /// A lent buffer is too short: for the next definition's row, or for the offsets or the gaps. A
    /// [`Table::placement`](crate::Table::placement) never answers it.
    NoRoom = 7,
    /// More rows than the table has room for, or a row that was read and is not well formed.
    BadRow = 8,
    /// A definition of a depth above 100 ([`Info::depth`](crate::Info::depth)). Only a build answers it.
    TooDeep = 9,
}

impl Refusal {
    const ALL: [Refusal; 9] = [
        Refusal::TooLong,
        Refusal::Truncated,
        Refusal::BadKind,
        Refusal::BadRef,
        Refusal::BadCount,
        Refusal::TooLarge,
        Refusal::NoRoom,
        Refusal::BadRow,
        Refusal::TooDeep,
    ];

    /// The refusal's number, 1 to 9.
    pub fn number(self) -> u8 {
        self as u8
    }

    /// The refusal of a number.
    pub fn from_number(number: u8) -> Option<Refusal> {
        Refusal::ALL
            .into_iter()
            .find(|refusal| refusal.number() == number)
    }
}

impl fmt::Display for Refusal {
    fn fmt(&self, f: &mut fmt::Formatter) -> fmt::Result {
        f.write_str(match self {
            Refusal::TooLong => "more than 16384 words or references",
            Refusal::Truncated => "the description ends in the middle of a definition",
            Refusal::BadKind => "the kind of a definition is not 1 to 10",
            Refusal::BadRef => "a bad reference, or one to a definition that is not there yet",
            Refusal::BadCount => "a bad count: no case, more than 512 flags, or a maximum above 16",
            Refusal::TooLarge => "an offset or a size is above 4294967295",
            Refusal::NoRoom => "a buffer has no room for the next row, all offsets or all gaps",
            Refusal::BadRow => "more rows than the table has room for, or a row not well formed",
            Refusal::TooDeep => "a definition is more than 100 definitions deep",
        })
    }
}

/// At what a call refuses. The library answers 0 as well where nothing in particular is at fault.
#[derive(Clone, Copy, Debug, PartialEq, Eq, Hash)]
pub enum Place {
    /// The index of a definition, from a build.
    Definition(u32),
    /// The position of a reference, from a question. Of two lists, the second's positions count on from
    /// the first's.
    Reference(u32),
}

/// A refused call: nothing was written, but for the rows of a build before the refused definition.
#[derive(Clone, Copy, Debug, PartialEq, Eq, Hash)]
pub struct Refused {
    pub refusal: Refusal,
    pub place: Place,
}

impl Refused {
    /// The place, where the refusal is about one: a list that is too long, a maximum and a buffer for
    /// offsets or gaps are not. Position 0 may also mean that no single reference is at fault.
    fn told_place(&self) -> Option<String> {
        match (self.refusal, self.place) {
            (Refusal::TooLong, _) => None,
            (Refusal::BadCount | Refusal::NoRoom, Place::Reference(_)) => None,
            (Refusal::BadRow | Refusal::TooLarge, Place::Reference(0)) => {
                Some("reference 0 or the whole".to_string())
            }
            (_, Place::Definition(index)) => Some(format!("definition {index}")),
            (_, Place::Reference(position)) => Some(format!("reference {position}")),
        }
    }
}

impl fmt::Display for Refused {
    fn fmt(&self, f: &mut fmt::Formatter) -> fmt::Result {
        write!(f, "{} (refusal {}", self.refusal, self.refusal.number())?;
        if let Some(place) = self.told_place() {
            write!(f, " at {place}")?;
        }
        f.write_str(")")
    }
}

impl Error for Refused {}
