//! The table of a description, and the questions put to it.
use crate::answer::{self, Built};
use crate::calls::{self, RawFunction, RawSide, RawTable, Results};
use crate::core_types::{CoreTypes, Flattened, Signature};
use crate::{Place, Reference, Result};
use std::fmt;

/// One of the two memories, by the width of its pointers.
#[derive(Clone, Copy, Debug, PartialEq, Eq, Hash)]
pub enum Memory {
    Memory32,
    Memory64,
}

impl Memory {
    fn number(self) -> u32 {
        match self {
            Memory::Memory32 => 0,
            Memory::Memory64 => 1,
        }
    }
}

/// How a side of a call is compiled.
#[derive(Clone, Copy, Debug, PartialEq, Eq, Hash)]
pub enum Calling {
    Sync,
    Async,
}

impl Calling {
    fn number(self) -> u32 {
        match self {
            Calling::Sync => 0,
            Calling::Async => 1,
        }
    }
}

/// One side of a call between two components: the caller lowers, the called lifts.
#[derive(Clone, Copy, Debug, PartialEq, Eq)]
pub struct Side<'a> {
    pub memory: Memory,
    pub calling: Calling,
    /// The types of the parameters or of the results, as the question has it.
    pub types: &'a [Reference],
}

impl<'a> Side<'a> {
    fn raw(self) -> RawSide<'a> {
        RawSide {
            memory: self.memory.number(),
            asynchronous: self.calling.number(),
            types: self.types,
        }
    }
}

/// Which end of a call a function is compiled for: the called lifts what it exports, the caller lowers
/// what it imports.
#[derive(Clone, Copy, Debug, PartialEq, Eq, Hash)]
pub enum Context {
    Lift,
    Lower,
}

impl Context {
    fn number(self) -> u32 {
        match self {
            Context::Lift => 0,
            Context::Lower => 1,
        }
    }
}

/// A function that is lifted or lowered without an adapter: how it is compiled, and its types.
#[derive(Clone, Copy, Debug, PartialEq, Eq)]
pub struct Function<'a> {
    pub memory: Memory,
    pub calling: Calling,
    /// Whether it has a callback, which plays a part in an async lift alone.
    pub callback: bool,
    /// The types of the parameters.
    pub params: &'a [Reference],
    /// The types of the results.
    pub results: &'a [Reference],
}

impl<'a> Function<'a> {
    fn raw(self) -> RawFunction<'a> {
        RawFunction {
            memory: self.memory.number(),
            asynchronous: self.calling.number(),
            callback: self.callback.into(),
            params: self.params,
            results: self.results,
        }
    }
}

/// Bytes and alignment in one memory.
#[derive(Clone, Copy, Debug, PartialEq, Eq, Hash)]
pub struct Layout {
    pub size: u32,
    pub align: u32,
}

/// Where the members of a record stand and how many bytes around them are lost; bytes and alignment of the
/// record that they make; and what it took to place them.
///
/// What a member loses inside is part of its size and in no gap: place that member's own members to learn it.
#[derive(Clone, Debug, PartialEq, Eq, Hash)]
pub struct Placement {
    /// Where each member begins.
    pub offsets: Vec<u32>,
    /// The bytes lost before each member: from the end of the one before it, or from 0, to its own offset.
    pub gaps: Vec<u32>,
    pub size: u32,
    pub align: u32,
    /// The bytes lost after the last member, up to the size: 0 to 7.
    pub gap_after: u32,
    /// How many rows were read back: one for each member that is a definition, each time it is named.
    pub reads: u32,
}

impl Placement {
    /// All bytes lost: the gaps before the members and the one after the last. With the sizes of the members
    /// they make the size of the record.
    ///
    /// ```
    /// # use lampughjata::{Memory, Reference, Table};
    /// let table = Table::build(&[])?;
    /// let mixed = [Reference::U8, Reference::U64, Reference::U8];
    /// let sorted = [Reference::U64, Reference::U8, Reference::U8];
    /// assert_eq!(table.placement(Memory::Memory32, &mixed)?.padding(), 7 + 7);
    /// assert_eq!(table.placement(Memory::Memory32, &sorted)?.padding(), 6);
    /// # Ok::<(), lampughjata::Refused>(())
    /// ```
    pub fn padding(&self) -> u32 {
        self.gaps.iter().sum::<u32>() + self.gap_after
    }
}

/// The layout alone.
impl fmt::Display for Placement {
    fn fmt(&self, f: &mut fmt::Formatter) -> fmt::Result {
        write!(f, "{} bytes, aligned to {}", self.size, self.align)
    }
}

/// What the canonical ABI says of one type: the five numbers of wasmtime's `CanonicalAbiInfo`, its core
/// types, and whether it holds a Borrow; and how deep it goes.
///
/// ```
/// use lampughjata::{Description, Reference, Table};
///
/// let mut description = Description::new();
/// let handles = description.list(Reference::BORROW);
/// let held = description.record(&[Reference::U8, handles]);
/// let table = Table::build(description.words())?;
///
/// let depth = |reference| table.type_of(reference).map(|info| info.depth);
/// assert_eq!((depth(Reference::BORROW)?, depth(handles)?, depth(held)?), (0, 1, 2));
/// # Ok::<(), lampughjata::Refused>(())
/// ```
#[derive(Clone, Copy, Debug, PartialEq, Eq, Hash)]
pub struct Info {
    pub size32: u32,
    pub align32: u32,
    pub size64: u32,
    pub align64: u32,
    /// How many core types it is flattened to; none if these are more than 16, or a part has none.
    pub flat_count: Option<u8>,
    /// The core types over a 32-bit memory, empty if there is no count.
    pub flat32: CoreTypes,
    /// The core types over a 64-bit memory, empty if there is no count.
    pub flat64: CoreTypes,
    /// Whether a Borrow is reached through it, list elements too.
    pub borrow: bool,
    /// How many definitions lie one in another: one more than the deepest that it refers to, list
    /// elements and map parts too, and 1 if it refers to none. At most 100; 0 for what is no definition.
    pub depth: u32,
}

impl Info {
    pub fn layout(&self, memory: Memory) -> Layout {
        match memory {
            Memory::Memory32 => Layout {
                size: self.size32,
                align: self.align32,
            },
            Memory::Memory64 => Layout {
                size: self.size64,
                align: self.align64,
            },
        }
    }

    /// The core types that the type is flattened to; none if these are more than 16, or a part has none.
    pub fn flat_types(&self, memory: Memory) -> Option<CoreTypes> {
        self.flat_count.map(|_| match memory {
            Memory::Memory32 => self.flat32,
            Memory::Memory64 => self.flat64,
        })
    }
}

/// Rows of sixteen words, one for each definition of a description, stored by columns ([`Table::words`]).
///
/// `W` holds the words: a vector if the table owns them, a slice if it borrows them. A table may come
/// from anywhere, since a question tests each row that it reads.
///
/// The words of a row, 32-bit before 64-bit where there are two: 0 kind; 1 to 4 size and alignment twice;
/// 5 number of core types, 255 for none; 6 and 7 these types; 8 discriminant size; 9 and 10 offset of the
/// payload, or of a map's value; 11 to 14 size and alignment of a map's entry twice; 15 twice the depth,
/// and 1 more if it holds a Borrow.
///
/// The examples below are about the record (U8, String, U8), and begin with
///
/// ```
/// use lampughjata::{Description, Reference, Table};
///
/// let mut description = Description::new();
/// let members = [Reference::U8, Reference::STRING, Reference::U8];
/// let named = description.record(&members);
/// let table = Table::build(description.words())?;
/// # Ok::<(), lampughjata::Refused>(())
/// ```
#[derive(Clone, Copy, Debug, Eq)]
pub struct Table<W = Vec<u32>> {
    words: W,
    rows: u32,
    /// Of the build, so none for a table that was not built here.
    reads: Option<u32>,
}

/// Two tables are equal if their rows and words are: what a build took is no part of what it made.
///
/// ```
/// # use lampughjata::Table;
/// let built = Table::build(&[3, 2, 8, 64])?;
/// let stored = Table::from_words(built.words().to_vec(), built.rows());
/// assert_eq!((built.reads(), stored.reads()), (Some(1), None));
/// assert_eq!(built, stored);
/// # Ok::<(), lampughjata::Refused>(())
/// ```
impl<W: PartialEq> PartialEq for Table<W> {
    fn eq(&self, other: &Table<W>) -> bool {
        self.rows == other.rows && self.words == other.words
    }
}

/// The words of a row.
const ROW: usize = 16;
/// The rows that a table can have.
const MOST_ROWS: usize = 1024;

/// How many rows a buffer of so many words has room for.
fn capacity(words: usize) -> usize {
    (words / ROW).min(MOST_ROWS)
}

/// Where a word of a row stands in a table with room for so many rows: the one place of this crate that
/// knows.
fn place(capacity: usize, row: usize, word: usize) -> usize {
    word * capacity + row
}

impl Table {
    /// Builds the table of a description in memory of its own.
    ///
    /// ```
    /// use lampughjata::Table;
    ///
    /// // A list of U8 (kind 3), a record of four (kind 1) and an option of that record (kind 8).
    /// let table = Table::build(&[3, 2, 1, 4, 4, 4, 6, 64, 8, 65])?;
    /// assert_eq!(table.rows(), 3);
    /// # Ok::<(), lampughjata::Refused>(())
    /// ```
    pub fn build(description: &[u32]) -> Result<Table> {
        // A definition takes at least two words, so the row of each is there: what is refused is never
        // for want of room, but at definition 1,024.
        let most = description.len().div_ceil(2).min(MOST_ROWS);
        let mut words = vec![0; most * ROW];
        let built = build_rows(description, &mut words)?;
        Ok(Table::from_built(words, built))
    }
}

impl<'a> Table<&'a [u32]> {
    /// Builds the table of a description in a lent buffer of sixteen words for each definition, or more.
    /// Of a refused description the rows before the refused definition are in the buffer; all other words
    /// keep their values.
    ///
    /// ```
    /// use lampughjata::{Refusal, Table};
    ///
    /// let mut buffer = [0; 48];
    /// let table = Table::build_in(&[6, 9, 8, 64], &mut buffer)?;
    /// assert_eq!(table.rows(), 2);
    ///
    /// let refused = Table::build_in(&[6, 9, 8, 64], &mut buffer[..16]).unwrap_err();
    /// assert_eq!(refused.refusal, Refusal::NoRoom);
    /// # Ok::<(), lampughjata::Refused>(())
    /// ```
    pub fn build_in(description: &[u32], buffer: &'a mut [u32]) -> Result<Table<&'a [u32]>> {
        let built = build_rows(description, buffer)?;
        Ok(Table::from_built(buffer, built))
    }
}

/// Writes the rows and answers how many, and how many it read back.
fn build_rows(description: &[u32], table: &mut [u32]) -> Result<Built> {
    let answer = calls::build(description, table);
    answer::value(answer, Place::Definition).map(answer::built)
}

impl<W: AsRef<[u32]>> Table<W> {
    fn from_built(words: W, Built { rows, reads }: Built) -> Table<W> {
        Table {
            words,
            rows,
            reads: Some(reads),
        }
    }

    /// The table of `rows` rows that stand in `words`, whoever wrote them. It takes the whole buffer that
    /// the table was built in: where a word stands depends on the length, so a part of a table is another
    /// table. Nothing is tested here: a question answers BadRow if the words do not suffice, or if a row
    /// that it reads is not well formed. A row that was built before rows had a depth is not: build the
    /// table again.
    ///
    /// ```
    /// # use lampughjata::{Reference, Refusal, Table};
    /// let table = Table::from_words([0; 16], 1);
    /// let refused = table.type_of(Reference::definition(0)).unwrap_err();
    /// assert_eq!(refused.refusal, Refusal::BadRow);
    /// ```
    pub fn from_words(words: W, rows: u32) -> Table<W> {
        Table {
            words,
            rows,
            reads: None,
        }
    }

    /// The table's whole buffer: sixteen runs, one for each word of a row, each a sixteenth of the words
    /// long (rounded down, 1,024 at most), and then what else there is in it.
    pub fn words(&self) -> &[u32] {
        self.words.as_ref()
    }

    /// The number of rows, which is that of the definitions.
    pub fn rows(&self) -> u32 {
        self.rows
    }

    /// How many rows the build read back: one for each reference to a definition in the description, each
    /// time it is named, and so never more than the description has words. None for a table that was not
    /// built here ([`Table::from_words`]).
    ///
    /// ```
    /// # use lampughjata::{Description, Reference, Table};
    /// let mut description = Description::new();
    /// let bytes = description.list(Reference::U8);
    /// let packet = description.variant(&[Some(bytes), None, Some(bytes)]);
    /// description.fixed_list(packet, 64);
    /// let table = Table::build(description.words())?;
    /// assert_eq!(table.reads(), Some(3), "twice the list, once the variant");
    /// # Ok::<(), lampughjata::Refused>(())
    /// ```
    pub fn reads(&self) -> Option<u32> {
        self.reads
    }

    /// The sixteen words of a definition's row as they stand, untested; none if there is no such row.
    ///
    /// ```
    /// # use lampughjata::{Description, Reference, Table};
    /// let mut description = Description::new();
    /// description.option(Reference::U64);
    /// let table = Table::build(description.words())?;
    /// let row = table.row(0).unwrap();
    /// assert_eq!((row[9], row[10]), (8, 8), "where the payload stands");
    /// assert_eq!(row[15], 2, "twice the depth, and no Borrow");
    /// # Ok::<(), lampughjata::Refused>(())
    /// ```
    pub fn row(&self, index: u32) -> Option<[u32; 16]> {
        let words = self.words();
        let capacity = capacity(words.len());
        let index = index as usize;
        let is_there = index < capacity && index < self.rows as usize;
        is_there.then(|| std::array::from_fn(|word| words[place(capacity, index, word)]))
    }

    /// One word of every row, in the order of the definitions, untested: what a viewer scans that wants
    /// one property of all types. None for a word that no row has, and if the buffer has no room for so
    /// many rows.
    ///
    /// ```
    /// # use lampughjata::{Description, Reference, Table};
    /// let mut description = Description::new();
    /// description.option(Reference::U64);
    /// description.list(Reference::U8);
    /// let table = Table::build(description.words())?;
    /// assert_eq!(table.column(1), Some(&[16, 8][..]), "the sizes in a 32-bit memory");
    /// assert_eq!(table.column(16), None);
    /// # Ok::<(), lampughjata::Refused>(())
    /// ```
    pub fn column(&self, word: usize) -> Option<&[u32]> {
        let words = self.words();
        let capacity = capacity(words.len());
        let rows = self.rows as usize;
        let is_there = word < ROW && rows <= capacity;
        is_there.then(|| &words[place(capacity, 0, word)..][..rows])
    }

    /// What the canonical ABI says of one type, and its depth.
    ///
    /// ```
    /// # use lampughjata::{Description, Reference, Table};
    /// # let mut description = Description::new();
    /// # let members = [Reference::U8, Reference::STRING, Reference::U8];
    /// # let named = description.record(&members);
    /// # let table = Table::build(description.words())?;
    /// let info = table.type_of(named)?;
    /// assert_eq!((info.size32, info.align32, info.flat_count), (16, 4, Some(4)));
    /// assert_eq!(info.flat64.to_string(), "(I32, I64, I64, I32)");
    /// assert_eq!((info.borrow, info.depth), (false, 1));
    /// # Ok::<(), lampughjata::Refused>(())
    /// ```
    pub fn type_of(&self, reference: Reference) -> Result<Info> {
        let number = |k| answer::asked(calls::type_of(self.raw(), reference, k));
        let flat_count = answer::flat_count(number(4)?);
        let flat_types = |k| {
            let packed = number(k)?;
            let types = CoreTypes::from_packed(packed, flat_count.unwrap_or(0));
            Ok(types.unwrap_or_else(|| answer::foreign(packed)))
        };
        Ok(Info {
            size32: number(0)? as u32,
            align32: number(1)? as u32,
            size64: number(2)? as u32,
            align64: number(3)? as u32,
            flat_count,
            flat32: flat_types(5)?,
            flat64: flat_types(6)?,
            borrow: number(7)? != 0,
            depth: number(8)? as u32,
        })
    }

    /// Size and alignment of one type in one memory.
    ///
    /// ```
    /// # use lampughjata::{Description, Layout, Memory, Reference, Table};
    /// # let mut description = Description::new();
    /// # let members = [Reference::U8, Reference::STRING, Reference::U8];
    /// # let named = description.record(&members);
    /// # let table = Table::build(description.words())?;
    /// let layout = table.size_align(Memory::Memory64, named)?;
    /// assert_eq!(layout, Layout { size: 32, align: 8 });
    /// # Ok::<(), lampughjata::Refused>(())
    /// ```
    pub fn size_align(&self, memory: Memory, reference: Reference) -> Result<Layout> {
        let answer = calls::size_align(memory.number(), self.raw(), reference);
        answer::asked(answer).map(answer::layout)
    }

    /// Places the members of a record one after the other. Answers their offsets, the bytes lost before each
    /// and after the last, the record's size and alignment, and how many rows it read back.
    ///
    /// ```
    /// # use lampughjata::{Description, Memory, Reference, Table};
    /// # let mut description = Description::new();
    /// # let members = [Reference::U8, Reference::STRING, Reference::U8];
    /// # let named = description.record(&members);
    /// # let table = Table::build(description.words())?;
    /// let placed = table.placement(Memory::Memory32, &members)?;
    /// assert_eq!(placed.offsets, [0, 4, 12]);
    /// assert_eq!((placed.gaps, placed.gap_after), (vec![0, 3, 0], 3));
    /// assert_eq!((placed.size, placed.align), (16, 4));
    ///
    /// let placed = table.placement(Memory::Memory32, &[named, named])?;
    /// assert_eq!((placed.size, placed.reads), (32, 2));
    /// # Ok::<(), lampughjata::Refused>(())
    /// ```
    pub fn placement(&self, memory: Memory, members: &[Reference]) -> Result<Placement> {
        let mut offsets = vec![0; members.len()];
        let mut gaps = vec![0; members.len()];
        let (memory, table) = (memory.number(), self.raw());
        let answer = calls::placement(memory, table, members, &mut offsets, &mut gaps);
        answer::asked(answer).map(|value| answer::placement(value, offsets, gaps))
    }

    /// The core types of values that travel together, if these are not more than `max`, which is at
    /// most 16.
    ///
    /// ```
    /// # use lampughjata::{Description, Memory, Reference, Table};
    /// # let mut description = Description::new();
    /// # let members = [Reference::U8, Reference::STRING, Reference::U8];
    /// # let named = description.record(&members);
    /// # let table = Table::build(description.words())?;
    /// let types = [named, Reference::FLOAT64];
    /// let flat = table.flatten(Memory::Memory32, 16, &types)?;
    /// assert_eq!(flat.to_string(), "(I32, I32, I32, I32, F64)");
    /// assert_eq!(table.flatten(Memory::Memory32, 4, &types)?.to_string(), "through memory");
    /// # Ok::<(), lampughjata::Refused>(())
    /// ```
    pub fn flatten(&self, memory: Memory, max: u32, types: &[Reference]) -> Result<Flattened> {
        let answer = calls::flatten(memory.number(), max, self.raw(), types);
        answer::asked(answer).map(answer::flattened)
    }

    /// The results of a function that is lowered: at most one core type, none if it is async.
    ///
    /// ```
    /// # use lampughjata::{Calling, Memory, Reference, Side, Table};
    /// let table = Table::build(&[])?;
    /// let types = &[Reference::U32][..];
    /// let side = |calling| Side { memory: Memory::Memory32, calling, types };
    /// assert_eq!(table.lowering(side(Calling::Sync))?.to_string(), "(I32)");
    /// assert_eq!(table.lowering(side(Calling::Async))?.to_string(), "through memory");
    /// # Ok::<(), lampughjata::Refused>(())
    /// ```
    pub fn lowering(&self, side: Side) -> Result<Flattened> {
        self.results(Results::Lowering, side)
    }

    /// The results of a function that is lifted: at most one core type, sixteen if it is async.
    ///
    /// ```
    /// # use lampughjata::{Calling, Memory, Reference, Side, Table};
    /// let table = Table::build(&[])?;
    /// let types = &[Reference::STRING][..];
    /// let side = |calling| Side { memory: Memory::Memory64, calling, types };
    /// assert_eq!(table.lifting(side(Calling::Sync))?.to_string(), "through memory");
    /// assert_eq!(table.lifting(side(Calling::Async))?.to_string(), "(I64, I64)");
    /// # Ok::<(), lampughjata::Refused>(())
    /// ```
    pub fn lifting(&self, side: Side) -> Result<Flattened> {
        self.results(Results::Lifting, side)
    }

    fn results(&self, which: Results, side: Side) -> Result<Flattened> {
        answer::asked(calls::results(which, self.raw(), side.raw())).map(answer::flattened)
    }

    /// The core function that hands the parameters of an async call from the lower side to the lift side.
    /// The types are the parameters'; whether lift is async plays no part.
    ///
    /// ```
    /// # use lampughjata::{Calling, Memory, Reference, Side, Table};
    /// let table = Table::build(&[])?;
    /// let side = |memory| Side { memory, calling: Calling::Async, types: &[Reference::STRING] };
    /// let start = table.async_start(side(Memory::Memory32), side(Memory::Memory64))?;
    /// assert_eq!(start.to_string(), "(I32, I32) -> (I64, I64)");
    /// # Ok::<(), lampughjata::Refused>(())
    /// ```
    pub fn async_start(&self, lower: Side, lift: Side) -> Result<Signature> {
        signature(|k| calls::async_start(self.raw(), lower.raw(), lift.raw(), k))
    }

    /// The core function that hands the results of an async call from the lift side to the lower side.
    /// The types are the results'.
    ///
    /// ```
    /// # use lampughjata::{Calling, Memory, Reference, Side, Table};
    /// let table = Table::build(&[])?;
    /// let side = |memory| Side { memory, calling: Calling::Async, types: &[Reference::U32] };
    /// let back = table.async_return(side(Memory::Memory64), side(Memory::Memory32))?;
    /// assert_eq!(back.to_string(), "(I32, I64) -> ()");
    /// # Ok::<(), lampughjata::Refused>(())
    /// ```
    pub fn async_return(&self, lift: Side, lower: Side) -> Result<Signature> {
        signature(|k| calls::async_return(self.raw(), lift.raw(), lower.raw(), k))
    }

    /// The core signature of a function that is lifted or lowered without an adapter.
    ///
    /// - Parameters of more than 16 core types, or of more than 4 in an async lower, are one pointer.
    /// - A sync function returns one core type at most. If its results have more, a lift returns a pointer
    ///   to them, and a lower takes one as its last parameter and returns nothing.
    /// - An async lift returns an I32 if it has a callback, else nothing.
    /// - An async lower returns an I32, in a 64-bit memory too. It takes a pointer as its last parameter if
    ///   its results have any core type. An empty record has none, and so gets no pointer here, unlike in
    ///   [`Table::async_return`].
    /// - Types without a flat count go through memory.
    ///
    /// The parameters are tested before the results, whose positions count on from theirs.
    ///
    /// ```
    /// # use lampughjata::{Calling, Context, Function, Memory, Reference, Table};
    /// let table = Table::build(&[])?;
    /// let greet = Function {
    ///     memory: Memory::Memory64,
    ///     calling: Calling::Sync,
    ///     callback: false,
    ///     params: &[Reference::STRING, Reference::U32],
    ///     results: &[Reference::STRING],
    /// };
    /// let signature = |context, function| table.functype(context, function).map(|s| s.to_string());
    /// assert_eq!(signature(Context::Lift, greet)?, "(I64, I64, I32) -> (I64)");
    /// assert_eq!(signature(Context::Lower, greet)?, "(I64, I64, I32, I64) -> ()");
    ///
    /// let greet = Function { calling: Calling::Async, callback: true, ..greet };
    /// assert_eq!(signature(Context::Lift, greet)?, "(I64, I64, I32) -> (I32)");
    /// assert_eq!(signature(Context::Lower, greet)?, "(I64, I64, I32, I64) -> (I32)");
    /// # Ok::<(), lampughjata::Refused>(())
    /// ```
    pub fn functype(&self, context: Context, function: Function) -> Result<Signature> {
        signature(|k| calls::functype(self.raw(), context.number(), function.raw(), k))
    }

    /// Whether any of the types holds a Borrow.
    ///
    /// ```
    /// # use lampughjata::{Description, Reference, Table};
    /// let mut description = Description::new();
    /// let handles = description.list(Reference::BORROW);
    /// let table = Table::build(description.words())?;
    /// assert!(table.contains_borrow(&[Reference::U8, handles])?);
    /// # Ok::<(), lampughjata::Refused>(())
    /// ```
    pub fn contains_borrow(&self, types: &[Reference]) -> Result<bool> {
        let answer = calls::contains_borrow(self.raw(), types);
        Ok(answer::asked(answer)? != 0)
    }

    fn raw(&self) -> RawTable<'_> {
        RawTable {
            words: self.words.as_ref(),
            rows: self.rows,
        }
    }
}

/// Of a call that answers the parameters for 0 and the results for 1.
fn signature(call: impl Fn(u32) -> u64) -> Result<Signature> {
    let list = |k| answer::asked(call(k)).map(answer::list);
    Ok(Signature {
        params: list(0)?,
        results: list(1)?,
    })
}
