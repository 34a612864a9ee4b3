//! The crate, unchanged, and its answers in the documents' numbers.

use std::cell::Cell;
use std::panic::{catch_unwind, set_hook, take_hook, AssertUnwindSafe, Location};

/// The crate's module, as published.
#[path = "../../../docs/src/aat.rs"]
#[allow(dead_code)] // the crate has parts that nobody here asks for
pub mod aat;

#[path = "../../../docs/src/parse.rs"]
#[allow(dead_code)] // the crate has parts that nobody here asks for
mod parse;

pub use parse::*;

/// The crate's form of a tag.
pub type RawTag = u32;

/// The tag of four letters.
pub const fn raw_tag(letters: &[u8; 4]) -> RawTag {
    u32::from_be_bytes(*letters)
}

/// The longest table that is not refused.
pub const LONGEST_TABLE: usize = 16_777_216;

/// An answer of the documents, with what DONE carries.
#[derive(Clone, Copy, PartialEq)]
pub enum Answer<T> {
    Done(T),
    Nothing,
    Table,
    Line,
    Place,
    State,
    Head,
    Full,
    Ended,
    Limit,
    Request,
    Record,
    Version,
    Tuples,
    Index,
    Anchor,
    Reel,
    Overlap,
    Space,
}

impl<T: Copy> Answer<T> {
    /// DONE where there is something, else NOTHING.
    pub fn of(found: Option<T>) -> Self {
        found.map_or(Answer::Nothing, Answer::Done)
    }

    /// The answer's number.
    pub fn number(&self) -> u32 {
        match self {
            Answer::Done(_) => 0,
            Answer::Nothing => 1,
            Answer::Table => 2,
            Answer::Line => 3,
            Answer::Place => 4,
            Answer::State => 5,
            Answer::Head => 6,
            Answer::Full => 7,
            Answer::Ended => 8,
            Answer::Limit => 9,
            Answer::Request => 10,
            Answer::Record => 11,
            Answer::Version => 12,
            Answer::Tuples => 13,
            Answer::Index => 14,
            Answer::Anchor => 16,
            Answer::Reel => 15,
            Answer::Overlap => 17,
            Answer::Space => 18,
        }
    }

    /// The same answer, with what DONE carries changed.
    pub fn map<U>(self, change: impl FnOnce(T) -> U) -> Answer<U> {
        match self {
            Answer::Done(value) => Answer::Done(change(value)),
            Answer::Nothing => Answer::Nothing,
            Answer::Table => Answer::Table,
            Answer::Line => Answer::Line,
            Answer::Place => Answer::Place,
            Answer::State => Answer::State,
            Answer::Head => Answer::Head,
            Answer::Full => Answer::Full,
            Answer::Ended => Answer::Ended,
            Answer::Limit => Answer::Limit,
            Answer::Request => Answer::Request,
            Answer::Record => Answer::Record,
            Answer::Version => Answer::Version,
            Answer::Tuples => Answer::Tuples,
            Answer::Index => Answer::Index,
            Answer::Anchor => Answer::Anchor,
            Answer::Reel => Answer::Reel,
            Answer::Overlap => Answer::Overlap,
            Answer::Space => Answer::Space,
        }
    }

    /// What DONE carries.
    pub fn done(&self) -> Option<T> {
        match *self {
            Answer::Done(value) => Some(value),
            _ => None,
        }
    }
}

/// Why there is no answer to hold the box to.
#[derive(Clone, Copy, PartialEq)]
pub enum Fault {
    /// The crate panicked where document 01 names no panic.
    Panic,
    /// The crate subtracted past the end in `check_range`, which gives false in a build without overflow checks.
    CheckRange,
    /// The crate counted on from action 65,535, where document 01 has ENDED.
    LastAction,
    /// The crate divided by a class count of 0, where document 01 has ENDED.
    NoClasses,
    /// A document, or a plain reading of it, gives another answer.
    Disputed,
}

impl Fault {
    /// The fault in words.
    pub fn describe(self) -> &'static str {
        match self {
            Fault::Panic => "the crate panicked",
            Fault::CheckRange => "the crate panicked in check_range",
            Fault::LastAction => "the crate panicked at action 65,535",
            Fault::NoClasses => "the crate panicked at class count 0",
            Fault::Disputed => "the crate gave another answer than a document or a plain reading of it",
        }
    }

    /// Whether the crate panicked.
    pub fn is_panic(self) -> bool {
        self != Fault::Disputed
    }
}

thread_local! {
    static CRATE_AT_WORK: Cell<bool> = Cell::new(false);
    static LAST_PANIC: Cell<Fault> = Cell::new(Fault::Panic);
    static CHECK_RANGE_AS_NONE: Cell<u64> = Cell::new(0);
    static LAST_ACTION_AS_NONE: Cell<u64> = Cell::new(0);
    static NO_CLASSES_AS_NONE: Cell<u64> = Cell::new(0);
}

/// Keeps quiet about the crate's panics, which are counted by their place, and about no others.
pub fn quiet_crate() {
    let usual = take_hook();
    set_hook(Box::new(move |panic| {
        if CRATE_AT_WORK.with(Cell::get) {
            LAST_PANIC.with(|last| last.set(fault_at(panic.location())));
        } else {
            usual(panic)
        }
    }));
}

/// The fault that a panic at this place is: by the line of the crate's text, which is that of its copy, too.
fn fault_at(place: Option<&Location>) -> Fault {
    let (aat, parse) = (include_str!("../../../docs/src/aat.rs"), include_str!("../../../docs/src/parse.rs"));
    let line_of = |text: &'static str, number: u32| text.lines().nth(number as usize - 1).map(str::trim);
    match place {
        Some(place) if place.file().ends_with("/parse.rs") => match line_of(parse, place.line()) {
            Some("(offset < end) & (end - offset >= len)") => Fault::CheckRange,
            _ => Fault::Panic,
        },
        Some(place) if place.file().ends_with("/aat.rs") => match line_of(aat, place.line()) {
            Some("action_index += 1;") => Fault::LastAction,
            Some("(entry.new_state as u32).checked_sub(self.state_array)? / self.class_count as u32;") => {
                Fault::NoClasses
            }
            _ => Fault::Panic,
        },
        _ => Fault::Panic,
    }
}

/// What the crate gives, or that it panicked.
pub fn caught<T>(work: impl FnOnce() -> T) -> Result<T, Fault> {
    CRATE_AT_WORK.with(|at_work| at_work.set(true));
    let given = catch_unwind(AssertUnwindSafe(work));
    CRATE_AT_WORK.with(|at_work| at_work.set(false));
    given.map_err(|_| LAST_PANIC.with(Cell::get))
}

/// The same, with None for a panic at action 65,535 or at class count 0, and for one in `check_range`, which is what a build
/// without overflow checks gives there.
pub fn caught_as_none<T>(work: impl FnOnce() -> Option<T>) -> Result<Option<T>, Fault> {
    let counted = match caught(work) {
        Err(Fault::CheckRange) => &CHECK_RANGE_AS_NONE,
        Err(Fault::LastAction) => &LAST_ACTION_AS_NONE,
        Err(Fault::NoClasses) => &NO_CLASSES_AS_NONE,
        given => return given,
    };
    counted.with(|count| count.set(count.get() + 1));
    Ok(None)
}

/// How many panics so far in `check_range` were taken for None.
pub fn check_range_as_none() -> u64 {
    CHECK_RANGE_AS_NONE.with(Cell::get)
}

/// How many panics so far at action 65,535 were taken for None.
pub fn last_action_as_none() -> u64 {
    LAST_ACTION_AS_NONE.with(Cell::get)
}

/// How many panics so far at class count 0 were taken for None.
pub fn no_classes_as_none() -> u64 {
    NO_CLASSES_AS_NONE.with(Cell::get)
}

/// The crate's lookup of a 16-bit element.
pub fn lookup(table: &[u8], start: u64, glyph: u16) -> Result<Answer<u16>, Fault> {
    if table.len() > LONGEST_TABLE {
        return Ok(Answer::Table);
    }
    caught(|| Answer::of(aat::lookup::<u16>(&Bytes::new(table), start as usize, glyph)))
}

/// The crate's class of a glyph in the extended state table that begins at `start`.
pub fn class_extended(table: &[u8], start: u64, glyph: u16) -> Result<Answer<u16>, Fault> {
    class(table, start, |data| Some(aat::ExtendedStateTable::new(data)?.class(glyph)))
}

/// The crate's class of a glyph in the classic state table that begins at `start`.
pub fn class_classic(table: &[u8], start: u64, glyph: u16) -> Result<Answer<u16>, Fault> {
    class(table, start, |data| Some(aat::StateTable::new(data)?.class(glyph)))
}

/// HEAD where the start is past the table, or there is no state table to tell the class.
fn class(table: &[u8], start: u64, tell: impl Fn(&Bytes) -> Option<u16>) -> Result<Answer<u16>, Fault> {
    if table.len() > LONGEST_TABLE {
        return Ok(Answer::Table);
    }
    let told = caught(|| tell(&Bytes::with_offset(table, start as usize)?))?;
    Ok(told.map_or(Answer::Head, Answer::Done))
}

/// The crate's index of a language's name. It takes a start of 32 bits; the last of them is past every table, as all
/// above it are.
pub fn language_index(table: &[u8], start: u64, name: &str) -> Result<Answer<u32>, Fault> {
    if table.len() > LONGEST_TABLE {
        return Ok(Answer::Table);
    }
    let start = u32::try_from(start).unwrap_or(u32::MAX);
    caught_as_none(|| aat::morx::language_index(table, start, name)).map(Answer::of)
}
