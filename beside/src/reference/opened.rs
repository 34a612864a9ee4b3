//! A copy of the crate, made when this is built, in which the fields of the states, of what a step hands over and of morx's
//! lists are public, so that steps can be made from lent states and lists gone through from lent cursors, and in which a read
//! that fails is noted and an index, where there is one, is asked for a glyph's class first. Nothing else differs: every pass and
//! every list from its start on is made by both, and compared.

#[path = "../../../target/beside/aat.rs"]
#[allow(dead_code)] // the crate has parts that nobody here asks for
pub mod aat;

#[path = "../../../target/beside/parse.rs"]
#[allow(dead_code)] // the crate has parts that nobody here asks for
mod parse;

pub use crate::reference::oracle::{raw_tag, RawTag};
pub use parse::*;
use std::cell::{Cell, RefCell};
use std::rc::Rc;

thread_local! {
    static A_READ_FAILED: Cell<bool> = Cell::new(false);
    static INDEX: RefCell<Option<Rc<[u16]>>> = RefCell::new(None);
}

/// The class of a glyph in the copy, where there is an index that has one.
fn indexed(glyph: u16) -> Option<u16> {
    INDEX.with(|index| index.borrow().as_ref()?.get(usize::from(glyph)).copied())
}

/// What some work gives where this index is asked for classes.
pub fn by_index<T>(index: &Rc<[u16]>, work: impl FnOnce() -> T) -> T {
    INDEX.with(|asked| *asked.borrow_mut() = Some(index.clone()));
    let given = work();
    INDEX.with(|asked| *asked.borrow_mut() = None);
    given
}

/// What a read that fails gives, in the copy; it is noted.
pub fn failed_read<T>() -> Option<T> {
    A_READ_FAILED.with(|failed| failed.set(true));
    None
}

/// What some work gives, and whether a read failed on the way.
pub fn noting<T>(work: impl FnOnce() -> T) -> (T, bool) {
    A_READ_FAILED.with(|failed| failed.set(false));
    let given = work();
    (given, A_READ_FAILED.with(Cell::get))
}
