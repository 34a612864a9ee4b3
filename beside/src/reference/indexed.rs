//! Document 02's classes by an index (W-207): where a class table begins, the classes of glyphs, a subtable whose class table is
//! rewritten, and passes by an index; written from the request alone, over the crate's own `next`.

use crate::reference::anchored::Anchored;
use crate::reference::anchored_by_copy as by_copy;
use crate::reference::kerning::{Kerning, Subtable};
use crate::reference::kerning_by_copy;
use crate::reference::kerning_choices::Choices;
use crate::reference::kerx_readings::{number, Kerx, Reading, States};
use crate::reference::line::Line;
use crate::reference::opened::by_index;
use crate::reference::oracle::{caught, Answer, Fault};
use crate::reference::passes_by_crate::caught_pass;
use crate::reference::steps_by_copy;
use crate::tables::lookup::words;
use crate::tables::morx::{in_chain, the_subtable, SUBTABLE_HEAD};
use std::rc::Rc;

/// The most entries of an index.
pub const MOST_ENTRIES: usize = 65_535;

/// An index as a pass is lent it.
#[derive(Clone)]
pub struct Index {
    pub classes: Rc<[u16]>,
    /// Where the class table that it was made from begins.
    pub start: u64,
}

/// Where the class table of the extended state table at a place begins; None where that has no head.
pub fn class_start(table: &[u8], at: u64) -> Option<u64> {
    let head = table.get(usize::try_from(at).ok()?..)?;
    number(head, 12, 4)?;
    Some(at + number(head, 4, 4)?)
}

/// The classes of the glyphs below so many in that state table, in a reading.
pub fn classes(reading: Reading, table: &[u8], at: u64, length: usize) -> Option<Vec<u16>> {
    let states = States::open(reading, table.get(usize::try_from(at).ok()?..)?)?;
    Some((0..length).map(|glyph| states.class(glyph as u16) as u16).collect())
}

impl Index {
    /// Whether a pass by the subtable at a start, which has a class table, takes it.
    fn is_of(&self, table: &[u8], start: u64) -> bool {
        let begins = class_start(table, start + SUBTABLE_HEAD as u64);
        self.classes.len() <= MOST_ENTRIES && begins == Some(self.start)
    }

    /// The class of every glyph but 0xFFFF: the index's, and above it that of the state table at a place.
    fn all(&self, table: &[u8], at: u64) -> Rc<[u16]> {
        let mut all = classes(Reading::Crate, table, at, MOST_ENTRIES).unwrap_or_default();
        all[..self.classes.len()].copy_from_slice(&self.classes);
        Rc::from(all)
    }
}

/// A subtable, with all that lies behind it, whose class table is one of format 0 at its end, with these classes.
fn rewritten(subtable: &[u8], classes: &[u16]) -> Vec<u8> {
    let mut bytes = subtable.to_vec();
    let at = (bytes.len() - SUBTABLE_HEAD) as u32;
    bytes[SUBTABLE_HEAD + 4..SUBTABLE_HEAD + 8].copy_from_slice(&at.to_be_bytes());
    bytes.extend(words(&[0]));
    bytes.extend(words(classes));
    bytes
}

/// A pass of morx by the subtable at a start, with an index or without.
pub fn morx_pass(table: &[u8], start: u64, index: Option<&Index>, line: &mut Line) -> Result<Answer<()>, Fault> {
    let subtable = match usize::try_from(start).ok().and_then(|start| table.get(start..)) {
        Some(subtable) => in_chain(subtable),
        None => return Ok(Answer::Head),
    };
    let kind = match caught(|| the_subtable(&subtable))? {
        Some(kind) => kind,
        None => return Ok(Answer::Head),
    };
    let index = match index {
        Some(index) => index,
        None => return caught_pass(&kind, line),
    };
    match steps_by_copy::open(&subtable) {
        Some(machine) if index.is_of(table, start) => {
            by_index(&index.classes, || machine.pass(line, &mut |_, _, _| {}))
        }
        _ => Ok(Answer::Index),
    }
}

/// Whether the same pass by the crate as published, on a table whose class table is rewritten with the index's numbers, gives this, too;
/// it has to give what the copy gives there by an index of all classes.
pub fn is_morx_rewritten(
    table: &[u8],
    start: u64,
    index: &Index,
    line: &Line,
    given: (Answer<()>, &Line),
) -> Result<bool, Fault> {
    let subtable = &table[start as usize..];
    let all = index.all(subtable, SUBTABLE_HEAD as u64);
    let bytes = in_chain(&rewritten(subtable, &all));
    let [mut ours, mut theirs] = [line.clone(), line.clone()];
    let machine = steps_by_copy::open(&bytes).ok_or(Fault::Disputed)?;
    let by_copy = by_index(&all, || machine.pass(&mut ours, &mut |_, _, _| {}))?;
    let kind = caught(|| the_subtable(&bytes))?.ok_or(Fault::Disputed)?;
    if caught_pass(&kind, &mut theirs)? != by_copy || ours != theirs {
        return Err(Fault::Disputed);
    }
    Ok((by_copy, &ours) == given)
}

/// What a pass of kerx is told besides its line.
#[derive(Clone, Copy)]
pub struct Told<'a> {
    pub version: u16,
    pub choices: Choices,
    pub ankr: &'a [u8],
    pub start: u64,
}

const KERX: Kerning = Kerning::Kerx;

/// A pass of kerx by the subtable at a start, with an index or without: by the model, and in the crate's reading by the crate.
pub fn kerx_pass(table: &[u8], told: Told, index: Option<&Index>, lent: &mut Anchored) -> Result<Answer<()>, Fault> {
    let data = match usize::try_from(told.start).ok().and_then(|start| table.get(start..)) {
        Some(data) => data,
        None => return Ok(Answer::Head),
    };
    let reading = told.choices.reading(KERX);
    let subtable = Kerx::new(reading, told.version, data);
    if let Some(index) = index {
        // What it is refused for without an index comes first.
        let mut none = lent.clone();
        none.kerned.line.used = 0;
        let answer = subtable.anchored_pass(told.ankr, told.choices, &mut none);
        if answer != Answer::Done(()) {
            return Ok(answer);
        }
        let has_classes = subtable.head().map_or(false, |head| matches!(head.format(), 1 | 4));
        if !has_classes || !index.is_of(table, told.start) {
            return Ok(Answer::Index);
        }
    }
    let numbers = index.map_or(&[][..], |index| &index.classes);
    let mut by_crate = lent.clone();
    let answer = Kerx { index: numbers, ..subtable }.anchored_pass(told.ankr, told.choices, lent);
    let left = (answer, lent.kerned.along.clone(), lent.marks.clone());
    reading.right(left, || {
        let alone = KERX.alone(told.version, data);
        let answer = match index {
            Some(index) => by_index(&index.classes, || copied(&alone, told, &mut by_crate))?,
            None => copied(&alone, told, &mut by_crate)?,
        };
        Ok((answer, by_crate.kerned.along, by_crate.marks))
    })?;
    Ok(answer)
}

/// The pass by the one subtable of a table made by `alone`: machines by the crate's copy, and pairs as published.
fn copied(alone: &[u8], told: Told, lent: &mut Anchored) -> Result<Answer<()>, Fault> {
    let Anchored { kerned, marks } = lent;
    if let Some(machine) = by_copy::open(alone, told.ankr) {
        let (glyphs, _) = kerned.used();
        return by_copy::pass(&machine, glyphs, marks, &mut |_, _, _| {});
    }
    if let Some(machine) = kerning_by_copy::open(KERX, alone) {
        let (glyphs, along) = kerned.used();
        return machine.pass(glyphs, along, &mut |_, _, _| {});
    }
    match Subtable::alone(KERX, alone)? {
        Some(subtable) => kerned.pass(&subtable, told.choices),
        None => Ok(Answer::Head),
    }
}

/// Whether the same pass by the crate as published, on a table whose class table is rewritten with the index's numbers, gives this, too;
/// it has to give what the copy gives there by an index of all classes.
pub fn is_kerx_rewritten(
    table: &[u8],
    told: Told,
    index: &Index,
    lent: &Anchored,
    given: (Answer<()>, &Anchored),
) -> Result<bool, Fault> {
    let subtable = &table[told.start as usize..];
    let all = index.all(subtable, SUBTABLE_HEAD as u64);
    let alone = KERX.alone(told.version, &rewritten(subtable, &all));
    // The crate takes the ankr table behind the other, in one font.
    let font = [&alone, told.ankr].concat();
    let [mut ours, mut theirs] = [lent.clone(), lent.clone()];
    let by_copied = by_index(&all, || copied(&font, told, &mut ours))?;
    let glyphs = &lent.kerned.line.glyphs[..lent.kerned.line.length()];
    let answer = match by_copy::published_pass(&font, alone.len(), glyphs, &mut theirs.marks)? {
        Some(answer) => answer,
        None => {
            let subtable = caught(|| Subtable::first(KERX, &font))?.ok_or(Fault::Disputed)?;
            theirs.kerned.pass(&subtable, told.choices)?
        }
    };
    let is_same = |one: &Anchored, other: &Anchored| one.kerned.along == other.kerned.along && one.marks == other.marks;
    if answer != by_copied || !is_same(&ours, &theirs) {
        return Err(Fault::Disputed);
    }
    Ok(by_copied == given.0 && is_same(&ours, given.1))
}
