//! What a font's tables for shaping hold, and what in them is out of order. Lookup tables are surveyed by the box.

mod kerning;
mod mort;
mod morx;

use crate::font::sfnt::{long, word, Font};
use crate::font::shaping::Tables;
use crate::reference::kerning::{Kerning, ALONE_AT};
use crate::reference::oracle::{aat, Bytes};
use crate::reference::survey::is_unsorted;
use crate::wire::entries::Entry;
use crate::wire::pipe::{lend_table, TheBox};
use crate::wire::reply::number;
use std::collections::BTreeSet;

/// What the tables hold, line by line, and what is out of order.
#[derive(Default)]
pub struct Inventory {
    pub lines: Vec<String>,
    pub faults: Vec<String>,
}

/// That of a font.
pub fn list(font: &Font, tables: &Tables, the_box: &mut TheBox) -> Result<Inventory, String> {
    let sizes: Vec<String> = font.sizes().map(|(name, size)| format!("{} {}", name, size)).collect();
    let mut found = Inventory { lines: vec![format!("tables: {}", sizes.join(", "))], ..Inventory::default() };
    for (name, table) in tables.lent() {
        let mut lent = Vec::new();
        lend_table(table, &mut lent);
        the_box.exchange(&lent, 0).map_err(|error| format!("the box: {}", error))?;
        let mut surveyor = Surveyor {
            the_box,
            table,
            glyphs: font.glyphs(),
            about: name.into(),
            end: table.len(),
            told: BTreeSet::new(),
            found: &mut found,
            left: MOST_READ,
            failed: None,
        };
        match name {
            "morx" => surveyor.morx(),
            "mort" => surveyor.mort(),
            "kerx" => surveyor.kerning(Kerning::Kerx),
            "kern" => surveyor.kerning(Kerning::Kern),
            _ => surveyor.ltag(),
        };
        surveyor.failed.map_or(Ok(()), Err)?;
    }
    Ok(found)
}

/// So many numbers are looked at in one table.
const MOST_READ: usize = 1 << 24;

/// No lookup and no list, in every entry.
const NONE: u16 = 0xFFFF;

/// A table that is looked through.
struct Surveyor<'a> {
    the_box: &'a mut TheBox,
    table: &'a [u8],
    glyphs: Option<u16>,
    /// The part that is looked at, where it ends, and the kinds of fault that were told of it.
    about: String,
    end: usize,
    told: BTreeSet<&'static str>,
    found: &'a mut Inventory,
    /// How many numbers are looked at before it is given up.
    left: usize,
    /// Why the box could not be asked.
    failed: Option<String>,
}

/// An entry of a state table: its flags, and the words behind them.
struct Reached {
    flags: u16,
    words: [u16; 2],
}

/// Where the rows and entries of a state table lie, and how many bytes a row, a number in it and an entry have.
struct Layout {
    rows: usize,
    width: usize,
    cell: usize,
    entries: usize,
    size: usize,
}

impl Layout {
    /// The number of an entry in a row.
    fn number(&self, table: &[u8], at: usize) -> Option<usize> {
        match self.cell {
            1 => table.get(at).copied().map(usize::from),
            _ => word(table, at).map(usize::from),
        }
    }
}

impl Surveyor<'_> {
    /// Goes on to another part.
    fn begin(&mut self, about: String, end: usize) {
        self.about = about;
        self.end = end.min(self.table.len());
        self.told.clear();
    }

    fn say(&mut self, words: String) {
        self.found.lines.push(words);
    }

    /// Tells a fault of this part, if it is the first of its kind.
    fn fault(&mut self, kind: &'static str, words: String) {
        if self.told.insert(kind) {
            self.found.faults.push(format!("{}: {}", self.about, words));
        }
    }

    /// Tells of something that does not lie in its part.
    fn outside(&mut self, what: &'static str, at: usize) -> Option<()> {
        let at = at.saturating_sub(ALONE_AT);
        self.fault(what, format!("{} at byte {} does not lie in it (row 46)", what, at));
        None
    }

    /// Takes the time to look at so many numbers, if it is there.
    fn spend(&mut self, count: usize) -> Option<()> {
        self.left = self.left.saturating_sub(count);
        if self.left == 0 {
            self.fault("time", "it is too large to be looked through to its end here".into());
            return None;
        }
        Some(())
    }

    /// Whether bytes lie in the part that is looked at.
    fn holds(&mut self, what: &'static str, at: usize, size: usize) -> Option<()> {
        if at.checked_add(size).map_or(false, |behind| behind <= self.end) {
            Some(())
        } else {
            self.outside(what, at)
        }
    }

    /// Whether a size is large enough for a head, and leads no further than the part that is looked at.
    fn is_sized(&mut self, at: usize, size: u32, head: u32) -> Option<()> {
        if size < head {
            self.fault(
                "size",
                format!("its size {} is too small for its head: it is taken again and again (row 46)", size),
            );
            return None;
        }
        if at + size as usize > self.end {
            self.fault("size", format!("its size {} leads past the end of what it lies in (row 46)", size));
        }
        Some(())
    }

    /// The place that an offset at a place of the body leads to.
    fn part(&mut self, body: usize, field: usize) -> Option<usize> {
        self.holds("its head", body + field, 4)?;
        Some(body + long(self.table, body + field)? as usize)
    }

    /// Whether the font has a glyph that is put into a line.
    fn is_glyph(&mut self, how: &str, glyph: u16) {
        if self.glyphs.map_or(false, |count| glyph >= count) && glyph != NONE {
            self.fault("glyph", format!("{} glyph {}, which the font has not", how, glyph));
        }
    }

    /// A lookup of glyphs that take the place of glyphs.
    fn glyph_lookup(&mut self, what: &str, at: usize) -> Option<()> {
        self.lookup(what, at)?;
        self.spend(self.glyphs.unwrap_or(0).into())?;
        for glyph in 0..self.glyphs.unwrap_or(0) {
            if let Some(other) = self.element(at, glyph) {
                self.is_glyph("it writes", other);
            }
        }
        Some(())
    }

    fn element(&self, at: usize, glyph: u16) -> Option<u16> {
        aat::lookup(&Bytes::new(self.table), at, glyph)
    }

    /// Tells a lookup table, and what is out of order in it.
    fn lookup(&mut self, what: &str, at: usize) -> Option<()> {
        self.holds("a lookup", at, 2)?;
        let format = word(self.table, at)?;
        let [unit, second, third] = [2, 4, 6].map(|field| word(self.table, at + field).unwrap_or(0));
        let (said, fault) = match format {
            0 => ("an array".into(), None),
            2 | 4 | 6 => {
                let size = if format == 6 { 4 } else { 6 };
                let row = (unit != size).then(|| format!("its unit size is {}, not {} (row 2)", unit, size));
                (format!("records: {}", second), row)
            }
            8 => (format!("from glyph {} on: {}", unit, second), None),
            10 => {
                let row = (unit != 2).then(|| format!("its unit size is {}, not 2 (row 1)", unit));
                (format!("from glyph {} on: {}", second, third), row)
            }
            _ => ("nothing".into(), Some(format!("its format {} is none", format))),
        };
        let verdict = self.survey(at)?;
        self.say(format!("      {} at {}: format {}, {}; {}", what, at - ALONE_AT, format, said, verdict.0));
        for words in fault.into_iter().chain(verdict.1) {
            self.told.remove("lookup");
            self.fault("lookup", format!("{} at {}: {}", what, at - ALONE_AT, words));
        }
        if matches!(format, 2 | 4 | 6) && self.element(at, NONE).is_some() {
            self.fault("sentinel", format!("{} at {}: it counts the record FFFF (row 3)", what, at - ALONE_AT));
        }
        let [unit, second, third] = [unit, second, third].map(usize::from);
        match format {
            0 => self.holds("an array for all glyphs", at + 2, 2 * self.glyphs.map_or(0, usize::from)),
            2 | 6 => self.holds("an array of records", at + 12, unit * second),
            4 => self.segments(at, second),
            8 => self.holds("an array of elements", at + 6, 2 * second),
            10 => self.holds("an array of elements", at + 8, unit * third),
            _ => None,
        }
    }

    /// The segments of format 4, each of which leads to its elements; the last may be a sentinel.
    fn segments(&mut self, at: usize, count: usize) -> Option<()> {
        for record in (0..count).map(|number| at + 12 + 6 * number) {
            self.spend(1)?;
            self.holds("an array of records", record, 6)?;
            let [last, first, offset] = [0, 2, 4].map(|field| word(self.table, record + field).unwrap_or(0));
            if first <= last && first != NONE {
                self.holds("an array of elements", at + usize::from(offset), 2 * (usize::from(last - first) + 1))?;
            }
        }
        Some(())
    }

    /// The box's verdict on a lookup table, and a fault.
    fn survey(&mut self, at: usize) -> Option<(&'static str, Option<String>)> {
        let mut call = vec![Entry::Survey as u8];
        call.extend((at as u64).to_le_bytes());
        call.extend([0; 8]);
        let reply = match self.the_box.exchange(&call, 12) {
            Ok(reply) => reply,
            Err(error) => {
                self.failed = Some(format!("the box: {}", error));
                return None;
            }
        };
        let [answer, verdict, record] = [0, 4, 8].map(|field| number(&reply[field..field + 4]));
        Some(match (answer, verdict) {
            (0, 0) => ("it has no records", None),
            (0, 1) => ("sorted", None),
            (0, 2) => ("NOT sorted", Some(format!("its record {} is out of order (row 5)", record))),
            (0, _) => {
                let row = is_unsorted(self.table, at as u64)
                    .then(|| "its records are out of order as the crate steps (row 5)".into());
                ("NOT looked at, for its unit size", row)
            }
            _ => ("it can't be read", Some("it can't be read".into())),
        })
    }

    /// An extended state table whose entries have so many words behind their flags: the entries that are reached.
    fn machine(&mut self, body: usize, words: usize) -> Option<Vec<Reached>> {
        self.holds("its state table", body, 16)?;
        let classes = long(self.table, body)?;
        let [lookup, rows, entries] = [self.part(body, 4)?, self.part(body, 8)?, self.part(body, 12)?];
        self.lookup("its classes", lookup);
        self.check_classes(classes, |surveyor, glyph| surveyor.element(lookup, glyph))?;
        let (width, size) = (2 * classes as usize, 4 + 2 * words);
        let layout = Layout { rows, width, cell: 2, entries, size };
        self.walk(layout, |surveyor, at| {
            let field = |field: usize| word(surveyor.table, at + field);
            let behind = |place: usize| if place < words { field(4 + 2 * place) } else { Some(NONE) };
            Some((field(0)?, Reached { flags: field(2)?, words: [behind(0)?, behind(1)?] }))
        })
    }

    /// Tells the states and entries that are reached from state 0 on; an entry leads to a state, if it can be read.
    fn walk(
        &mut self,
        layout: Layout,
        entry: impl Fn(&mut Self, usize) -> Option<(u16, Reached)>,
    ) -> Option<Vec<Reached>> {
        let classes = layout.width / layout.cell;
        let (mut states, mut left) = (BTreeSet::from([0]), vec![0]);
        let (mut numbers, mut reached) = (BTreeSet::new(), Vec::new());
        while let Some(state) = left.pop() {
            let row = layout.rows + usize::from(state) * layout.width;
            if self.holds("a row of its state array", row, layout.width).is_none() {
                continue;
            }
            for class in 0..classes {
                self.spend(1)?;
                let number = layout.number(self.table, row + layout.cell * class)?;
                let at = layout.entries + number * layout.size;
                if !numbers.insert(number) || self.holds("an entry", at, layout.size).is_none() {
                    continue;
                }
                if let Some((next, one)) = entry(self, at) {
                    if states.insert(next) {
                        left.push(next);
                    }
                    reached.push(one);
                }
            }
        }
        self.say(format!("      classes: {}, states: {}, entries: {}", classes, states.len(), numbers.len()));
        Some(reached)
    }

    /// Whether the class of every glyph is one of so many.
    fn check_classes(&mut self, classes: u32, class: impl Fn(&Self, u16) -> Option<u16>) -> Option<()> {
        if classes < 4 {
            self.fault("count", format!("it has {} classes; the first four are fixed", classes));
        }
        let glyphs = self.glyphs.unwrap_or(NONE);
        self.spend(glyphs.into())?;
        let is_none = |class: &u16| u32::from(*class) >= classes;
        let found = (0..glyphs).find_map(|glyph| Some((glyph, class(self, glyph).filter(is_none)?)));
        if let Some((glyph, class)) = found {
            self.fault("class", format!("the class {} of glyph {} is none of its {} (row 6)", class, glyph, classes));
        }
        Some(())
    }

    fn ltag(&mut self) -> Option<()> {
        let table = &self.table[ALONE_AT..];
        let count = match long(table, 8) {
            Some(count) => count,
            None => return self.outside("its head", ALONE_AT),
        };
        self.say(format!("ltag: {} bytes, tags: {}", table.len(), count));
        for number in 0..count as usize {
            let range = 12 + 4 * number;
            let (offset, length) = match (word(table, range), word(table, range + 2)) {
                (Some(offset), Some(length)) => (usize::from(offset), usize::from(length)),
                _ => return self.outside("a range", ALONE_AT + range),
            };
            match table.get(offset..offset + length).filter(|_| offset < table.len()) {
                Some(tag) => self.say(format!("  {}: {}", number, String::from_utf8_lossy(tag))),
                None => {
                    let row = if (offset, length) == (table.len(), 0) { 12 } else { 11 };
                    self.fault("tag", format!("the tag {} hides all later ones (row {})", number, row));
                    return None;
                }
            }
        }
        Some(())
    }
}
