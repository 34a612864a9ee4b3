//! What a kern or kerx table holds.

use super::{Layout, Reached, Surveyor, NONE};
use crate::font::kerning_heads::{self, Listed};
use crate::font::sfnt::{long, word};
use crate::reference::kerning::{Kerning, ALONE_AT};

impl Surveyor<'_> {
    /// The subtables of a kern or kerx table.
    pub fn kerning(&mut self, kerning: Kerning) -> Option<()> {
        let (table, name) = (self.table, kerning.name());
        self.holds("its head", ALONE_AT, 4)?;
        let head = match kerning_heads::head(kerning, table, ALONE_AT) {
            Some(head) => head,
            None => return self.outside("its head", ALONE_AT),
        };
        let bytes = table.len() - ALONE_AT;
        self.say(format!("{}: {} bytes, version {}, subtables: {}", name, bytes, head.version, head.count));
        let (is_known, row) = match kerning {
            Kerning::Kern => (head.version < 2, 44),
            Kerning::Kerx => (matches!(head.version, 2..=4), 46),
        };
        if !is_known {
            self.fault("version", format!("there is no version {} (row {})", head.version, row));
        }
        let mut count = 0;
        for (number, subtable) in kerning_heads::subtables(kerning, table, ALONE_AT).enumerate() {
            self.begin(format!("{} subtable {}", name, number), table.len());
            let head = (subtable.body - subtable.at) as u32;
            let says = format!("subtable {} at {}: {} bytes", number, subtable.at - ALONE_AT, subtable.size);
            self.say(format!("  {}, format {}, coverage {:X}", says, subtable.format, subtable.coverage));
            if subtable.body > table.len() {
                self.fault("head", "its head is cut short (row 48)".into());
            }
            self.is_sized(subtable.at, subtable.size, head)?;
            self.end = self.end.min(subtable.at + subtable.size as usize);
            self.kerning_body(kerning, &subtable);
            count += 1;
        }
        if count < head.count {
            self.begin(name.into(), table.len());
            self.fault("count", format!("it counts {} subtables and has {}", head.count, count));
        }
        Some(())
    }

    fn kerning_body(&mut self, kerning: Kerning, subtable: &Listed) -> Option<()> {
        let (at, body, coverage) = (subtable.at, subtable.body, subtable.coverage);
        let row = |applies: bool, words: &'static str| applies.then_some(words);
        let is_kern = kerning == Kerning::Kern;
        let told = [
            row(subtable.is_passed_over, "it is not for kerning along horizontal text: a run passes it over"),
            row(is_kern && subtable.version != 0 && coverage & 0x2000 != 0, "it is for variations (row 36)"),
            row(is_kern && subtable.version == 0 && coverage & 0xA != 0, "it is a minimum or an override (row 43)"),
            row(subtable.tuples != 0, "it has tuples, which are not looked at (row 34)"),
        ];
        told.into_iter().flatten().for_each(|words| self.say(format!("      {}", words)));
        match (kerning, subtable.format) {
            (Kerning::Kern, 0) => self.pairs(body + 8, word(self.table, body).map(u32::from)),
            (Kerning::Kerx, 0) => self.pairs(body + 16, long(self.table, body)),
            (Kerning::Kern, 1) => self.classic(body),
            (Kerning::Kerx, 1) => {
                self.machine(body, 1)?;
                self.part(body, 16).map(|_| ())
            }
            (Kerning::Kerx, 2) => {
                for (what, field) in [("its left classes", 16), ("its right classes", 20)] {
                    let offset = self.part(at, field)?;
                    self.lookup(what, offset);
                }
                Some(())
            }
            (Kerning::Kerx, 4) => {
                self.machine(body, 1)?;
                self.holds("its flags", body + 16, 4)?;
                let action = long(self.table, body + 16)? >> 30;
                self.say(format!("      marks that are anchored by actions of type {}", action));
                if action != 1 {
                    self.fault("action", format!("its actions, of type {}, do nothing (row 58)", action));
                }
                Some(())
            }
            (Kerning::Kern, 2 | 3) | (Kerning::Kerx, 6) => {
                self.fault("format", format!("its format {} is not taken and adds nothing (row 47)", subtable.format));
                None
            }
            (_, format) => {
                self.fault("format", format!("its format {} is not taken and adds nothing", format));
                None
            }
        }
    }

    /// Ordered pairs.
    fn pairs(&mut self, at: usize, count: Option<u32>) -> Option<()> {
        let count = match count {
            Some(count) => count as usize,
            None => return self.outside("its count of pairs", at),
        };
        self.say(format!("      pairs: {}", count));
        let mut last = None;
        for number in 0..count {
            self.holds("a pair", at + 6 * number, 6)?;
            let pair = long(self.table, at + 6 * number);
            if pair <= last {
                self.fault("order", format!("its pair {} is out of order", number));
                return None;
            }
            last = pair;
        }
        Some(())
    }

    /// A classic state table and its lists.
    fn classic(&mut self, body: usize) -> Option<()> {
        let reached = self.classic_machine(body)?;
        self.holds("its head", body, 10)?;
        let values = word(self.table, body + 8)?;
        for list in reached.iter().map(|entry| entry.flags & 0x3FFF).filter(|list| *list != 0) {
            self.holds("a list of numbers", body + usize::from(list), 2);
            if list < values || (list - values) % 2 != 0 {
                self.fault(
                    "values",
                    format!("its list at {} is none of its value table", body + usize::from(list) - ALONE_AT),
                );
            }
        }
        Some(())
    }

    /// A classic state table: the entries that are reached.
    pub fn classic_machine(&mut self, body: usize) -> Option<Vec<Reached>> {
        self.holds("its state table", body, 8)?;
        let [classes, array, rows, entries] = [0, 2, 4, 6].map(|field| word(self.table, body + field).unwrap_or(0));
        let array = body + usize::from(array);
        self.holds("its class array", array, 4)?;
        let [first, count] = [0, 2].map(|field| word(self.table, array + field).unwrap_or(0));
        self.say(format!("      its classes at {}: from glyph {} on: {}", array - ALONE_AT, first, count));
        if count == 0 && array + 4 == self.table.len() {
            self.fault("no classes", "its empty class array lies at the table's end (row 9)".into());
        }
        self.holds("its class array", array + 4, count.into());
        self.check_classes(classes.into(), |surveyor, glyph| {
            let place = glyph.checked_sub(first).filter(|place| *place < count)?;
            surveyor.table.get(array + 4 + usize::from(place)).map(|class| u16::from(*class))
        })?;
        let (rows_at, entries_at) = (body + usize::from(rows), body + usize::from(entries));
        let layout = Layout { rows: rows_at, width: classes.into(), cell: 1, entries: entries_at, size: 4 };
        self.walk(layout, |surveyor, at| {
            let (next, flags) = (word(surveyor.table, at)?, word(surveyor.table, at + 2)?);
            let place = at - ALONE_AT;
            let past = match next.checked_sub(rows) {
                Some(past) => past,
                None => {
                    surveyor.fault("before", format!("the entry at {} leads before the state array (row 8)", place));
                    return None;
                }
            };
            if past % classes.max(1) != 0 {
                surveyor.fault("rounded", format!("the entry at {} leads to no whole row (row 7)", place));
            }
            Some((past / classes.max(1), Reached { flags, words: [NONE; 2] }))
        })
    }
}
