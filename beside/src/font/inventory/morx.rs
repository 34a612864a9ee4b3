//! What a morx table holds.

use super::{Surveyor, NONE};
use crate::font::sfnt::{long, word};
use crate::reference::kerning::ALONE_AT;
use crate::reference::run::MOST_HEADS;
use std::collections::BTreeSet;

impl Surveyor<'_> {
    /// The chains of a morx table, with their subtables.
    pub fn morx(&mut self) -> Option<()> {
        let table = self.table;
        self.holds("its head", ALONE_AT, 8)?;
        let (version, count) = (word(table, ALONE_AT)?, long(table, ALONE_AT + 4)?);
        self.say(format!("morx: {} bytes, version {}, chains: {}", table.len() - ALONE_AT, version, count));
        if !matches!(version, 2 | 3) {
            self.fault("version", format!("its version {} is none of 2 and 3 (row 46)", version));
        }
        let mut at = ALONE_AT + 8;
        for chain in 0..count.min(MOST_HEADS) {
            self.begin(format!("morx chain {}", chain), table.len());
            self.holds("its head", at, 16)?;
            let [flags, size, features, subtables] = [0, 4, 8, 12].map(|field| long(table, at + field).unwrap_or(0));
            let head = format!("chain {} at {}: {} bytes, default flags {:08X}", chain, at - ALONE_AT, size, flags);
            self.say(format!("  {}, features: {}, subtables: {}", head, features, subtables));
            let behind = at + size as usize;
            self.is_sized(at, size, 16)?;
            self.subtables(chain, at + 16 + 12 * features as usize, subtables, behind);
            at = behind;
        }
        Some(())
    }

    fn subtables(&mut self, chain: u32, mut at: usize, count: u32, end: usize) -> Option<()> {
        const KINDS: [&str; 6] = ["rearrangement", "contextual", "ligature", "", "non-contextual", "insertion"];
        const ORDERS: [&str; 4] = ["layout", "logical", "reverse layout", "reverse logical"];
        for subtable in 0..count.min(MOST_HEADS) {
            self.begin(format!("morx chain {} subtable {}", chain, subtable), end);
            self.holds("its head", at, 12)?;
            let [size, coverage, flags] = [0, 4, 8].map(|field| long(self.table, at + field).unwrap_or(0));
            let kind = KINDS.get((coverage & 0xFF) as usize).copied().unwrap_or("");
            let order = ORDERS[(coverage >> 29 & 2 | coverage >> 28 & 1) as usize];
            let text = match coverage >> 28 & 0xA {
                0x8 => "vertical text",
                0 => "horizontal text",
                _ => "all text",
            };
            let head = format!("subtable {} at {}: {} bytes, flags {:08X}", subtable, at - ALONE_AT, size, flags);
            self.say(format!(
                "    {}, {}, {}, {} order",
                head,
                if kind.is_empty() { "of no kind" } else { kind },
                text,
                order
            ));
            if kind.is_empty() {
                self.fault("kind", format!("its kind {} is none", coverage & 0xFF));
            }
            self.is_sized(at, size, 12)?;
            self.end = self.end.min(at + size as usize);
            self.body(kind, at + 12);
            at += size as usize;
        }
        Some(())
    }

    fn body(&mut self, kind: &str, body: usize) -> Option<()> {
        match kind {
            "non-contextual" => self.glyph_lookup("its lookup", body),
            "rearrangement" => self.machine(body, 0).map(|_| ()),
            "contextual" => self.contextual(body),
            "ligature" => self.ligature(body),
            "insertion" => self.insertion(body),
            _ => None,
        }
    }

    fn contextual(&mut self, body: usize) -> Option<()> {
        let entries = self.machine(body, 2)?;
        let lookups = self.part(body, 16)?;
        let numbers: BTreeSet<u16> =
            entries.iter().flat_map(|entry| entry.words).filter(|word| *word != NONE).collect();
        for number in numbers {
            let offset = lookups + 4 * usize::from(number);
            if self.holds("the offset of a lookup", offset, 4).is_some() {
                let at = lookups + long(self.table, offset)? as usize;
                self.glyph_lookup(&format!("lookup {}", number), at);
            }
        }
        Some(())
    }

    fn ligature(&mut self, body: usize) -> Option<()> {
        let entries = self.machine(body, 1)?;
        let [actions, _, _] = [self.part(body, 16)?, self.part(body, 20)?, self.part(body, 24)?];
        let firsts: BTreeSet<u16> =
            entries.iter().filter(|entry| entry.flags & 0x2000 != 0).map(|entry| entry.words[0]).collect();
        for first in &firsts {
            for number in usize::from(*first).. {
                self.spend(1)?;
                self.holds("an action", actions + 4 * number, 4)?;
                if long(self.table, actions + 4 * number)? & 0x8000_0000 != 0 {
                    break;
                }
            }
        }
        self.say(format!("      lists of actions: {}", firsts.len()));
        Some(())
    }

    fn insertion(&mut self, body: usize) -> Option<()> {
        let entries = self.machine(body, 2)?;
        let lists = self.part(body, 16)?;
        let mut seen = BTreeSet::new();
        for entry in &entries {
            for (number, count) in [(entry.words[0], entry.flags >> 5 & 0x1F), (entry.words[1], entry.flags & 0x1F)] {
                if number == NONE || !seen.insert((number, count)) {
                    continue;
                }
                let at = lists + 2 * usize::from(number);
                if count == 0 && at >= self.table.len() {
                    self.fault("no list", "a list of no glyphs lies at the table's end (row 24)".into());
                }
                if self.holds("a list of glyphs", at, 2 * usize::from(count)).is_some() {
                    for glyph in (0..usize::from(count)).filter_map(|place| word(self.table, at + 2 * place)) {
                        self.is_glyph("it inserts", glyph);
                    }
                }
            }
        }
        self.say(format!("      lists of glyphs: {}", seen.iter().filter(|list| list.1 > 0).count()));
        Some(())
    }
}
