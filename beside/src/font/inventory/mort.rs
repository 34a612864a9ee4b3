//! What a mort table holds.

use super::Surveyor;
use crate::font::sfnt::{long, word};
use crate::reference::kerning::ALONE_AT;
use crate::reference::run::MOST_HEADS;

impl Surveyor<'_> {
    /// The chains of a mort table, with their subtables.
    pub fn mort(&mut self) -> Option<()> {
        let table = self.table;
        self.holds("its head", ALONE_AT, 8)?;
        let (version, count) = (long(table, ALONE_AT)?, long(table, ALONE_AT + 4)?);
        self.say(format!("mort: {} bytes, version {:08X}, chains: {}", table.len() - ALONE_AT, version, count));
        if version != 0x1_0000 {
            self.fault("version", format!("its version {:08X} is not 00010000, and is not looked at", version));
        }
        let mut at = ALONE_AT + 8;
        for chain in 0..count.min(MOST_HEADS) {
            self.begin(format!("mort chain {}", chain), table.len());
            self.holds("its head", at, 12)?;
            let [flags, size] = [0, 4].map(|field| long(table, at + field).unwrap_or(0));
            let [features, subtables] = [8, 10].map(|field| word(table, at + field).unwrap_or(0));
            let head = format!("chain {} at {}: {} bytes, default flags {:08X}", chain, at - ALONE_AT, size, flags);
            self.say(format!("  {}, features: {}, subtables: {}", head, features, subtables));
            let behind = at + size as usize;
            self.is_sized(at, size, 12)?;
            self.mort_subtables(chain, at + 12 + 12 * usize::from(features), subtables, behind);
            at = behind;
        }
        Some(())
    }

    fn mort_subtables(&mut self, chain: u32, mut at: usize, count: u16, end: usize) -> Option<()> {
        const KINDS: [&str; 8] =
            ["rearrangement", "contextual", "ligature", "kind 3", "non-contextual", "insertion", "kind 6", "kind 7"];
        for subtable in 0..count {
            self.begin(format!("mort chain {} subtable {}", chain, subtable), end);
            self.holds("its head", at, 8)?;
            let [size, coverage] = [0, 2].map(|field| word(self.table, at + field).unwrap_or(0));
            let flags = long(self.table, at + 4)?;
            let kind = coverage & 7;
            let order = if coverage & 0x4000 == 0 { "layout" } else { "reverse layout" };
            let text = match coverage & 0xA000 {
                0x8000 => "vertical text",
                0 => "horizontal text",
                _ => "all text",
            };
            let head = format!("subtable {} at {}: {} bytes, flags {:08X}", subtable, at - ALONE_AT, size, flags);
            self.say(format!("    {}, {}, {}, {} order", head, KINDS[usize::from(kind)], text, order));
            self.is_sized(at, size.into(), 8)?;
            self.end = self.end.min(at + usize::from(size));
            match kind {
                0 => self.classic_machine(at + 8).map(|_| ()),
                4 => self.glyph_lookup("its lookup", at + 8),
                _ => {
                    self.fault("kind", format!("its kind {} is not taken and does nothing", kind));
                    None
                }
            };
            at += usize::from(size);
        }
        Some(())
    }
}
