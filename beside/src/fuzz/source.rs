//! Bytes that any call can be made of: numbers, names and lines, and zeros when there are no more.

use crate::reference::kerning::Kerned;
use crate::reference::line::{Line, LARGEST_ROOM};

/// The bytes that are left.
pub struct Source<'a>(pub &'a [u8]);

/// The most places of a line.
pub const LONGEST: u8 = 40;

/// The most bytes of a name, and one more.
pub const LONGEST_NAME: u8 = 24;

/// The most bytes of a second table, and one more.
const LONGEST_PART: u16 = 2_000;

impl<'a> Source<'a> {
    /// The next byte.
    pub fn byte(&mut self) -> u8 {
        match self.0 {
            [first, rest @ ..] => {
                self.0 = rest;
                *first
            }
            [] => 0,
        }
    }

    /// A number of 16 bits.
    pub fn word(&mut self) -> u16 {
        u16::from_be_bytes([self.byte(), self.byte()])
    }

    /// A number of 64 bits.
    pub fn long(&mut self) -> u64 {
        u64::from_be_bytes([(); 8].map(|()| self.byte()))
    }

    /// The number that a byte stands for: mostly itself, and some that are far away.
    pub fn number(&mut self) -> u64 {
        match self.byte() {
            0xFF => u64::MAX,
            0xFE => 1 << 32,
            0xFD => 0xFFFF,
            0xFC => 0x1_0000,
            near => near.into(),
        }
    }

    /// A name: its length and its bytes.
    pub fn name(&mut self) -> &'a [u8] {
        let length = usize::from(self.byte() % LONGEST_NAME);
        let (name, rest) = self.0.split_at(length.min(self.0.len()));
        self.0 = rest;
        name
    }

    /// Bytes behind their count, of 16 bits.
    pub fn part(&mut self) -> &'a [u8] {
        let length = usize::from(self.word() % LONGEST_PART);
        let (part, rest) = self.0.split_at(length.min(self.0.len()));
        self.0 = rest;
        part
    }

    /// A line with its adjustments: its length, the room behind it, its glyphs, tags turned by some places, and some
    /// characters; by one byte, it is spoiled or its room is as large as can be or larger.
    pub fn kerned(&mut self) -> Kerned {
        let used = usize::from(self.byte() % (LONGEST + 1));
        let room = used + usize::from(self.byte() % 40);
        let [turn, characters, spoiled] = [self.byte(), self.byte(), self.byte()].map(usize::from);
        let room = match spoiled {
            1 => LARGEST_ROOM,
            2 => LARGEST_ROOM + 1,
            _ => room,
        };
        let mut glyphs: Vec<u16> = (0..used).map(|_| self.word()).collect();
        glyphs.resize(room, 7);
        let mut tags: Vec<u16> = (0..used).map(|place| ((place + turn) % used) as u16).collect();
        tags.resize(room, 9);
        let homes = (0..characters % (used + 1)).map(|character| (character * (1 + turn) % used) as u16).collect();
        let mut lent = Kerned::of(Line { glyphs, tags, homes, used: used as u64 });
        match spoiled {
            3 => lent.line.used += 1,
            4 => lent.line.homes.push(used as u16),
            5 => lent.line.tags.push(0),
            6 => lent.along.push(0),
            7 => lent.along.iter_mut().for_each(|number| *number = -(1 << 40)),
            8 => lent.along.iter_mut().for_each(|number| *number = (1 << 40) + 1),
            _ => {}
        }
        lent
    }
}
