//! Document 01's pass over a line, written from the document alone.

use crate::reference::line::{Line, DELETED};
use crate::reference::oracle::Answer;

/// A fresh line of these glyphs in a room of so many places.
pub fn line_of(glyphs: &[u16], room: usize) -> Line {
    let numbers: Vec<u16> = (0..glyphs.len() as u16).collect();
    let mut line = Line { glyphs: glyphs.to_vec(), tags: numbers.clone(), homes: numbers, used: glyphs.len() as u64 };
    line.glyphs.resize(room, 7);
    line.tags.resize(room, 7);
    line
}

/// The step at each place with the glyph that stands there, going on by what it gives, then once more behind the last
/// place with the end flag; the first answer that is not DONE ends the pass.
pub fn make_steps(line: &mut Line, mut step: impl FnMut(&mut Line, usize, u16, bool) -> Answer<usize>) -> Answer<()> {
    let mut place = 0;
    while place < line.length() {
        let glyph = line.glyphs[place];
        match step(line, place, glyph, false) {
            Answer::Done(advance) => place += advance,
            other => return other.map(|_| ()),
        }
    }
    let length = line.length();
    step(line, length, DELETED, true).map(|_| ())
}

/// DONE where the crate's `next` gives the advance, ENDED where it gives None.
pub fn stepped(next: Option<usize>) -> Answer<usize> {
    next.map_or(Answer::Ended, Answer::Done)
}
