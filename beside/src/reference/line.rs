//! Document 01's line, in W-209's room: when it is refused, a fresh one, its edits, and its verbs as they are drawn; written from
//! the documents alone.

use crate::reference::oracle::Answer;

/// The largest room that is not refused.
pub const LARGEST_ROOM: usize = 32_768;

/// A glyph that is deleted, and the one that the last step of a pass is told.
pub const DELETED: u16 = 0xFFFF;

/// A line as it is lent.
#[derive(PartialEq)]
pub struct Line {
    pub glyphs: Vec<u16>,
    pub tags: Vec<u16>,
    pub homes: Vec<u16>,
    pub used: u64,
}

impl Clone for Line {
    fn clone(&self) -> Self {
        Line { glyphs: self.glyphs.clone(), tags: self.tags.clone(), homes: self.homes.clone(), used: self.used }
    }

    /// Takes no new memory where the parts are as long as those copied.
    fn clone_from(&mut self, other: &Self) {
        self.glyphs.clone_from(&other.glyphs);
        self.tags.clone_from(&other.tags);
        self.homes.clone_from(&other.homes);
        self.used = other.used;
    }
}

impl Line {
    /// A line of no places.
    pub fn none() -> Self {
        Line { glyphs: Vec::new(), tags: Vec::new(), homes: Vec::new(), used: 0 }
    }

    /// Whether these are the glyphs, tags and homes of a line.
    pub fn is_line(&self) -> bool {
        let room = self.glyphs.len();
        let fits = self.tags.len() == room && room <= LARGEST_ROOM && self.used <= room as u64;
        fits && self.are_tags_once_each() && self.are_homes_in_line()
    }

    fn are_tags_once_each(&self) -> bool {
        let mut tags = self.tags[..self.used as usize].to_vec();
        tags.sort_unstable();
        tags.iter().map(|tag| u64::from(*tag)).eq(0..self.used)
    }

    fn are_homes_in_line(&self) -> bool {
        self.homes.len() as u64 <= self.used && self.homes.iter().all(|home| u64::from(*home) < self.used)
    }
}

/// The edits of a line.
impl Line {
    /// The used length.
    pub fn length(&self) -> usize {
        self.used as usize
    }

    /// Writes a glyph; at a place not in the line, nothing.
    pub fn write(&mut self, place: usize, glyph: u16) {
        if place < self.length() {
            self.glyphs[place] = glyph;
        }
    }

    /// The verb of this number modulo 16 on a window that does not start above the length; its end is cut to the line.
    pub fn rearrange(&mut self, first: usize, last: usize, verb: u16) {
        let behind = self.length().min(last.saturating_add(1));
        for part in [&mut self.glyphs, &mut self.tags] {
            let window = &mut part[first..behind];
            window.copy_from_slice(&rearranged(window, verb));
        }
    }

    /// Writes a ligature and deletes its other components, whose characters go to it; at a place not in the line, nothing.
    // Inlined always, so that a pass's times do not hang on who else calls it.
    #[inline(always)]
    pub fn ligate(&mut self, place: usize, ligature: u16, components: &[usize]) {
        if place >= self.length() {
            return;
        }
        self.glyphs[place] = ligature;
        let tag = self.tags[place];
        for component in components {
            if *component != place && *component < self.length() {
                self.glyphs[*component] = DELETED;
                let gone = self.tags[*component];
                self.homes.iter_mut().for_each(|home| *home = if *home == gone { tag } else { *home });
            }
        }
    }

    /// Puts so many glyphs in with new tags; none, and false, where the room is too small. A place above the length is the
    /// length.
    pub fn insert(&mut self, place: usize, count: usize, glyphs: impl Iterator<Item = u16>) -> bool {
        let length = self.length();
        if length + count > self.glyphs.len() {
            return false;
        }
        let place = place.min(length);
        self.glyphs.copy_within(place..length, place + count);
        self.tags.copy_within(place..length, place + count);
        for (more, glyph) in glyphs.enumerate() {
            self.glyphs[place + more] = glyph;
            self.tags[place + more] = (length + more) as u16;
        }
        self.used += count as u64;
        true
    }

    /// Turns the line round.
    pub fn reverse(&mut self) {
        let length = self.length();
        self.glyphs[..length].reverse();
        self.tags[..length].reverse();
    }
}

/// The answer to the start of a line of as many characters as there are homes, and the line as it is left.
pub fn fresh(lent: &Line) -> (Answer<()>, Line) {
    let mut line = lent.clone();
    let (room, characters) = (line.glyphs.len(), line.homes.len());
    if line.tags.len() != room || room > LARGEST_ROOM || characters > room {
        return (Answer::Line, line);
    }
    for character in 0..characters {
        line.tags[character] = character as u16;
        line.homes[character] = character as u16;
    }
    line.used = characters as u64;
    (Answer::Done(()), line)
}

/// The answer to a lone verb, and the line as it is left.
pub fn lone_verb(lent: &Line, verb: u16, start: u64, end: u64) -> (Answer<()>, Line) {
    let mut line = lent.clone();
    if !line.is_line() {
        return (Answer::Line, line);
    }
    if start > end || start > line.used {
        return (Answer::Place, line);
    }
    line.rearrange(start as usize, end as usize, verb);
    (Answer::Done(()), line)
}

/// The verbs by their numbers: a window before and after, where x is all between the letters.
const VERBS: [(&str, &str); 16] = [
    ("x", "x"),
    ("Ax", "xA"),
    ("xD", "Dx"),
    ("AxD", "DxA"),
    ("ABx", "xAB"),
    ("ABx", "xBA"),
    ("xCD", "CDx"),
    ("xCD", "DCx"),
    ("AxCD", "CDxA"),
    ("AxCD", "DCxA"),
    ("ABxD", "DxAB"),
    ("ABxD", "DxBA"),
    ("ABxCD", "CDxAB"),
    ("ABxCD", "CDxBA"),
    ("ABxCD", "DCxAB"),
    ("ABxCD", "DCxBA"),
];

/// The verb of this number modulo 16, as it is drawn.
pub fn drawn(verb: u16) -> String {
    let (before, after) = VERBS[verb as usize % 16];
    format!("{} becomes {}", before, after)
}

/// A window after the verb of this number modulo 16; one that is too short for the letters stays.
fn rearranged(window: &[u16], verb: u16) -> Vec<u16> {
    let (before, after) = VERBS[verb as usize % 16];
    let letters = before.len() - 1;
    if window.len() < letters {
        return window.to_vec();
    }
    let between = window.len() - letters;
    let mut left = window;
    let mut parts = Vec::new();
    for letter in before.chars() {
        let (part, rest) = left.split_at(if letter == 'x' { between } else { 1 });
        parts.push((letter, part));
        left = rest;
    }
    let part_of = |letter| parts.iter().find(|part| part.0 == letter).expect("a letter of both sides").1;
    after.chars().flat_map(part_of).copied().collect()
}
