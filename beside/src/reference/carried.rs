//! Demand 3's history over places alone: where it takes each character, without tags or homes.

use crate::reference::line::Line;

/// An edit of the history.
pub enum Moved {
    Window { first: usize, last: usize, verb: u16 },
    Reversal,
    Insertion { place: usize, count: usize },
    Ligature { place: usize, components: Vec<usize> },
}

/// The place of each character, and the line's length.
pub struct Carried {
    places: Vec<usize>,
    length: usize,
}

impl Carried {
    /// Each character at the place of its home in a line.
    pub fn of(line: &Line) -> Self {
        let tags = &line.tags[..line.length()];
        let place_of = |home: &u16| tags.iter().position(|tag| tag == home).expect("a line");
        Carried { places: line.homes.iter().map(place_of).collect(), length: line.length() }
    }

    /// Takes all characters along.
    pub fn make(&mut self, edit: &Moved) {
        let length = self.length;
        match edit {
            Moved::Window { first, last, verb } => {
                // Numbers in the order of the places, which the verb puts into another.
                let numbers: Vec<u16> = (0..length as u16).collect();
                let mut line = Line { glyphs: numbers.clone(), tags: numbers, homes: Vec::new(), used: length as u64 };
                line.rearrange(*first, *last, *verb);
                let now = |place: &usize| line.glyphs.iter().position(|number| usize::from(*number) == *place);
                self.places = self.places.iter().map(|place| now(place).expect("a place")).collect();
            }
            Moved::Reversal => self.places.iter_mut().for_each(|place| *place = length - 1 - *place),
            Moved::Insertion { place, count } => {
                let behind = (*place).min(length);
                self.places.iter_mut().filter(|place| **place >= behind).for_each(|place| *place += count);
                self.length += count;
            }
            Moved::Ligature { place, .. } if *place >= length => {}
            Moved::Ligature { place, components } => {
                for component in components.iter().filter(|component| **component < length) {
                    self.places.iter_mut().filter(|place| *place == component).for_each(|other| *other = *place);
                }
            }
        }
    }

    /// Whether a line has each character where this has it, and is as long.
    pub fn is(&self, line: &Line) -> bool {
        let belongs = |(place, home): (&usize, &u16)| line.tags[..line.length()].get(*place) == Some(home);
        self.length == line.length() && line.is_line() && self.places.iter().zip(&line.homes).all(belongs)
    }
}
