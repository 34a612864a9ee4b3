//! A reel of lines (W-208), written from the request alone over the runs of one line: the crate's for morx, the model's for mort.

use crate::reference::line::Line;
use crate::reference::mort;
use crate::reference::oracle::{Answer, Fault};
use crate::reference::run::Run;

/// The most lines that are not refused.
pub const MOST_LINES: usize = 256;

/// Which of the two editions' tables a reel is run by.
#[derive(Clone, Copy, PartialEq)]
pub enum Edition {
    Morx,
    Mort,
}

/// What is lent for lines: for each its numbers, and the parts of all, one behind the other.
#[derive(Clone, PartialEq)]
pub struct Reel {
    pub rooms: Vec<u64>,
    pub characters: Vec<u64>,
    pub used: Vec<u64>,
    pub answers: Vec<u32>,
    pub heads: Vec<u32>,
    pub glyphs: Vec<u16>,
    pub tags: Vec<u16>,
    pub homes: Vec<u16>,
}

/// Whether numbers add up to the length of a slice.
pub fn add_up(numbers: &[u64], slice: usize) -> bool {
    numbers.iter().map(|number| u128::from(*number)).sum::<u128>() == slice as u128
}

impl Reel {
    /// These lines, one behind the other, with numbers that no call gives in answers and heads.
    pub fn of(lines: &[Line]) -> Self {
        let long = |part: fn(&Line) -> usize| lines.iter().map(|line| part(line) as u64).collect::<Vec<u64>>();
        let all = |part: fn(&Line) -> &[u16]| lines.iter().flat_map(part).copied().collect::<Vec<u16>>();
        Reel {
            rooms: long(|line| line.glyphs.len()),
            characters: long(|line| line.homes.len()),
            used: lines.iter().map(|line| line.used).collect(),
            answers: (0..lines.len() as u32).map(|line| 0xA000_0000 + line).collect(),
            heads: (0..lines.len() as u32).map(|line| 0xB000_0000 + line).collect(),
            glyphs: all(|line| &line.glyphs),
            tags: all(|line| &line.tags),
            homes: all(|line| &line.homes),
        }
    }

    fn is_refused(&self) -> bool {
        let lines = self.rooms.len();
        let lengths = [self.characters.len(), self.used.len(), self.answers.len(), self.heads.len()];
        let are_places = [&self.glyphs, &self.tags].iter().all(|slice| add_up(&self.rooms, slice.len()));
        let are_homes = add_up(&self.characters, self.homes.len());
        lines > MOST_LINES || lengths.iter().any(|length| *length != lines) || !are_places || !are_homes
    }

    /// The lines, each in a part of its own; the numbers have to add up.
    pub fn lines(&self) -> Vec<Line> {
        let (mut place, mut home) = (0, 0);
        let mut lines = Vec::new();
        for ((room, characters), used) in self.rooms.iter().zip(&self.characters).zip(&self.used) {
            let (places, homes) = (place..place + *room as usize, home..home + *characters as usize);
            (place, home) = (places.end, homes.end);
            let [glyphs, tags] = [&self.glyphs, &self.tags].map(|slice| slice[places.clone()].to_vec());
            lines.push(Line { glyphs, tags, homes: self.homes[homes].to_vec(), used: *used });
        }
        lines
    }

    /// REEL, or DONE with each line run by the table of an edition as by a call of its own.
    pub fn run(&mut self, edition: Edition, run: &Run) -> Result<Answer<()>, Fault> {
        if self.is_refused() {
            return Ok(Answer::Reel);
        }
        let mut lines = self.lines();
        for (number, line) in lines.iter_mut().enumerate() {
            let answer = match run.refusal(line) {
                Some(refusal) => refusal,
                None => {
                    let (answer, heads) = match edition {
                        Edition::Morx => run.make(line, &mut |_, _| {})?,
                        Edition::Mort => mort::run(run, line, &mut |_| {}),
                    };
                    self.heads[number] = heads;
                    answer
                }
            };
            self.answers[number] = answer.number();
        }
        let Reel { used, glyphs, tags, homes, .. } = Reel::of(&lines);
        (self.used, self.glyphs, self.tags, self.homes) = (used, glyphs, tags, homes);
        Ok(Answer::Done(()))
    }
}
