//! What the shaper answers, by document 01 and over the crate, and what its program prints of that.

use crate::reference::line::Line;
use crate::reference::oracle::{Answer, Fault};
use crate::reference::pass::line_of;
use crate::reference::run::Run;
use crate::tables::lookup::{numbers, words};

/// The longest table that the shaper takes.
pub const SHAPER_TABLE: usize = 32_768;

/// The room that the shaper has for a line, and so the longest line that it takes.
pub const SHAPER_ROOM: usize = 4_096;

/// An input: the table's length, the table, the number of glyphs, the glyphs.
pub fn input_of(table: &[u8], glyphs: &[u16]) -> Vec<u8> {
    let (length, count) = (table.len() as u32, glyphs.len() as u16);
    [&length.to_be_bytes(), table, &count.to_be_bytes(), &words(glyphs)].concat()
}

/// The table and the glyphs of an input, or what it is refused for.
fn parts_of(input: &[u8]) -> Result<(&[u8], Vec<u16>), Answer<()>> {
    let (length, rest) = split(input, 4)?;
    let length = length.iter().fold(0, |length, byte| length << 8 | usize::from(*byte));
    if length > SHAPER_TABLE {
        return Err(Answer::Table);
    }
    let (table, rest) = split(rest, length)?;
    let (count, glyphs) = split(rest, 2)?;
    let count = numbers(count).map(usize::from).sum::<usize>();
    if count > SHAPER_ROOM || glyphs.len() != 2 * count {
        return Err(Answer::Line);
    }
    Ok((table, numbers(glyphs).collect()))
}

fn split(bytes: &[u8], length: usize) -> Result<(&[u8], &[u8]), Answer<()>> {
    Ok((bytes.get(..length).ok_or(Answer::Line)?, &bytes[length..]))
}

/// An answer with its heads and its line, which has neither places nor characters where the input is refused.
pub struct Shaped {
    pub answer: Answer<()>,
    pub heads: u32,
    pub line: Line,
}

impl Shaped {
    pub fn refused(answer: Answer<()>) -> Self {
        Shaped { answer, heads: 0, line: Line::none() }
    }
}

/// What document 01 says of an input.
pub fn shaped(input: &[u8]) -> Result<Shaped, Fault> {
    let (table, glyphs) = match parts_of(input) {
        Ok(parts) => parts,
        Err(answer) => return Ok(Shaped::refused(answer)),
    };
    let mut line = line_of(&glyphs, SHAPER_ROOM);
    let (answer, heads) =
        Run { table, start: 0, right_to_left: false, requests: &[] }.make(&mut line, &mut |_, _| {})?;
    Ok(Shaped { answer, heads, line })
}

/// All that the program has to print for an input.
pub fn printed(input: &[u8]) -> Result<String, Fault> {
    let Shaped { answer, heads, line } = shaped(input)?;
    Ok(match answer {
        Answer::Table | Answer::Line => format!("answer {}\n", answer.number()),
        _ => format!("answer {}\nheads {}\n{}", answer.number(), heads, print_line(&line)),
    })
}

fn print_line(line: &Line) -> String {
    let place = |place: usize| format!("{} {} {}\n", place, line.glyphs[place], line.tags[place]);
    let places: String = (0..line.length()).map(place).collect();
    let homes: String = line.homes.iter().map(|home| format!(" {}", home)).collect();
    format!("length {}\n{}homes{}\n", line.used, places, homes)
}
