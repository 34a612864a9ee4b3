//! W-203's record of a line, with W-209's second version: how it is written, and what its reader accepts; written from document 02
//! alone.

use crate::reference::line::{Line, LARGEST_ROOM};
use crate::reference::oracle::{Answer, LONGEST_TABLE};
use crate::tables::lookup::{numbers, words};

/// What a record begins with.
pub const MARK: &[u8] = b"SLN";

/// The longest line whose record is of version 1.
pub const LONGEST_OF_FIRST: usize = 4_096;

/// The number behind the mark, for a line of so many places.
pub fn version_of(places: usize) -> u16 {
    if places <= LONGEST_OF_FIRST {
        1
    } else {
        2
    }
}

/// The record of a line.
pub fn record_of(line: &Line) -> Vec<u8> {
    let head = [version_of(line.length()), line.used as u16, line.homes.len() as u16];
    let places = line.glyphs.iter().zip(&line.tags).take(line.length()).flat_map(|(glyph, tag)| [*glyph, *tag]);
    let numbers: Vec<u16> = head.into_iter().chain(places).chain(line.homes.iter().copied()).collect();
    [MARK, &words(&numbers)].concat()
}

/// The line in a record, with no more room than it needs, or what the bytes are refused for.
pub fn line_in(record: &[u8]) -> Result<Line, Answer<[u64; 2]>> {
    if record.len() > LONGEST_TABLE {
        return Err(Answer::Table);
    }
    let behind_mark = record.strip_prefix(MARK).ok_or(Answer::Record)?;
    let given: Vec<u16> = numbers(behind_mark).collect();
    let (version, length, characters, rest) = match given[..] {
        [version, ..] if version != 1 && version != 2 => return Err(Answer::Version),
        [version, length, characters, ref rest @ ..] => (version, usize::from(length), usize::from(characters), rest),
        _ => return Err(Answer::Record),
    };
    if version != version_of(length) || behind_mark.len() % 2 != 0 || rest.len() != 2 * length + characters {
        return Err(Answer::Record);
    }
    let (places, homes) = rest.split_at(2 * length);
    let (glyphs, tags) = places.chunks(2).map(|place| (place[0], place[1])).unzip();
    let line = Line { glyphs, tags, homes: homes.to_vec(), used: length as u64 };
    if line.is_line() {
        Ok(line)
    } else {
        Err(Answer::Record)
    }
}

/// The answer to a line that is to be stored in a buffer, with the size of its record, and the buffer as it is left.
pub fn store(line: &Line, mut buffer: Vec<u8>) -> (Answer<u64>, Vec<u8>) {
    if !line.is_line() {
        return (Answer::Line, buffer);
    }
    let record = record_of(line);
    if record.len() > buffer.len() {
        return (Answer::Line, buffer);
    }
    buffer[..record.len()].copy_from_slice(&record);
    (Answer::Done(record.len() as u64), buffer)
}

/// The answer to a record that is to be read into a room, with its places and characters, and the room as it is left.
pub fn read(record: &[u8], mut room: Line) -> (Answer<[u64; 2]>, Line) {
    let line = match line_in(record) {
        Ok(line) => line,
        Err(answer) => return (answer, room),
    };
    let (places, characters) = (line.length(), line.homes.len());
    let is_room = room.tags.len() == room.glyphs.len() && room.glyphs.len() <= LARGEST_ROOM;
    if !is_room || room.glyphs.len() < places || room.homes.len() < characters {
        return (Answer::Line, room);
    }
    room.glyphs[..places].copy_from_slice(&line.glyphs);
    room.tags[..places].copy_from_slice(&line.tags);
    room.homes[..characters].copy_from_slice(&line.homes);
    (Answer::Done([places as u64, characters as u64]), room)
}
