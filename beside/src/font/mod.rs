//! Shapes a line of glyphs by the tables of a font, by the crate and by the box, shows both, and names the rows of
//! docs/DIFFERENCES.md that the line met.

mod characters;
mod desk;
mod hb_shape;
pub mod history;
mod inventory;
mod kerning_heads;
mod met;
mod met_kerning;
mod met_language;
mod met_morx;
mod names;
mod published;
mod rows;
pub(crate) mod sfnt;
mod shaping;
mod show;
mod tried;
mod wish;

use crate::font::characters::Characters;
use crate::font::desk::Desk;
use crate::font::hb_shape::HbShape;
use crate::font::met::Rows;
use crate::font::published::try_published;
use crate::font::rows::{rows, Row};
use crate::font::sfnt::{wrap, Font};
use crate::font::shaping::{Shaped, Tables};
use crate::font::show::Look;
use crate::font::tried::{ask_harfbuzz, try_all};
use crate::font::wish::{Typed, Wish, USAGE};
use crate::reference::kerning_choices::Choices;
use crate::reference::oracle;
use crate::wire::hex;
use crate::wire::pipe::TheBox;
use std::panic::{set_hook, take_hook};
use std::process::ExitCode;

/// The program of `beside/font`.
pub fn main() -> ExitCode {
    end_when_unread();
    oracle::quiet_crate();
    let words: Vec<String> = std::env::args().skip(1).collect();
    let done = match words.split_first() {
        Some((mode, words)) if mode == "shape" => shape(words),
        Some((mode, words)) if mode == "try" => try_all(words),
        Some((mode, words)) if mode == "publish" => publish(words),
        Some((mode, words)) if mode == "harfbuzz" => ask_harfbuzz(words),
        Some((mode, words)) if mode == "wrap" => wrap_files(words),
        _ => Err(USAGE.into()),
    };
    match done {
        Ok(true) => ExitCode::SUCCESS,
        Ok(false) => ExitCode::FAILURE,
        Err(why) => {
            eprintln!("{}", why);
            ExitCode::from(2)
        }
    }
}

/// Ends the program as others are ended whose output nobody reads any more.
fn end_when_unread() {
    const ENDED_BY_PIPE: i32 = 128 + 13;
    let usual = take_hook();
    set_hook(Box::new(move |panic| {
        if panic.to_string().contains("failed printing to stdout") {
            std::process::exit(ENDED_BY_PIPE);
        }
        usual(panic)
    }));
}

/// Opens a font's file, and shows what is asked for.
fn shape(words: &[String]) -> Result<bool, String> {
    let mut parts = words.splitn(2, |word| word == "--");
    let (command, words) = (parts.next().unwrap_or(&[]), parts.next().unwrap_or(&[]));
    let wish = Wish::of(words)?;
    let file = std::fs::read(&wish.file).map_err(|error| format!("{}: {}", wish.file, error))?;
    let in_file = |why: String| format!("{}: {}", wish.file, why);
    let font = Font::open(&file, wish.font).map_err(in_file)?;
    let mut tables = Tables::of(&font).map_err(in_file)?;
    tables.requests.clone_from(&wish.requests);
    let glyphs = glyphs_of_line(&wish.typed, &font).map_err(in_file)?;
    let mut the_box = start(command)?;
    let languages =
        wish.language.as_ref().map(|name| tables.language(name, &mut the_box)).transpose().map_err(in_file)?;
    println!("{}: {}", wish.file, tables.describe());
    let look = Look::new(&font, wish.is_whole);
    // HarfBuzz takes features by their tags, and not by type and setting.
    let hb_shape = if wish.requests.is_empty() { HbShape::find() } else { None };
    let mut desk = Desk { font: &font, tables, look, the_box, hb_shape };
    if wish.surveys {
        return desk.survey();
    }
    desk.shape(&wish, &glyphs, languages)
}

/// The glyphs of the line that is typed, each one of the font's; glyph 0, and a word on it, where a character has none.
fn glyphs_of_line(typed: &Typed, font: &Font) -> Result<Vec<u16>, String> {
    let text = match typed {
        Typed::Glyphs(glyphs) => return check_glyphs(glyphs, font.glyphs()).map(|()| glyphs.clone()),
        Typed::Characters(text) => text,
    };
    let characters = Characters::of(font)?;
    let glyphs: Vec<u16> = text.iter().map(|character| characters.glyph(*character).unwrap_or(0)).collect();
    for (place, character) in text.iter().enumerate().filter(|(place, _)| glyphs[*place] == 0) {
        println!("character {}, U+{:04X}, has no glyph: it is glyph 0", place, character);
    }
    check_glyphs(&glyphs, font.glyphs()).map(|()| glyphs)
}

/// Whether the font has these glyphs; a deleted one may stand in any line.
fn check_glyphs(glyphs: &[u16], count: Option<u16>) -> Result<(), String> {
    let count = match count {
        Some(count) => count,
        None => return Ok(()),
    };
    match glyphs.iter().find(|glyph| **glyph >= count && **glyph != met::DELETED) {
        Some(glyph) => Err(format!("glyph {} is none of its {} glyphs, which are counted from 0", glyph, count)),
        None => Ok(()),
    }
}

fn start(command: &[String]) -> Result<TheBox, String> {
    if command.is_empty() {
        return Err(USAGE.into());
    }
    TheBox::start(command).map_err(|error| format!("the box: {}", error))
}

/// A line by the crate and by the box.
fn both(tables: &Tables, glyphs: &[u16], right_to_left: bool, the_box: &mut TheBox) -> Result<[Shaped; 2], String> {
    both_by(Choices::NONE, tables, glyphs, right_to_left, the_box)
}

/// The same by these choices; what the crate does not have is by its model.
fn both_by(
    choices: Choices,
    tables: &Tables,
    glyphs: &[u16],
    right_to_left: bool,
    the_box: &mut TheBox,
) -> Result<[Shaped; 2], String> {
    let crates = tables.by_crate(glyphs, right_to_left, choices).map_err(|fault| fault.describe().to_string())?;
    let boxes =
        tables.by_box(glyphs, right_to_left, choices, the_box).map_err(|error| format!("the box: {}", error))?;
    Ok([crates, boxes])
}

/// The rows that were met by which HarfBuzz can say otherwise: those whose line in beside/tried it reads otherwise, if there are such.
fn explaining(met: &Rows) -> Vec<String> {
    let rows = rows();
    let met: Vec<&Row> = rows.iter().filter(|row| met.contains_key(&row.number)).collect();
    let parting: Vec<&Row> = met.iter().filter(|row| row.parts()).copied().collect();
    let found = if parting.is_empty() { met } else { parting };
    found.iter().map(|row| row.number.to_string()).collect()
}

/// Shapes the lines that HarfBuzz has published, in a folder with its tests.
fn publish(words: &[String]) -> Result<bool, String> {
    let (folder, command) = words.split_first().ok_or(USAGE)?;
    try_published(folder, &mut start(command)?)
}

fn tag(name: &str) -> Result<[u8; 4], String> {
    <[u8; 4]>::try_from(name.as_bytes()).map_err(|_| format!("{} is no table's name", name))
}

/// Writes a font of the tables in these files, each raw or in hex.
fn wrap_files(words: &[String]) -> Result<bool, String> {
    let (font, words) = words.split_first().ok_or(USAGE)?;
    let mut tables = Vec::new();
    for word in words {
        let (name, file) = word.split_once('=').ok_or(USAGE)?;
        let bytes = std::fs::read(file).map_err(|error| format!("{}: {}", file, error))?;
        let in_hex = std::str::from_utf8(&bytes).ok().and_then(hex::parse);
        tables.push((tag(name)?, in_hex.unwrap_or(bytes)));
    }
    std::fs::write(font, wrap(&tables)).map_err(|error| format!("{}: {}", font, error))?;
    Ok(true)
}
