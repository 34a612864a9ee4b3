//! What is asked for, by the words of the command.

use crate::font::characters::{runs_to_left, unicodes};
use crate::reference::run::request;

/// As the script has it, which puts in the box's command.
pub const USAGE: &str = "usage: font [OPTION..] FILE GLYPH.. | FILE --text TEXT | FILE -u UNICODES
       font [--font N] FILE --survey
       font --wrap FONT NAME=FILE..
       font --test [tried | published] | --harfbuzz
options: --font N, --right-to-left, --both-ways, --feature TYPE:SETTING, --language NAME, --manual, --trace, --whole";

/// A font's file, a line, and what to do with them.
#[derive(Default)]
pub struct Wish {
    pub font: Option<usize>,
    /// Whether it is shaped from right to left, once or more; by its text where that is not told.
    told_ways: Option<Vec<bool>>,
    pub language: Option<String>,
    /// The features that are asked for.
    pub requests: Vec<u32>,
    pub file: String,
    pub typed: Typed,
    /// Whether the manual's reading of kerx is shown, too.
    pub is_manual: bool,
    /// Whether what each subtable did is shown.
    pub traces: bool,
    /// Whether its tables are listed instead.
    pub surveys: bool,
    /// Whether long lines are shown to their end.
    pub is_whole: bool,
}

/// A line as it is typed.
pub enum Typed {
    Glyphs(Vec<u16>),
    Characters(Vec<u32>),
}

impl Default for Typed {
    fn default() -> Self {
        Typed::Glyphs(Vec::new())
    }
}

impl Wish {
    /// That of these words, in which options stand anywhere.
    pub fn of(words: &[String]) -> Result<Self, String> {
        let mut wish = Wish::default();
        let (mut others, mut text) = (Vec::new(), None);
        let mut words = words.iter();
        while let Some(word) = words.next() {
            if !word.starts_with('-') {
                others.push(&word[..]);
                continue;
            }
            let (option, joined) =
                word.split_once('=').map_or((&word[..], None), |(option, value)| (option, Some(value)));
            if joined.is_none() && wish.takes(option) {
                continue;
            }
            let value = joined.or_else(|| words.next().map(String::as_str)).ok_or(USAGE)?;
            match option {
                "--font" => wish.font = Some(value.parse().map_err(|_| format!("{} is no font's number", value))?),
                "--language" => wish.language = Some(value.into()),
                "--feature" => wish.requests.push(request_of(value)?),
                "--text" => text = Some(value.chars().map(u32::from).collect()),
                "-u" | "--unicodes" => text = Some(unicodes(value)?),
                _ => return Err(USAGE.into()),
            }
        }
        let (file, glyphs) = others.split_first().ok_or(USAGE)?;
        wish.file = file.to_string();
        wish.typed = match text {
            Some(_) if !glyphs.is_empty() => return Err(USAGE.into()),
            Some(characters) => check_length(characters.len()).map(|()| Typed::Characters(characters))?,
            None => Typed::Glyphs(glyphs_of(glyphs)?),
        };
        Ok(wish)
    }

    /// Takes an option without a value, if it is one.
    fn takes(&mut self, option: &str) -> bool {
        match option {
            "--right-to-left" => self.told_ways = Some(vec![true]),
            "--both-ways" => self.told_ways = Some(vec![false, true]),
            "--manual" => self.is_manual = true,
            "--survey" => self.surveys = true,
            "--trace" => self.traces = true,
            "--whole" => self.is_whole = true,
            _ => return false,
        }
        true
    }

    /// Whether the line is shaped from right to left, once or more.
    pub fn ways(&self) -> Vec<bool> {
        let by_text = || match &self.typed {
            Typed::Glyphs(_) => vec![false],
            Typed::Characters(text) => vec![runs_to_left(text)],
        };
        self.told_ways.clone().unwrap_or_else(by_text)
    }
}

/// The request for a feature, as 37:1.
fn request_of(word: &str) -> Result<u32, String> {
    let parts = word.split_once(':').and_then(|(kind, setting)| Some((kind.parse().ok()?, setting.parse().ok()?)));
    let (kind, setting) = parts.ok_or(format!("{} is no feature's type and setting, as 37:1", word))?;
    Ok(request(kind, setting))
}

/// The longest line that is taken, which is longer than the largest room.
const LONGEST: usize = 40_000;

/// A line of glyphs by their numbers; one that comes more than once in a row can be written with its count, as 5*7.
pub fn glyphs_of(words: &[&str]) -> Result<Vec<u16>, String> {
    let mut glyphs = Vec::new();
    for word in words {
        let (number, count) = word.split_once('*').unwrap_or((word, "1"));
        let count: usize = count.parse().map_err(|_| format!("{} is no count of glyphs", count))?;
        glyphs.resize(glyphs.len() + count.min(LONGEST + 1), glyph(number)?);
    }
    check_length(glyphs.len()).map(|()| glyphs)
}

fn check_length(length: usize) -> Result<(), String> {
    if length > LONGEST {
        return Err(format!("a line has at most {} glyphs", LONGEST));
    }
    Ok(())
}

fn glyph(word: &str) -> Result<u16, String> {
    let number = match word.strip_prefix("0x") {
        Some(digits) => u16::from_str_radix(digits, 16),
        None => word.parse(),
    };
    number.map_err(|_| format!("{} is no glyph's number, which is from 0 to 65535", word))
}
