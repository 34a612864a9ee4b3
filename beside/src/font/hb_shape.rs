//! HarfBuzz's reading of the tables, by its program hb-shape, where that is there.

use crate::font::kerning_heads::{subtables, Listed};
use crate::font::sfnt::{typed_characters, typed_font, TYPED_WIDTH};
use crate::font::shaping::{Shaped, Tables};
use crate::font::show::{Column, Look};
use crate::reference::kerning::{Kerning, ALONE_AT};
use crate::reference::line::DELETED;
use std::io::Write;
use std::process::{Command, Stdio};

/// The program.
pub struct HbShape {
    pub version: String,
}

/// A line as HarfBuzz leaves it, without the glyphs that were deleted.
pub struct Reading {
    pub glyphs: Vec<u16>,
    /// What kerning added at each glyph, where that can be told.
    pub along: Option<Vec<i64>>,
}

impl HbShape {
    /// The program, if it is in the path.
    pub fn find() -> Option<Self> {
        let said = Command::new("hb-shape").arg("--version").stderr(Stdio::null()).output().ok()?;
        let said = String::from_utf8(said.stdout).ok()?;
        Some(HbShape { version: said.lines().next()?.rsplit(' ').next()?.into() })
    }

    /// What it makes of a line by these tables alone: a font around them has a character of no properties for each glyph.
    pub fn shape(&self, tables: &Tables, glyphs: &[u16], right_to_left: bool) -> Result<Reading, String> {
        if glyphs.is_empty() {
            return Ok(Reading { glyphs: Vec::new(), along: Some(Vec::new()) });
        }
        let characters: Option<String> = typed_characters(glyphs).into_iter().map(char::from_u32).collect();
        let characters = characters.ok_or("hb-shape: a glyph has no character")?;
        let font = typed_font(tables.glyphs.unwrap_or(u16::MAX), tables.named());
        // Scripts have a way of their own, into which HarfBuzz turns the line before it works.
        let way =
            if right_to_left { ["--direction=rtl", "--script=Hebr"] } else { ["--direction=ltr", "--script=Latn"] };
        let words = ["--font-file=/dev/stdin", "--language=en", "--no-glyph-names", "--no-clusters"];
        // A file, as the longest lines are too long for an argument.
        let text = std::env::temp_dir().join(format!("hb-shape-line-{}", std::process::id()));
        let mut command = Command::new("hb-shape");
        command.args(words).args(way).arg(format!("--text-file={}", text.display()));
        let said = std::fs::write(&text, characters).and_then(|()| run(command, &font));
        let _ = std::fs::remove_file(&text);
        let said = said.map_err(|error| format!("hb-shape: {}", error))?;
        // Of a line whose glyphs are all deleted it says nothing.
        let read = said.trim().trim_start_matches('[').trim_end_matches(']');
        let places: Option<Vec<Place>> = read.split('|').filter(|place| !place.is_empty()).map(Place::of).collect();
        let mut places = places.ok_or_else(|| format!("hb-shape said: {}", said))?;
        if right_to_left {
            places.reverse();
        }
        let along = tables.kerned_by().map(|kerned| kerned.along(&places, right_to_left));
        Ok(Reading { glyphs: places.iter().map(|place| place.glyph).collect(), along })
    }
}

/// Runs a command with this input; what it says.
fn run(mut command: Command, input: &[u8]) -> std::io::Result<String> {
    let mut process = command.stdin(Stdio::piped()).stdout(Stdio::piped()).spawn()?;
    let mut stdin = process.stdin.take().expect("a piped input");
    let sent = std::thread::scope(|both| {
        let sent = both.spawn(move || stdin.write_all(input));
        let said = process.wait_with_output();
        (sent.join().expect("the writer"), said)
    });
    sent.0?;
    Ok(String::from_utf8_lossy(&sent.1?.stdout).into_owned())
}

/// A glyph as hb-shape prints it: number, offset where there is one, and advance.
struct Place {
    glyph: u16,
    offset: i64,
    advance: i64,
}

impl Place {
    fn of(said: &str) -> Option<Self> {
        let (glyph, advance) = said.split_once('+')?;
        let (glyph, offset) = glyph.split_once('@').unwrap_or((glyph, "0"));
        let first = |numbers: &str| numbers.split(',').next()?.parse().ok();
        Some(Place { glyph: glyph.parse().ok()?, offset: first(offset)?, advance: first(advance)? })
    }
}

/// By which kind of subtables HarfBuzz kerns.
enum Kerned {
    /// There is no kerning.
    Not,
    ByMachines,
    ByPairs,
}

impl Kerned {
    /// What was added at each place: a machine moves its glyph by the number, and all behind it; a pair's number is parted between
    /// its glyphs, and the second is moved by its part. The second stands before the first where the text runs from right to left.
    fn along(&self, places: &[Place], right_to_left: bool) -> Vec<i64> {
        let width = i64::from(TYPED_WIDTH);
        match self {
            Kerned::Not => vec![0; places.len()],
            Kerned::ByMachines => places.iter().map(|place| place.advance - width).collect(),
            Kerned::ByPairs => {
                let second = |place: usize| if right_to_left { place.checked_sub(1) } else { Some(place + 1) };
                let moved =
                    |place: usize| second(place).and_then(|next| places.get(next)).map_or(0, |next| next.offset);
                let number = |(place, at): (usize, &Place)| at.advance - width - at.offset + moved(place);
                places.iter().enumerate().map(number).collect()
            }
        }
    }
}

impl Tables {
    /// How HarfBuzz kerns by these tables: by kerx, or by kern where there is no kerx. None where it does more than one kind, whose
    /// numbers can't be told apart.
    fn kerned_by(&self) -> Option<Kerned> {
        let (kerning, table) = match self.kernings().next() {
            Some(kerned) => kerned,
            None => return Some(Kerned::Not),
        };
        let formats: Vec<u32> = subtables(kerning, table, ALONE_AT)
            .filter(|subtable| is_taken(kerning, subtable))
            .map(|taken| taken.format)
            .collect();
        match formats[..] {
            [] => Some(Kerned::Not),
            _ if formats.iter().all(|format| *format == 1) => Some(Kerned::ByMachines),
            _ if formats.iter().all(|format| matches!(format, 0 | 2 | 3 | 6)) => Some(Kerned::ByPairs),
            _ => None,
        }
    }
}

/// Whether HarfBuzz kerns along a line by a subtable.
fn is_taken(kerning: Kerning, subtable: &Listed) -> bool {
    match kerning {
        Kerning::Kern if subtable.version == 0 => !subtable.is_passed_over,
        Kerning::Kern => subtable.coverage & 0xE000 == 0,
        Kerning::Kerx => subtable.coverage & 0xC000_0000 == 0 && (subtable.format == 1 || !subtable.reverses),
    }
}

impl Reading {
    /// Its column beside a line that was shaped: its glyphs stand beside those that were not deleted. With it, the places where it
    /// says otherwise.
    pub fn column(&self, shaped: &Shaped, look: &Look, version: &str) -> (Column, Vec<usize>) {
        let length = shaped.line.length();
        let mut stand: Vec<usize> = (0..length).filter(|place| shaped.line.glyphs[*place] != DELETED).collect();
        stand.extend(length..length + self.glyphs.len().saturating_sub(stand.len()));
        let kerned = shaped.along.first();
        let mut differ = Vec::new();
        let mut places = vec![String::new(); stand.last().map_or(length, |last| length.max(last + 1))];
        for (number, place) in stand.into_iter().enumerate() {
            let ours = (place < length).then(|| shaped.line.glyphs[place]);
            let our_number = kerned.and_then(|(_, along)| along.get(place)).copied().unwrap_or(0);
            let its_number = self.along.as_ref().and_then(|along| along.get(number)).copied();
            let is_same = ours == self.glyphs.get(number).copied() && its_number.map_or(true, |its| its == our_number);
            if !is_same {
                differ.push(place);
            }
            let glyph = self.glyphs.get(number).map_or(format!("{:>6}", "-"), |glyph| look.in_column(*glyph));
            let added = match (kerned, its_number) {
                (None, _) => String::new(),
                (Some(_), Some(number)) => format!("{:>8}", number),
                (Some(_), None) => format!("{:>8}", "?"),
            };
            places[place] = format!("{:>5} {}{}{}", number, glyph, added, if is_same { "" } else { "  *" });
        }
        let table = kerned.map_or(String::new(), |(table, _)| format!("{:>8}", table));
        let above = vec![format!("HarfBuzz {}", version), format!("place {}{}", look.above(), table)];
        (Column { above, places }, differ)
    }
}
