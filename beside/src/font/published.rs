//! Lines that HarfBuzz has published with its results: its tests of AAT fonts.

use crate::font::characters::{runs_to_left, unicodes, Characters};
use crate::font::hb_shape::HbShape;
use crate::font::sfnt::{word, Font};
use crate::font::shaping::{Shaped, Tables};
use crate::font::show::Look;
use crate::font::{both, explaining};
use crate::reference::line::DELETED;
use crate::wire::pipe::TheBox;
use std::collections::BTreeSet;
use std::path::{Path, PathBuf};

/// How the names of the files begin whose lines are run.
const TESTS: [&str; 2] = ["MORX-", "KERN-"];

/// The folder that is run, those who read its lines, and what became of them.
struct Published<'a> {
    tests: PathBuf,
    the_box: &'a mut TheBox,
    hb_shape: Option<HbShape>,
    fonts: BTreeSet<String>,
    lines: usize,
    /// Those of which any result is taken, and which hb-shape is not there to read.
    not_compared: usize,
    by_rows: usize,
    failed: usize,
}

/// Shapes the lines of a folder with HarfBuzz's tests by both sides: they have to say the same, and what HarfBuzz says, unless a row
/// tells why not.
pub fn try_published(folder: &str, the_box: &mut TheBox) -> Result<bool, String> {
    let (tests, hb_shape, fonts) = (Path::new(folder).join("tests"), HbShape::find(), BTreeSet::new());
    let mut published = Published { tests, the_box, hb_shape, fonts, lines: 0, not_compared: 0, by_rows: 0, failed: 0 };
    for name in published.files()? {
        let path = published.tests.join(&name);
        let lines = std::fs::read_to_string(&path).map_err(|error| format!("{}: {}", path.display(), error))?;
        for line in lines.lines().filter(|line| !line.is_empty() && !line.starts_with('#')) {
            published.try_line(&name, line)?;
        }
    }
    published.print();
    Ok(published.failed == 0 && published.lines > 0)
}

impl Published<'_> {
    /// The files with tests of the kinds that are run, by kind and number.
    fn files(&self) -> Result<Vec<String>, String> {
        let in_folder = |error| format!("{}: {}", self.tests.display(), error);
        let mut files = Vec::new();
        for entry in std::fs::read_dir(&self.tests).map_err(in_folder)? {
            let name = entry.map_err(in_folder)?.file_name().to_string_lossy().into_owned();
            if let Some(kind) = TESTS.iter().find(|kind| name.starts_with(*kind)) {
                let number: usize = name[kind.len()..].trim_end_matches(".tests").parse().unwrap_or(0);
                files.push((*kind, number, name));
            }
        }
        files.sort();
        Ok(files.into_iter().map(|file| file.2).collect())
    }

    /// One line: font, options of hb-shape, characters, and the result.
    fn try_line(&mut self, name: &str, line: &str) -> Result<(), String> {
        let parts: Vec<&str> = line.split(';').collect();
        let (file, text, written) = match parts[..] {
            [file, _, text, written] => (file, unicodes(text)?, written),
            _ => return Err(format!("{}: no line to try: {}", name, line)),
        };
        let bytes = std::fs::read(self.tests.join(file)).map_err(|error| format!("{}: {}", file, error))?;
        let in_file = |why: String| format!("{}: {}", file, why);
        let font = Font::open(&bytes, None).map_err(in_file)?;
        let tables = Tables::of(&font).map_err(in_file)?;
        let characters = Characters::of(&font).map_err(in_file)?;
        let glyphs: Vec<u16> = text.iter().map(|character| characters.glyph(*character).unwrap_or(0)).collect();
        let right_to_left = runs_to_left(&text);
        let [crates, boxes] = both(&tables, &glyphs, right_to_left, self.the_box)?;
        let look = Look::new(&font, false);
        let [ours, its] = match written {
            "*" => self.by_hb_shape(&tables, &glyphs, right_to_left, &boxes)?,
            _ => [placed(&boxes, &font, &look, right_to_left), without_names(written, &look)],
        };
        self.lines += 1;
        self.fonts.insert(file.into());
        let typed: Vec<String> = text.iter().map(|character| format!("U+{:04X}", character)).collect();
        let about = format!("{}: {}", name, typed.join(","));
        if crates != boxes {
            self.failed += 1;
            println!("{}: crate and box DIFFER", about);
        } else if ours != its {
            let why = match &explaining(&tables.met(&glyphs, right_to_left, None))[..] {
                [] => {
                    self.failed += 1;
                    "NO row tells why".into()
                }
                rows => {
                    self.by_rows += 1;
                    format!("row {}", rows.join(", "))
                }
            };
            println!("{}: {}; HarfBuzz {}: {}", about, brief(&ours), brief(&its), why);
        }
        Ok(())
    }

    /// The glyphs of a line of which any result is taken, and those by hb-shape, if it is there.
    fn by_hb_shape(
        &mut self,
        tables: &Tables,
        glyphs: &[u16],
        right_to_left: bool,
        shaped: &Shaped,
    ) -> Result<[String; 2], String> {
        let its = match &self.hb_shape {
            Some(hb_shape) => hb_shape.shape(tables, glyphs, right_to_left)?.glyphs,
            None => {
                self.not_compared += 1;
                return Ok(Default::default());
            }
        };
        let left = shaped.line.glyphs[..shaped.line.length()].iter().copied();
        let ours: Vec<u16> = left.filter(|glyph| *glyph != DELETED).collect();
        Ok([ours, its].map(|glyphs| glyphs.iter().map(u16::to_string).collect::<Vec<_>>().join(" ")))
    }

    fn print(&self) {
        let same = self.lines - self.not_compared - self.by_rows - self.failed;
        let others = format!("{} otherwise by rows that were met, {} failed", self.by_rows, self.failed);
        let fonts = self.fonts.len();
        println!(
            "{} lines that HarfBuzz has published, by {} fonts: {} as it has them, {}",
            self.lines, fonts, same, others
        );
        if self.not_compared > 0 {
            println!("{} of them take any result, and hb-shape, which has one, is not in the path", self.not_compared);
        }
    }
}

/// A line that is not too long to be shown, else how many glyphs it has.
fn brief(line: &str) -> String {
    match line.split_whitespace().count() {
        count if count > GLYPHS_SHOWN => format!("{} glyphs", count),
        _ => line.into(),
    }
}

const GLYPHS_SHOWN: usize = 16;

/// The line as hb-shape writes it with its option --ned at a size of 1,000: names and places.
fn placed(shaped: &Shaped, font: &Font, look: &Look, right_to_left: bool) -> String {
    let units = font.table(b"head").and_then(|head| word(head, 18)).map_or(1_000, i64::from).max(1);
    let scaled = |number: i64| (number * 1_000 + units / 2).div_euclid(units);
    let mut places: Vec<usize> =
        (0..shaped.line.length()).filter(|place| shaped.line.glyphs[*place] != DELETED).collect();
    if right_to_left {
        places.reverse();
    }
    let mut at = 0;
    let written: Vec<String> = places
        .into_iter()
        .map(|place| {
            let glyph = shaped.line.glyphs[place];
            let added = shaped.along.first().map_or(0, |(_, along)| along[place]);
            let here = if at == 0 { String::new() } else { format!("@{},0", at) };
            at += scaled(look.width(glyph).unwrap_or(0) + added);
            format!("{}{}", look.plain_name(glyph), here)
        })
        .collect();
    format!("[{}]", written.join("|"))
}

/// The same of a line that is written, without the names where the font has none that are read here.
fn without_names(written: &str, look: &Look) -> String {
    if look.has_names() {
        return written.into();
    }
    let glyphs = written.trim_matches(|bracket| matches!(bracket, '[' | ']')).split('|');
    let places: Vec<String> =
        glyphs.map(|glyph| glyph.split_once('@').map_or(String::new(), |(_, place)| format!("@{}", place))).collect();
    format!("[{}]", places.join("|"))
}
