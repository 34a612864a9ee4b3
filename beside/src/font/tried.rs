//! The tables of beside/tried, each with a line and the rows of docs/DIFFERENCES.md that it meets.

use crate::font::characters::Characters;
use crate::font::hb_shape::{HbShape, Reading};
use crate::font::inventory::list;
use crate::font::rows::{rows, Row, BY_MANUAL, NOT_RUN};
use crate::font::sfnt::{typed_characters, typed_font, wrap, Font, TYPED_WIDTH};
use crate::font::shaping::{Shaped, Tables, ANSWERS};
use crate::font::show::Look;
use crate::font::wish::{glyphs_of, USAGE};
use crate::font::{both, both_by, start, tag};
use crate::reference::kerning_choices::{Choices, MANUAL_LISTS};
use crate::reference::line::DELETED;
use crate::wire::hex;
use crate::wire::pipe::TheBox;
use std::collections::{BTreeMap, BTreeSet};

/// One of the list: the rows that are named, a font of 100 glyphs with the table, the line, and the language to look for.
struct Tried<'a> {
    named: BTreeSet<u32>,
    name: &'a str,
    told: &'a str,
    file: Vec<u8>,
    glyphs: Vec<u16>,
    right_to_left: bool,
    language: Option<&'a str>,
}

impl<'a> Tried<'a> {
    /// Those of a list.
    fn all(list: &'a str) -> impl Iterator<Item = Result<Tried<'a>, String>> + 'a {
        list.lines().filter(|line| !line.is_empty() && !line.starts_with('#')).map(Tried::of)
    }

    fn of(line: &'a str) -> Result<Self, String> {
        let parts: Vec<&str> = line.split("; ").collect();
        let (named, name, told, table, more) = match parts[..] {
            [named, name, told, table] => (named, name, told, table, None),
            [named, name, told, table, more] => (named, name, told, table, Some(more)),
            _ => return Err(format!("no table to try: {}", line)),
        };
        let bytes = |table| hex::parse(table).ok_or_else(|| format!("no hex: {}", table));
        let mut tables = vec![(tag(name)?, bytes(table)?), (*b"maxp", vec![0, 1, 0, 0, 0, 100])];
        let language = more.filter(|_| name == "ltag").map(|language| language.trim_matches('"'));
        if let Some(ankr) = more.filter(|_| name == "kerx") {
            tables.push((*b"ankr", bytes(ankr)?));
        }
        Ok(Tried {
            named: named.split(' ').filter_map(|row| row.parse().ok()).collect(),
            name,
            told,
            file: wrap(&tables),
            glyphs: glyphs_of(&told.trim_start_matches('<').split_whitespace().collect::<Vec<_>>())?,
            right_to_left: told.starts_with('<'),
            language,
        })
    }

    /// Shapes its line: both sides have to say the same, and the rows that are met have to be those that are named; of those on tables
    /// that are out of order the survey has to name each. With it, what the line becomes.
    fn shape(&self, the_box: &mut TheBox) -> Result<(bool, String), String> {
        let font = Font::open(&self.file, None)?;
        let tables = Tables::of(&font)?;
        let [crates, boxes] = both(&tables, &self.glyphs, self.right_to_left, the_box)?;
        let (mut is_same, mut left) = (crates == boxes, left_of(&boxes));
        if let Some(language) = self.language {
            let [theirs, ours] = tables.language(language, the_box)?;
            is_same &= theirs == ours;
            left = ours;
        }
        let met: BTreeSet<u32> = tables.met(&self.glyphs, self.right_to_left, self.language).into_keys().collect();
        let faults = list(&font, &tables, the_box)?.faults;
        let is_told = |row: &u32| faults.iter().any(|fault| fault.ends_with(&format!("(row {})", row)));
        let is_surveyed = self.named.iter().filter(|row| SURVEYED.contains(row)).all(is_told);
        let same = if is_same { "the same" } else { "NOT the same" };
        let surveyed = if is_surveyed { "" } else { "; NOT named by the survey" };
        let Tried { named, name, told, .. } = self;
        println!("{}, line {}: {}; rows {:?}, met {:?}{}", name, told, same, named, met, surveyed);
        Ok((is_same && met == self.named && is_surveyed, left))
    }

    /// What the line becomes in the manual's reading, by the box, which has to say what the model says; kerx alone is read so.
    fn by_manual(&self, the_box: &mut TheBox) -> Result<Option<String>, String> {
        if self.name != "kerx" {
            return Ok(None);
        }
        let font = Font::open(&self.file, None)?;
        let tables = Tables::of(&font)?;
        let [models, boxes] = both_by(Choices(MANUAL_LISTS), &tables, &self.glyphs, self.right_to_left, the_box)?;
        let left = left_of(&boxes);
        Ok(Some(if models == boxes { left } else { format!("{}, NOT as the model says", left) }))
    }

    /// What HarfBuzz makes of the line, where it is one of glyphs.
    fn by_harfbuzz(&self, hb_shape: &HbShape) -> Result<String, String> {
        let font = Font::open(&self.file, None)?;
        let tables = Tables::of(&font)?;
        // Of languages and of where marks are anchored hb-shape tells nothing that could stand in a cell.
        if self.language.is_some() || tables.has_points() {
            return Ok(NOT_RUN.into());
        }
        let Reading { glyphs, along } = hb_shape.shape(&tables, &self.glyphs, self.right_to_left)?;
        Ok(match along {
            Some(along) if tables.kernings().next().is_some() => joined(&along),
            _ => joined(&glyphs),
        })
    }
}

/// The rows on tables that are out of order, which the survey has to name.
const SURVEYED: [u32; 15] = [1, 2, 3, 5, 6, 7, 8, 9, 11, 12, 24, 44, 47, 48, 58];

/// The glyphs of a line, or its adjustments where it was kerned, or its marks where the font has points for them; and the answer where it is not DONE.
fn left_of(shaped: &Shaped) -> String {
    let length = shaped.line.length();
    let left = match (shaped.along.first(), &shaped.marks) {
        (_, Some(marks)) => joined(
            &marks.of_places(length).iter().map(|(x, y, back)| format!("{},{},{}", x, y, back)).collect::<Vec<_>>(),
        ),
        (Some((_, along)), None) => joined(&along[..length]),
        (None, None) => joined(&shaped.line.glyphs[..length]).replace(&DELETED.to_string(), "FFFF"),
    };
    match shaped.runs.iter().map(|run| run.1).find(|answer| *answer != 0) {
        Some(answer) => format!("{}, {}", left, ANSWERS[answer as usize]),
        None => left,
    }
}

/// Numbers in a row, with its count where one comes many times, as 5*7; where they are too many how many they are.
fn joined<T: PartialEq + ToString>(numbers: &[T]) -> String {
    const MANY: usize = 4;
    const MOST: usize = 40;
    let (mut words, mut left) = (Vec::new(), numbers);
    while let [first, ..] = left {
        let count = left.iter().take_while(|number| *number == first).count();
        let shown = if count >= MANY {
            vec![format!("{}*{}", first.to_string(), count)]
        } else {
            vec![first.to_string(); count]
        };
        words.extend(shown);
        left = &left[count..];
    }
    match words.len() {
        0 => "nothing".into(),
        count if count > MOST => format!("{} glyphs", numbers.len()),
        _ => words.join(" "),
    }
}

fn read(list: &str) -> Result<String, String> {
    std::fs::read_to_string(list).map_err(|error| format!("{}: {}", list, error))
}

/// Shapes the lines of a list by both sides; what they become has to stand in the rows' cells.
pub fn try_all(words: &[String]) -> Result<bool, String> {
    let (list, command) = words.split_first().ok_or(USAGE)?;
    let (list, mut the_box) = (read(list)?, start(command)?);
    let (mut count, mut failed, mut lines, mut by_manual) = (0, 0, BTreeMap::new(), BTreeMap::new());
    for tried in Tried::all(&list) {
        let tried = tried?;
        let (is_right, left) = tried.shape(&mut the_box)?;
        count += 1;
        failed += usize::from(!is_right);
        note(&mut lines, &tried, left);
        if let Some(left) = tried.by_manual(&mut the_box)? {
            note(&mut by_manual, &tried, left);
        }
    }
    failed += usize::from(!are_read());
    let cells =
        compare("Crate", &lines, |row| Some(row.by_crate)) + compare(BY_MANUAL, &by_manual, |row| row.by_manual);
    let compared =
        lines.len() + rows().iter().filter(|row| row.by_manual.map_or(false, |cell| cell != NOT_RUN)).count();
    println!("{} tables, {} failed; {} cells of docs/DIFFERENCES.md, {} otherwise", count, failed, compared, cells);
    Ok(failed == 0 && cells == 0)
}

/// Whether known characters, names and widths are read, of formats that few fonts have.
fn are_read() -> bool {
    let post = [0, 1, 0, 0].into_iter().chain([0; 28]).collect();
    let file = typed_font(100, vec![(*b"post", post)]);
    let font = Font::open(&file, None);
    let is_read = |font: &Font| {
        let characters = Characters::of(font).ok()?;
        let glyphs: Vec<_> =
            typed_characters(&[5, 99]).into_iter().map(|character| characters.glyph(character)).collect();
        let look = Look::new(font, false);
        let is_read = glyphs == [Some(5), Some(99)] && characters.glyph(0x41).is_none();
        Some(is_read && look.plain_name(36) == "A" && look.width(99) == Some(TYPED_WIDTH.into()))
    };
    let are_read = font.ok().as_ref().and_then(is_read) == Some(true);
    println!("characters of cmap 12, names of post 1: {}", if are_read { "as known" } else { "NOT as known" });
    are_read
}

/// Puts the same lines to hb-shape; what HarfBuzz makes of them has to stand in the rows' cells.
pub fn ask_harfbuzz(words: &[String]) -> Result<bool, String> {
    let hb_shape = HbShape::find().ok_or("hb-shape is not in the path (Debian has it in libharfbuzz-bin)")?;
    let list = read(words.first().ok_or(USAGE)?)?;
    let mut lines = BTreeMap::new();
    for tried in Tried::all(&list) {
        let tried = tried?;
        note(&mut lines, &tried, tried.by_harfbuzz(&hb_shape)?);
    }
    for (row, left) in &lines {
        println!("{}: {}", row, left.join("; "));
    }
    let cells = compare("HarfBuzz", &lines, |row| Some(row.by_harfbuzz));
    println!("HarfBuzz {}: {} cells of docs/DIFFERENCES.md, {} otherwise", hb_shape.version, lines.len(), cells);
    Ok(cells == 0)
}

/// What becomes of the lines of each row.
type Lines = BTreeMap<u32, Vec<String>>;

fn note(lines: &mut Lines, tried: &Tried, left: String) {
    tried.named.iter().for_each(|row| lines.entry(*row).or_default().push(left.clone()));
}

/// How many rows that have such a cell have another than their lines say.
fn compare(column: &str, lines: &Lines, cell: impl Fn(&Row) -> Option<&'static str>) -> usize {
    let mut others = 0;
    for row in rows() {
        let left = lines.get(&row.number).map_or(NOT_RUN.into(), |left| left.join("; "));
        if let Some(cell) = cell(&row).filter(|cell| *cell != left) {
            println!("row {}, {}: it says {}, and has to say {}", row.number, column, cell, left);
            others += 1;
        }
    }
    others
}
