//! A font's tables for shaping, and what the crate and the box make of a line by them.

use crate::font::history::{tell_kerning, tell_mort, tell_morx};
use crate::font::met::{Met, Rows, Spot};
use crate::font::sfnt::Font;
use crate::font::show::Look;
use crate::font::{met_kerning, met_language, met_morx};
use crate::reference::anchored::{self, Anchored, Marks};
use crate::reference::anchored_by_copy;
use crate::reference::kerning::{Kerned, Kerning, ALONE_AT};
use crate::reference::kerning_choices::Choices;
use crate::reference::kerx_readings::{self, Reading};
use crate::reference::line::{Line, LARGEST_ROOM};
use crate::reference::oracle::{self, Fault, LONGEST_TABLE};
use crate::reference::pass::line_of;
use crate::reference::shaper::SHAPER_ROOM;
use crate::reference::{kerning_run, mort, run};
use crate::wire::along::along_of;
use crate::wire::entries::Entry;
use crate::wire::pipe::{lend_bytes, lend_requests, lend_table, TheBox};
use crate::wire::reply::number;
use std::collections::BTreeSet;
use std::io;

/// The tables, each behind a few bytes, as a list must not begin at 0.
pub struct Tables {
    pub glyphs: Option<u16>,
    morx: Option<Vec<u8>>,
    /// The earlier edition, where there is no morx.
    mort: Option<Vec<u8>>,
    kerx: Option<Vec<u8>>,
    kern: Option<Vec<u8>>,
    ltag: Option<Vec<u8>>,
    /// The points that marks of kerx are anchored by; empty where there are none.
    ankr: Vec<u8>,
    /// The features that runs of morx are asked for.
    pub requests: Vec<u32>,
}

const START: u64 = ALONE_AT as u64;

/// A line as one side left it.
#[derive(PartialEq)]
pub struct Shaped {
    pub line: Line,
    /// Each run's table, answer and heads.
    pub runs: Vec<(&'static str, u32, u32)>,
    /// The adjustments by each table of kerning.
    pub along: Vec<(&'static str, Vec<i64>)>,
    /// The marks by kerx, where the font has points to anchor them by.
    pub marks: Option<Marks>,
}

/// The answers by their numbers.
pub const ANSWERS: [&str; 11] =
    ["DONE", "NOTHING", "TABLE", "LINE", "PLACE", "STATE", "HEAD", "FULL", "ENDED", "LIMIT", "REQUEST"];

impl Shaped {
    /// A line that nothing was done to.
    fn of(line: Line) -> Self {
        Shaped { line, runs: Vec::new(), along: Vec::new(), marks: None }
    }

    /// The characters that belong to a tag.
    pub fn characters(&self, tag: u16) -> impl Iterator<Item = usize> + '_ {
        self.line.homes.iter().enumerate().filter(move |home| *home.1 == tag).map(|home| home.0)
    }
}

impl Tables {
    /// Those of a font; or why it has none to shape by.
    pub fn of(font: &Font) -> Result<Self, String> {
        let table = |name: &[u8; 4]| match font.table(name) {
            Some(table) if ALONE_AT + table.len() > LONGEST_TABLE => {
                Err(format!("its table {} is too long", String::from_utf8_lossy(name)))
            }
            Some(table) => Ok(Some([&[0; ALONE_AT], table].concat())),
            None => Ok(None),
        };
        let (morx, kerx, kern, ltag) = (table(b"morx")?, table(b"kerx")?, table(b"kern")?, table(b"ltag")?);
        let mort = if morx.is_none() { table(b"mort")? } else { None };
        if [&morx, &mort, &kerx, &kern, &ltag].iter().all(|table| table.is_none()) {
            return Err("it has none of the tables morx, mort, kerx, kern and ltag".into());
        }
        // It is lent as a slice of its own.
        let ankr = table(b"ankr")?.map_or(Vec::new(), |table| table[ALONE_AT..].to_vec());
        Ok(Tables { glyphs: font.glyphs(), morx, mort, kerx, kern, ltag, ankr, requests: Vec::new() })
    }

    /// All tables; mort where it is there, which takes the place of morx.
    fn all(&self) -> [(&'static str, &Option<Vec<u8>>); 4] {
        let first = if self.mort.is_some() { ("mort", &self.mort) } else { ("morx", &self.morx) };
        [first, ("kerx", &self.kerx), ("kern", &self.kern), ("ltag", &self.ltag)]
    }

    /// Those that are there, with their names, as they are lent.
    pub fn lent(&self) -> impl Iterator<Item = (&'static str, &Vec<u8>)> {
        self.all().into_iter().filter_map(|(name, table)| Some((name, table.as_ref()?)))
    }

    /// Which there are.
    pub fn describe(&self) -> String {
        let size = |table: &Option<Vec<u8>>| {
            table.as_ref().map_or("none".into(), |table| format!("{} bytes", table.len() - ALONE_AT))
        };
        let mut sizes: Vec<String> =
            self.all().iter().map(|(name, table)| format!("{} {}", name, size(table))).collect();
        if !self.ankr.is_empty() {
            sizes.push(format!("ankr {} bytes", self.ankr.len()));
        }
        let glyphs = self.glyphs.map_or("no glyph count".into(), |count| format!("{} glyphs", count));
        format!("{}; {}", glyphs, sizes.join(", "))
    }

    /// Those for shaping with their names, as a font has them.
    pub fn named(&self) -> Vec<([u8; 4], Vec<u8>)> {
        let tables = [(*b"morx", &self.morx), (*b"mort", &self.mort), (*b"kerx", &self.kerx), (*b"kern", &self.kern)];
        tables.into_iter().filter_map(|(name, table)| Some((name, table.as_ref()?[ALONE_AT..].to_vec()))).collect()
    }

    /// The tables of kerning; HarfBuzz takes the first alone.
    pub fn kernings(&self) -> impl Iterator<Item = (Kerning, &Vec<u8>)> {
        let tables = [(Kerning::Kerx, &self.kerx), (Kerning::Kern, &self.kern)];
        tables.into_iter().filter_map(|(kerning, table)| Some((kerning, table.as_ref()?)))
    }

    /// The line by the crate: first morx, then each table of kerning on what it left; mort, and kerx in the manual's reading, by their
    /// models.
    pub fn by_crate(&self, glyphs: &[u16], right_to_left: bool, choices: Choices) -> Result<Shaped, Fault> {
        let mut shaped = Shaped::of(lent_line(glyphs));
        if let Some(table) = &self.morx {
            let run = run::Run { table, start: START, right_to_left, requests: &self.requests };
            let (answer, heads) = match run.refusal(&shaped.line) {
                Some(refusal) => (refusal, 0),
                None => run.make(&mut shaped.line, &mut |_, _| {})?,
            };
            shaped.runs.push(("morx", answer.number(), heads));
        }
        if let Some(table) = &self.mort {
            let run = run::Run { table, start: START, right_to_left, requests: &self.requests };
            let (answer, heads) = match run.refusal(&shaped.line) {
                Some(refusal) => (refusal, 0),
                None => mort::run(&run, &mut shaped.line, &mut |_| {}),
            };
            shaped.runs.push(("mort", answer.number(), heads));
        }
        for (kerning, table) in self.kernings() {
            let run = kerning_run::Run { kerning, table, start: START, right_to_left, choices };
            if self.anchors_marks(kerning) {
                self.mark_by_crate(&run, &mut shaped)?;
                continue;
            }
            let mut lent = unkerned(&shaped.line);
            let (answer, heads) = match (run.refusal(&lent), choices.reading(kerning)) {
                (Some(refusal), _) => (refusal, 0),
                (None, Reading::Crate) => run.make(&mut lent)?,
                (None, reading) => kerx_readings::run(reading, table, START, right_to_left, choices, &mut lent),
            };
            shaped.runs.push((kerning.name(), answer.number(), heads));
            shaped.along.push((kerning.name(), lent.along));
        }
        Ok(shaped)
    }

    /// Whether the font has points that marks are anchored by.
    pub fn has_points(&self) -> bool {
        !self.ankr.is_empty()
    }

    /// Whether marks of this table are anchored by points that the font has.
    fn anchors_marks(&self, kerning: Kerning) -> bool {
        kerning == Kerning::Kerx && self.has_points()
    }

    fn mark_by_crate(&self, run: &kerning_run::Run, shaped: &mut Shaped) -> Result<(), Fault> {
        let kerning_run::Run { table, start, right_to_left, choices, .. } = *run;
        let mut lent = unmarked(&shaped.line);
        let (answer, heads) = match (lent.refuses_run(table, &self.ankr, start), choices.reading(Kerning::Kerx)) {
            (Some(refusal), _) => (refusal, 0),
            (None, Reading::Crate) => anchored_by_copy::run(run, &self.ankr, &mut lent)?,
            (None, reading) => anchored::run(reading, table, start, right_to_left, choices, &self.ankr, &mut lent),
        };
        shaped.runs.push(("kerx", answer.number(), heads));
        shaped.along.push(("kerx", lent.kerned.along));
        shaped.marks = Some(lent.marks);
        Ok(())
    }

    /// The same by the box.
    fn mark_by_box(&self, run: &kerning_run::Run, shaped: &mut Shaped, the_box: &mut TheBox) -> io::Result<()> {
        let lent = unmarked(&shaped.line);
        let mut call = call_of(run.table, Entry::KerxRunAnchored);
        lent.lend(run.start, &self.ankr, &mut call);
        call.extend([0, run.right_to_left.into(), run.choices.0].into_iter().flat_map(u32::to_le_bytes));
        let (kerned, marks) = (8 * lent.kerned.along.len(), lent.marks.bytes());
        let reply = the_box.exchange(&call, line_bytes(&shaped.line) + kerned + marks + 4)?;
        let (line, rest) = reply.split_at(line_bytes(&shaped.line));
        let (along, rest) = rest.split_at(kerned);
        let (marks, heads) = rest.split_at(marks);
        read_line(&mut shaped.line, line);
        shaped.runs.push(("kerx", number(&line[..4]) as u32, number(heads) as u32));
        shaped.along.push(("kerx", along_of(along)));
        shaped.marks = Some(lent.marks.of_reply(marks));
        Ok(())
    }

    /// The line by the box.
    pub fn by_box(
        &self,
        glyphs: &[u16],
        right_to_left: bool,
        choices: Choices,
        the_box: &mut TheBox,
    ) -> io::Result<Shaped> {
        let mut shaped = Shaped::of(lent_line(glyphs));
        let direction = u32::from(right_to_left).to_le_bytes();
        let editions = [("morx", &self.morx), ("mort", &self.mort)];
        for (name, table) in editions.into_iter().filter_map(|(name, table)| Some((name, table.as_ref()?))) {
            let is_plain = self.requests.is_empty() && name == "morx";
            let entry = match name {
                "mort" => Entry::MortRun,
                _ if is_plain => Entry::MorxRun,
                _ => Entry::MorxRunWith,
            };
            let mut call = call_of(table, entry);
            shaped.line.lend(&mut call);
            call.extend(START.to_le_bytes());
            call.extend([direction, [0; 4]].concat());
            if !is_plain {
                lend_requests(&self.requests, &mut call);
            }
            let reply = the_box.exchange(&call, line_bytes(&shaped.line) + 12)?;
            let (line, rest) = reply.split_at(line_bytes(&shaped.line));
            read_line(&mut shaped.line, line);
            shaped.line.used = number(&rest[4..]);
            shaped.runs.push((name, number(&line[..4]) as u32, number(&rest[..4]) as u32));
        }
        for (kerning, table) in self.kernings() {
            if self.anchors_marks(kerning) {
                let run = kerning_run::Run { kerning, table, start: START, right_to_left, choices };
                self.mark_by_box(&run, &mut shaped, the_box)?;
                continue;
            }
            let lent = unkerned(&shaped.line);
            let is_read_as_ever = choices.reading(kerning) == Reading::Crate;
            let mut call = call_of(
                table,
                match kerning {
                    Kerning::Kern => Entry::KernRun,
                    Kerning::Kerx if is_read_as_ever => Entry::KerxRun,
                    Kerning::Kerx => Entry::KerxRunBy,
                },
            );
            lent.lend(START, &mut call);
            call.extend([0; 4]);
            if kerning == Kerning::Kerx {
                call.extend(direction);
            }
            if !is_read_as_ever {
                call.extend(choices.0.to_le_bytes());
            }
            let reply = the_box.exchange(&call, line_bytes(&shaped.line) + 8 * lent.along.len() + 4)?;
            let (line, rest) = reply.split_at(line_bytes(&shaped.line));
            let (along, heads) = rest.split_at(8 * lent.along.len());
            read_line(&mut shaped.line, line);
            shaped.runs.push((kerning.name(), number(&line[..4]) as u32, number(heads) as u32));
            shaped.along.push((kerning.name(), along_of(along)));
        }
        Ok(shaped)
    }

    /// The index of a language by both sides, in words.
    pub fn language(&self, name: &str, the_box: &mut TheBox) -> Result<[String; 2], String> {
        let table = self.ltag.as_ref().ok_or("it has no table ltag to look for a language in")?;
        let answer = oracle::language_index(table, START, name).map_err(|fault| fault.describe().to_string())?;
        let mut call = call_of(table, Entry::LanguageIndex);
        call.extend(START.to_le_bytes());
        lend_bytes(name.as_bytes(), &mut call);
        call.extend([0; 4]);
        let reply = the_box.exchange(&call, 8).map_err(|error| format!("the box: {}", error))?;
        let words = |answer: u64, value: u64| match answer {
            0 => value.to_string(),
            _ => ANSWERS[answer as usize].to_string(),
        };
        let theirs = words(answer.number().into(), answer.done().unwrap_or(0).into());
        Ok([theirs, words(number(&reply[..4]), number(&reply[4..]))])
    }

    /// The rows of docs/DIFFERENCES.md that the line and the language meet.
    pub fn met(&self, glyphs: &[u16], right_to_left: bool, language: Option<&str>) -> Rows {
        let mut rows = Rows::new();
        let mut line = lent_line(glyphs);
        if !line.is_line() {
            return Rows::from([(51, vec![Spot::default()])]);
        }
        let mut add = |met: Met| {
            met.rows.into_iter().for_each(|(row, mut spots)| rows.entry(row).or_default().append(&mut spots))
        };
        if let Some(table) = &self.morx {
            let mut met = Met::new(table, self.glyphs);
            met_morx::watch(
                &mut met,
                &run::Run { table, start: START, right_to_left, requests: &self.requests },
                &mut line,
            );
            add(met);
        }
        if let Some(table) = &self.mort {
            // No row is looked at, but what follows is at work on what mort leaves.
            let run = run::Run { table, start: START, right_to_left, requests: &self.requests };
            mort::run(&run, &mut line, &mut |_| {});
        }
        for (kerning, table) in self.kernings() {
            let mut met = Met::new(table, self.glyphs);
            met_kerning::watch(
                &mut met,
                &kerning_run::Run { kerning, table, start: START, right_to_left, choices: Choices::NONE },
                &self.ankr,
                &line,
            );
            add(met);
        }
        if let (Some(table), Some(name)) = (&self.ltag, language) {
            let mut met = Met::new(table, self.glyphs);
            met_language::watch(&mut met, ALONE_AT, name.as_bytes());
            add(met);
        }
        rows
    }

    /// Tells what each subtable does, by the crate's copy, which has to leave the line as the crate does.
    pub fn trace(&self, glyphs: &[u16], right_to_left: bool, look: &Look, rows: &Rows) -> Result<(), String> {
        let in_words = |fault: Fault| fault.describe().to_string();
        let mut line = lent_line(glyphs);
        if !line.is_line() {
            return Ok(());
        }
        if let Some(table) = &self.morx {
            let run = run::Run { table, start: START, right_to_left, requests: &self.requests };
            tell_morx(&run, &mut line, look, rows).map_err(in_words)?;
        }
        if let Some(table) = &self.mort {
            let run = run::Run { table, start: START, right_to_left, requests: &self.requests };
            tell_mort(&run, &mut line, look);
        }
        for (kerning, table) in self.kernings() {
            let run = kerning_run::Run { kerning, table, start: START, right_to_left, choices: Choices::NONE };
            tell_kerning(&run, &self.ankr, &mut unkerned(&line), look, rows).map_err(in_words)?;
        }
        Ok(())
    }

    /// The rows that can be met, or are known not to be, as their tables are not there.
    pub fn looked_at(&self, has_language: bool) -> BTreeSet<u32> {
        let rows = met_morx::ROWS.into_iter().chain(met_kerning::ROWS).chain([51]);
        let of_language = met_language::ROWS.into_iter().filter(|_| has_language);
        rows.chain(of_language).filter(|row| *row != 4 || self.glyphs.is_some()).collect()
    }
}

/// A line in the shaper's room, or in no more than it needs where it is longer; in one that is refused where it is too long, with as
/// many of its glyphs as that takes.
fn lent_line(glyphs: &[u16]) -> Line {
    let glyphs = &glyphs[..glyphs.len().min(LARGEST_ROOM + 1)];
    line_of(glyphs, glyphs.len().max(SHAPER_ROOM))
}

fn unkerned(line: &Line) -> Kerned {
    Kerned { line: line.clone(), along: vec![0; line.glyphs.len()] }
}

fn unmarked(line: &Line) -> Anchored {
    Anchored { kerned: unkerned(line), marks: Marks::none(line.glyphs.len()) }
}

fn call_of(table: &[u8], entry: Entry) -> Vec<u8> {
    let mut call = Vec::new();
    lend_table(table, &mut call);
    call.push(entry as u8);
    call
}

/// The bytes of an answer and a line in a reply.
fn line_bytes(line: &Line) -> usize {
    4 + 2 * (line.glyphs.len() + line.tags.len() + line.homes.len())
}

fn read_line(line: &mut Line, reply: &[u8]) {
    let mut numbers = reply[4..].chunks_exact(2).map(|bytes| number(bytes) as u16);
    for part in [&mut line.glyphs, &mut line.tags, &mut line.homes] {
        part.iter_mut().zip(&mut numbers).for_each(|(place, number)| *place = number);
    }
}
