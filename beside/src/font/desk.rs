//! A font on the desk: a line by the crate, the box and HarfBuzz beside each other, and the rows of docs/DIFFERENCES.md that it met.

use crate::font::hb_shape::HbShape;
use crate::font::inventory::list;
use crate::font::met::Rows;
use crate::font::rows::{rows, Row};
use crate::font::sfnt::Font;
use crate::font::shaping::Tables;
use crate::font::show::{as_hb_shape, more, print, Column, Look};
use crate::font::wish::Wish;
use crate::font::{both, both_by, explaining};
use crate::reference::kerning_choices::{Choices, MANUAL_LISTS};
use crate::wire::pipe::TheBox;
use std::collections::BTreeSet;

/// A font's tables, how its glyphs look, and those who read them.
pub struct Desk<'a> {
    pub font: &'a Font<'a>,
    pub tables: Tables,
    pub look: Look<'a>,
    pub the_box: TheBox,
    pub hb_shape: Option<HbShape>,
}

impl Desk<'_> {
    /// Shows what the tables hold; whether nothing is out of order.
    pub fn survey(&mut self) -> Result<bool, String> {
        let found = list(self.font, &self.tables, &mut self.the_box)?;
        found.lines.iter().for_each(|line| println!("{}", line));
        println!("{}", if found.faults.is_empty() { "nothing is out of order" } else { "out of order:" });
        found.faults.iter().for_each(|fault| println!("  {}", fault));
        Ok(found.faults.is_empty())
    }

    /// Shows a line and what was asked for besides, with a language's index by both sides; whether crate and box say the same.
    pub fn shape(&mut self, wish: &Wish, glyphs: &[u16], languages: Option<[String; 2]>) -> Result<bool, String> {
        if !wish.requests.is_empty() {
            println!("HarfBuzz is not shown, as it is not asked for features by type and setting");
        } else if self.hb_shape.is_none() {
            println!("HarfBuzz is not shown, as hb-shape is not in the path (Debian has it in libharfbuzz-bin)");
        }
        let faults = list(self.font, &self.tables, &mut self.the_box)?.faults.len();
        let mut is_same = true;
        let mut met = Rows::new();
        for right_to_left in wish.ways() {
            let rows = self.tables.met(glyphs, right_to_left, wish.language.as_deref());
            is_same &= self.show(glyphs, right_to_left, wish.is_manual, &rows, faults)?;
            if wish.traces {
                self.tables.trace(glyphs, right_to_left, &self.look, &rows)?;
            }
            rows.into_iter().for_each(|(row, mut spots)| met.entry(row).or_default().append(&mut spots));
        }
        if let Some([theirs, ours]) = languages {
            println!("language: {} | {}", theirs, ours);
            is_same &= theirs == ours;
        }
        let theirs = if wish.is_manual { "crate, model" } else { "crate" };
        println!(
            "{}",
            if is_same { format!("{} and box say the same", theirs) } else { format!("{} and box DIFFER", theirs) }
        );
        show_rows(&met, &self.tables.looked_at(wish.language.is_some()));
        if faults > 0 {
            println!("out of order in the tables, as --survey tells: {}", faults);
        }
        Ok(is_same)
    }

    /// Shows what both sides and HarfBuzz make of the line, and the box in the manual's reading, where that is asked for; whether it
    /// is the same by both sides.
    fn show(
        &mut self,
        glyphs: &[u16],
        right_to_left: bool,
        is_manual: bool,
        rows: &Rows,
        faults: usize,
    ) -> Result<bool, String> {
        let Desk { tables, look, the_box, hb_shape, .. } = self;
        let [crates, boxes] = both(tables, glyphs, right_to_left, the_box)?;
        let mut columns = vec![Column::of(&crates, look), Column::of(&boxes, look)];
        let differs = |place: &usize| columns[0].places.get(*place) != columns[1].places.get(*place);
        let longest = columns[0].places.len().max(columns[1].places.len());
        let mut notable = (0..longest).find(differs);
        let mut told = None;
        let mut is_same = crates == boxes;
        if is_manual {
            let [models, by_manual] = both_by(Choices(MANUAL_LISTS), tables, glyphs, right_to_left, the_box)?;
            is_same &= models == by_manual;
            columns.push(Column::of(&by_manual, look));
        }
        if let Some(hb_shape) = hb_shape {
            let reading = hb_shape.shape(tables, glyphs, right_to_left)?;
            let (column, places) = reading.column(&boxes, look, &hb_shape.version);
            notable = notable.or_else(|| places.first().copied());
            columns.push(column);
            told = Some(match reading.along {
                None if places.is_empty() => {
                    "HarfBuzz has the same glyphs; its kerning, of several kinds, is not told".into()
                }
                _ => told_of_harfbuzz(&places, rows, faults),
            });
        }
        let way = if right_to_left { "right to left" } else { "left to right" };
        let manual = if is_manual { " | box in the manual's reading of kerx" } else { "" };
        let harfbuzz = if told.is_some() { " | HarfBuzz" } else { "" };
        println!("from {}, crate | box{}{}", way, manual, harfbuzz);
        print(&columns, look.most, notable);
        println!("in the form of hb-shape: {}", as_hb_shape(&boxes, look, right_to_left));
        told.iter().for_each(|told| println!("{}", told));
        Ok(is_same)
    }
}

/// Where HarfBuzz says otherwise, and the rows by which that can be, or that there are faults in the tables.
fn told_of_harfbuzz(places: &[usize], rows: &Rows, faults: usize) -> String {
    let first = match places.first() {
        Some(first) => first,
        None => return "HarfBuzz says the same".into(),
    };
    let why = match &explaining(rows)[..] {
        [] if faults > 0 => "no row that was met tells why; the tables are out of order".into(),
        [] => "NO row that was met tells why".into(),
        rows => format!("see row {}", rows.join(", ")),
    };
    format!("HarfBuzz says otherwise at place {}{}: {}", first, more(places.len() - 1), why)
}

fn show_rows(met: &Rows, looked_at: &BTreeSet<u32>) {
    println!("rows of docs/DIFFERENCES.md that the line met:{}", if met.is_empty() { " none" } else { "" });
    for Row { number, what, .. } in rows() {
        if let Some([first, others @ ..]) = met.get(&number).map(Vec::as_slice) {
            println!("  {}: {} ({}{})", number, what, first, more(others.len()));
        }
    }
    let others = rows().into_iter().filter(|row| !looked_at.contains(&row.number));
    let others: Vec<String> = others.map(|row| row.number.to_string()).collect();
    println!("rows not looked at: {}", others.join(" "));
}
