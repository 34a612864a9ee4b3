//! Shaped lines in columns, and as hb-shape writes them.

use crate::font::names::{width, Names};
use crate::font::sfnt::Font;
use crate::font::shaping::{Shaped, ANSWERS};
use crate::reference::line::DELETED;

/// What glyphs are called, and how wide they are.
pub struct Look<'a> {
    font: &'a Font<'a>,
    names: Names,
    /// How many places or edits of one kind are shown.
    pub most: usize,
}

/// So many places of a long line are shown.
const PLACES_SHOWN: usize = 48;

impl<'a> Look<'a> {
    /// That of a font's glyphs, of whose lines all is shown or the beginning.
    pub fn new(font: &'a Font<'a>, is_whole: bool) -> Self {
        Look { font, names: Names::of(font), most: if is_whole { usize::MAX } else { PLACES_SHOWN } }
    }

    /// A glyph's number, and its name where the font has names.
    pub fn called(&self, glyph: u16) -> String {
        match glyph {
            DELETED => "(deleted)".into(),
            _ if !self.has_names() => glyph.to_string(),
            _ => format!("{} ({})", glyph, self.names.name(glyph)),
        }
    }

    /// Whether the font has names.
    pub fn has_names(&self) -> bool {
        self.names.are_there()
    }

    /// A glyph's name, where the font has names.
    pub fn plain_name(&self, glyph: u16) -> String {
        if self.has_names() {
            self.names.name(glyph)
        } else {
            String::new()
        }
    }

    /// A glyph's width, where the font tells it.
    pub fn width(&self, glyph: u16) -> Option<i64> {
        width(self.font, glyph)
    }

    /// A glyph's number and name as a column has them.
    pub fn in_column(&self, glyph: u16) -> String {
        match glyph {
            _ if !self.has_names() => format!("{:>6}", glyph),
            DELETED => format!("{:>6} {:<12}", glyph, "(deleted)"),
            _ => format!("{:>6} {:<12}", glyph, self.names.name(glyph)),
        }
    }

    /// What stands above these.
    pub fn above(&self) -> String {
        if self.has_names() {
            format!("{:>6} {:<12}", "glyph", "name")
        } else {
            format!("{:>6}", "glyph")
        }
    }
}

/// How many more there are, in words; nothing where there are none.
pub fn more(count: usize) -> String {
    if count == 0 {
        String::new()
    } else {
        format!(", and {} more", count)
    }
}

/// What stands above a line's places, and each place, in words.
pub struct Column {
    pub above: Vec<String>,
    pub places: Vec<String>,
}

impl Column {
    /// That of a shaped line: of each place its glyph, its tag, its adjustments, its mark, and the characters that belong to it.
    pub fn of(shaped: &Shaped, look: &Look) -> Self {
        let answer = |run: &(&str, u32, u32)| format!("{}: {}, heads {}", run.0, ANSWERS[run.1 as usize], run.2);
        let mut above: Vec<String> = shaped.runs.iter().map(answer).collect();
        let tables: String = shaped.along.iter().map(|(table, _)| format!("{:>8}", table)).collect();
        let of_marks = |words: [&str; 3]| format!("{:>8}{:>8}{:>6}", words[0], words[1], words[2]);
        let marks = shaped.marks.as_ref().map_or(String::new(), |_| of_marks(["x", "y", "back"]));
        above.push(format!("place {}    tag{}{}  characters", look.above(), tables, marks));
        let place = |place: usize| {
            let along: String = shaped.along.iter().map(|(_, along)| format!("{:>8}", along[place])).collect();
            let mark = shaped.marks.as_ref().map(|marks| (marks.x[place], marks.y[place], marks.back[place]));
            let mark = mark
                .map_or(String::new(), |(x, y, back)| of_marks([&x.to_string(), &y.to_string(), &back.to_string()]));
            let (glyph, tag) = (shaped.line.glyphs[place], shaped.line.tags[place]);
            let characters: Vec<String> = shaped.characters(tag).map(|character| character.to_string()).collect();
            format!("{:>5} {} {:>6}{}{}  {}", place, look.in_column(glyph), tag, along, mark, characters.join(" "))
        };
        Column { above, places: (0..shaped.line.length()).map(place).collect() }
    }
}

/// Prints columns beside each other, of their places the first and this one.
pub fn print(columns: &[Column], most: usize, notable: Option<usize>) {
    let lines = |column: &Column| column.above.iter().chain(&column.places).map(|line| line.chars().count()).max();
    let widths: Vec<usize> = columns.iter().map(|column| lines(column).unwrap_or(0)).collect();
    let print = |parts: Vec<&str>| {
        let padded = parts.iter().zip(&widths).map(|(part, width)| format!("{:width$}", part, width = width));
        println!("{}", padded.collect::<Vec<_>>().join(" | ").trim_end());
    };
    let above = columns.iter().map(|column| column.above.len()).max().unwrap_or(0);
    for line in 0..above {
        print(columns.iter().map(|column| column.above.get(line).map_or("", String::as_str)).collect());
    }
    let places = columns.iter().map(|column| column.places.len()).max().unwrap_or(0);
    let is_shown = |place: &usize| *place < most || Some(*place) == notable;
    for place in (0..places).filter(is_shown) {
        print(columns.iter().map(|column| column.places.get(place).map_or("", String::as_str)).collect());
    }
    let left_out = (0..places).filter(|place| !is_shown(place)).count();
    if left_out > 0 {
        println!(".. {} of {} places are not shown (--whole shows them)", left_out, places);
    }
}

/// The line as hb-shape writes it, as far as it is known by these tables: name, first character, and width with the adjustment.
pub fn as_hb_shape(shaped: &Shaped, look: &Look, right_to_left: bool) -> String {
    let firsts = first_characters(shaped);
    let along = shaped.along.first().map(|(_, along)| &along[..]);
    let mut glyphs = Vec::new();
    for place in (0..shaped.line.length()).filter(|place| shaped.line.glyphs[*place] != DELETED) {
        let glyph = shaped.line.glyphs[place];
        let adjusted = |width: i64| width + along.map_or(0, |along| along[place]);
        let width = look.width(glyph).map_or(String::new(), |width| format!("+{}", adjusted(width)));
        glyphs.push(format!("{}={}{}", look.names.name(glyph), firsts[place], width));
    }
    if right_to_left {
        glyphs.reverse();
    }
    let more = if glyphs.len() > look.most { format!("|.. {} glyphs", glyphs.len()) } else { String::new() };
    glyphs.truncate(look.most);
    format!("[{}{}]", glyphs.join("|"), more)
}

/// The first character of each place; of one without any that of the nearest place before it, else behind it.
fn first_characters(shaped: &Shaped) -> Vec<usize> {
    let first = |place: usize| shaped.characters(shaped.line.tags[place]).min();
    let own: Vec<Option<usize>> = (0..shaped.line.length()).map(first).collect();
    let mut last = own.iter().find_map(|first| *first).unwrap_or(0);
    let known = own.iter().map(|first| {
        last = first.unwrap_or(last);
        last
    });
    known.collect()
}
