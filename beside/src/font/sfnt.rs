//! Font files: the tables of a TrueType or OpenType font or of one in a collection, and a smallest font around tables.

use crate::tables::lookup::words;

/// Where each of a font's tables lies in its file.
pub struct Font<'a> {
    file: &'a [u8],
    tables: Vec<([u8; 4], usize, usize)>,
}

const PLAIN: [[u8; 4]; 4] = [[0, 1, 0, 0], *b"OTTO", *b"true", *b"typ1"];

impl<'a> Font<'a> {
    /// The font in a file, of this number where it is one of a collection's; or why there is none.
    pub fn open(file: &'a [u8], number: Option<usize>) -> Result<Self, String> {
        let begins = match file.get(..4) {
            Some(b"ttcf") => one_of(file, number.unwrap_or(0))?,
            Some(tag) if PLAIN.iter().any(|plain| plain == tag) => match number {
                Some(_) => return Err("it is one font, no collection".into()),
                None => 0,
            },
            _ => return Err("it is no TrueType or OpenType font".into()),
        };
        let count = word(file, begins + 4).ok_or("its list of tables is cut short")?;
        let tables =
            (0..usize::from(count)).map(|entry| listed(file, begins + 12 + 16 * entry)).collect::<Result<_, _>>()?;
        Ok(Font { file, tables })
    }

    /// The bytes of the table of this name.
    pub fn table(&self, name: &[u8; 4]) -> Option<&'a [u8]> {
        let (_, offset, length) = self.tables.iter().find(|table| table.0 == *name)?;
        Some(&self.file[*offset..offset + length])
    }

    /// The names and sizes of its tables.
    pub fn sizes(&self) -> impl Iterator<Item = (String, usize)> + '_ {
        self.tables.iter().map(|(name, _, size)| (String::from_utf8_lossy(name).into_owned(), *size))
    }

    /// How many glyphs it has, where its table maxp says so.
    pub fn glyphs(&self) -> Option<u16> {
        word(self.table(b"maxp")?, 4)
    }
}

/// Where the font of this number begins.
fn one_of(file: &[u8], number: usize) -> Result<usize, String> {
    let count = long(file, 8).ok_or("the collection is cut short")? as usize;
    if number >= count {
        return Err(format!("the collection has {} fonts, from 0 on", count));
    }
    Ok(long(file, 12 + 4 * number).ok_or("the collection is cut short")? as usize)
}

/// The name, place and length of a table that is listed here.
fn listed(file: &[u8], at: usize) -> Result<([u8; 4], usize, usize), String> {
    let cut_short = "its list of tables is cut short";
    let name = file.get(at..at + 4).ok_or(cut_short)?;
    let name = [name[0], name[1], name[2], name[3]];
    let offset = long(file, at + 8).ok_or(cut_short)? as usize;
    let length = long(file, at + 12).ok_or(cut_short)? as usize;
    if offset + length > file.len() {
        return Err(format!("its table {} does not lie in the file", String::from_utf8_lossy(&name)));
    }
    Ok((name, offset, length))
}

/// A font that has these tables alone; their sums are not computed.
pub fn wrap(tables: &[([u8; 4], Vec<u8>)]) -> Vec<u8> {
    let mut tables: Vec<_> = tables.iter().collect();
    tables.sort_by_key(|table| table.0);
    let mut font = [&PLAIN[0], &(tables.len() as u16).to_be_bytes()[..], &[0; 6]].concat();
    let mut offset = font.len() + 16 * tables.len();
    for (name, table) in &tables {
        let numbers = [0, offset as u32, table.len() as u32].map(u32::to_be_bytes).concat();
        font.extend([&name[..], &numbers].concat());
        offset += (table.len() + 3) / 4 * 4;
    }
    for (_, table) in &tables {
        font.extend(table);
        font.resize((font.len() + 3) / 4 * 4, 0);
    }
    font
}

/// The characters of a typed font's glyphs begin here, where no character has properties of its own.
const PRIVATE: u32 = 0xF0000;

/// So wide are the glyphs of a typed font.
pub const TYPED_WIDTH: u16 = 500;

/// The characters of a typed font that are these glyphs.
pub fn typed_characters(glyphs: &[u16]) -> Vec<u32> {
    glyphs.iter().map(|glyph| PRIVATE + u32::from(*glyph)).collect()
}

/// A font of these tables, with the least that HarfBuzz asks for besides: 1,000 units, so many glyphs, all of one width, and a
/// character for each number of a glyph.
pub fn typed_font(glyphs: u16, mut tables: Vec<([u8; 4], Vec<u8>)>) -> Vec<u8> {
    let longs = |numbers: &[u32]| -> Vec<u8> { numbers.iter().flat_map(|number| number.to_be_bytes()).collect() };
    let mut head = longs(&[0x1_0000, 0x1_0000, 0, 0x5F0F_3CF5, 1_000]);
    head.resize(54, 0);
    let mut hhea = words(&[1, 0, 800, 0xFF38]);
    hhea.resize(34, 0);
    hhea.extend(words(&[1]));
    let mut hmtx = words(&[TYPED_WIDTH]);
    hmtx.resize(2 + 2 * usize::from(glyphs), 0);
    let last = PRIVATE + u32::from(u16::MAX);
    let cmap = [words(&[0, 1, 3, 10, 0, 12, 12, 0]), longs(&[28, 0, 1, PRIVATE, last, 0])].concat();
    let maxp = words(&[0, 0x5000, glyphs]);
    tables.extend([(*b"head", head), (*b"hhea", hhea), (*b"hmtx", hmtx), (*b"cmap", cmap), (*b"maxp", maxp)]);
    wrap(&tables)
}

/// The 16-bit number at a place.
pub fn word(bytes: &[u8], at: usize) -> Option<u16> {
    let bytes = bytes.get(at..at.checked_add(2)?)?;
    Some(u16::from_be_bytes([bytes[0], bytes[1]]))
}

/// The 32-bit number at a place.
pub fn long(bytes: &[u8], at: usize) -> Option<u32> {
    Some(u32::from(word(bytes, at)?) << 16 | u32::from(word(bytes, at.checked_add(2)?)?))
}
