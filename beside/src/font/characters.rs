//! The glyphs of characters, as a font's table cmap has them.

use crate::font::sfnt::{long, word, Font};

/// The subtable for Unicode, of format 4 or 12.
pub struct Characters<'a> {
    subtable: &'a [u8],
    format: u16,
}

impl<'a> Characters<'a> {
    /// Those of a font: of its subtables for Unicode the first of format 12, else the first of format 4; or why there are none.
    pub fn of(font: &Font<'a>) -> Result<Self, String> {
        let cmap =
            font.table(b"cmap").ok_or("it has no table cmap, so that its glyphs have to be told by their numbers")?;
        let count = word(cmap, 2).ok_or("its table cmap is cut short")?;
        let mut found: Vec<Self> =
            (0..usize::from(count)).filter_map(|number| Characters::listed(cmap, number)).collect();
        found.sort_by_key(|characters| characters.format != 12);
        let none = "its table cmap has no subtable for Unicode of format 4 or 12";
        found.into_iter().next().ok_or_else(|| none.into())
    }

    fn listed(cmap: &'a [u8], number: usize) -> Option<Self> {
        let record = 4 + 8 * number;
        let is_unicode = match (word(cmap, record)?, word(cmap, record + 2)?) {
            (0, encoding) => encoding != VARIATIONS,
            (platform, encoding) => platform == 3 && matches!(encoding, 1 | 10),
        };
        let subtable = cmap.get(long(cmap, record + 4)? as usize..)?;
        let format = word(subtable, 0).filter(|format| is_unicode && matches!(format, 4 | 12))?;
        Some(Characters { subtable, format })
    }

    /// The glyph of a character; none is glyph 0, too.
    pub fn glyph(&self, character: u32) -> Option<u16> {
        let glyph = if self.format == 12 { self.in_groups(character) } else { self.in_segments(character) };
        glyph.filter(|glyph| *glyph != 0)
    }

    fn in_groups(&self, character: u32) -> Option<u16> {
        for group in (0..long(self.subtable, 12)? as usize).map(|number| 16 + 12 * number) {
            let (first, last) = (long(self.subtable, group)?, long(self.subtable, group + 4)?);
            if (first..=last).contains(&character) {
                return long(self.subtable, group + 8)?.checked_add(character - first)?.try_into().ok();
            }
        }
        None
    }

    fn in_segments(&self, character: u32) -> Option<u16> {
        let character = u16::try_from(character).ok()?;
        let size = usize::from(word(self.subtable, 6)?) / 2 * 2;
        let [lasts, firsts, deltas, offsets] = [14, 16 + size, 16 + 2 * size, 16 + 3 * size];
        for segment in (0..size).step_by(2) {
            if character > word(self.subtable, lasts + segment)? {
                continue;
            }
            let place = character.checked_sub(word(self.subtable, firsts + segment)?)?;
            let delta = word(self.subtable, deltas + segment)?;
            return match word(self.subtable, offsets + segment)? {
                0 => Some(character.wrapping_add(delta)),
                offset => {
                    let at = offsets + segment + usize::from(offset) + 2 * usize::from(place);
                    Some(word(self.subtable, at)?).filter(|glyph| *glyph != 0).map(|glyph| glyph.wrapping_add(delta))
                }
            };
        }
        None
    }
}

/// The encoding of Unicode that tells variation sequences alone.
const VARIATIONS: u16 = 5;

/// The characters of a list of hexadecimal numbers as hb-shape takes it: U+0041,U+0042 or 41 42.
pub fn unicodes(list: &str) -> Result<Vec<u32>, String> {
    let words = list.split(|letter: char| matches!(letter, ',' | ';') || letter.is_whitespace());
    let number = |word: &str| {
        let digits = PREFIXES.iter().find_map(|prefix| word.strip_prefix(prefix)).unwrap_or(word);
        let number = u32::from_str_radix(digits, 16).ok().filter(|number| *number <= LAST);
        number.ok_or_else(|| format!("{} is no character's number, as U+0041", word))
    };
    words.filter(|word| !word.is_empty()).map(number).collect()
}

const PREFIXES: [&str; 6] = ["U+", "u+", "0x", "0X", "\\u", "uni"];

/// The last of Unicode's numbers.
const LAST: u32 = 0x10_FFFF;

/// Whether text begins with a letter that is written from right to left, before any from left to right.
pub fn runs_to_left(text: &[u32]) -> bool {
    let is_leftward = |character: &u32| LEFTWARD.iter().any(|range| range.contains(character));
    let is_letter = |character: &u32| char::from_u32(*character).map_or(false, char::is_alphabetic);
    text.iter().find(|character| is_leftward(character) || is_letter(character)).map_or(false, is_leftward)
}

/// The blocks of scripts that are written from right to left.
const LEFTWARD: [std::ops::RangeInclusive<u32>; 5] =
    [0x590..=0x8FF, 0xFB1D..=0xFDFF, 0xFE70..=0xFEFF, 0x10800..=0x10FFF, 0x1E800..=0x1EFFF];
