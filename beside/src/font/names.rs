//! The names and widths of glyphs, as a font's tables post and hmtx have them.

use crate::font::sfnt::{word, Font};

/// The names of a font's glyphs.
pub enum Names {
    /// It has none.
    None,
    /// The standard ones, in their order.
    Standard,
    /// Each glyph's.
    Own(Vec<String>),
}

impl Names {
    /// Those of a font, as far as its table post can be read.
    pub fn of(font: &Font) -> Self {
        let post = match font.table(b"post") {
            Some(post) => post,
            None => return Names::None,
        };
        match (word(post, 0), word(post, 2)) {
            (Some(1), Some(0)) => Names::Standard,
            (Some(2), Some(0)) => own(post).map_or(Names::None, Names::Own),
            _ => Names::None,
        }
    }

    /// A glyph's name; as hb-shape has it where there is none.
    pub fn name(&self, glyph: u16) -> String {
        let number = usize::from(glyph);
        let name = match self {
            Names::None => None,
            Names::Standard => STANDARD.get(number).map(|name| name.to_string()),
            Names::Own(names) => names.get(number).filter(|name| !name.is_empty()).cloned(),
        };
        name.unwrap_or_else(|| format!("gid{}", glyph))
    }

    /// Whether there are names.
    pub fn are_there(&self) -> bool {
        !matches!(self, Names::None)
    }
}

/// The names of a table of format 2: each glyph's is standard, or one of the strings behind the numbers.
fn own(post: &[u8]) -> Option<Vec<String>> {
    let count = usize::from(word(post, 32)?);
    let mut left = post.get(34 + 2 * count..)?;
    let mut strings = Vec::new();
    while let [length, rest @ ..] = left {
        let (string, behind) = match rest.get(..usize::from(*length)) {
            Some(string) => (string, &rest[string.len()..]),
            None => break,
        };
        strings.push(String::from_utf8_lossy(string).into_owned());
        left = behind;
    }
    let name = |glyph: usize| {
        let number = usize::from(word(post, 34 + 2 * glyph)?);
        let own = || strings.get(number - STANDARD.len()).cloned();
        STANDARD.get(number).map(|name| name.to_string()).or_else(own)
    };
    Some((0..count).map(|glyph| name(glyph).unwrap_or_default()).collect())
}

/// The width of a glyph, where the font tells it.
pub fn width(font: &Font, glyph: u16) -> Option<i64> {
    let count = word(font.table(b"hhea")?, 34)?;
    let last = count.checked_sub(1)?;
    word(font.table(b"hmtx")?, 4 * usize::from(glyph.min(last))).map(i64::from)
}

/// The standard names of Macintosh glyphs.
#[rustfmt::skip]
const STANDARD: [&str; 258] = [
    ".notdef", ".null", "nonmarkingreturn", "space", "exclam", "quotedbl", "numbersign", "dollar", "percent", "ampersand",
    "quotesingle", "parenleft", "parenright", "asterisk", "plus", "comma", "hyphen", "period", "slash", "zero", "one", "two",
    "three", "four", "five", "six", "seven", "eight", "nine", "colon", "semicolon", "less", "equal", "greater", "question", "at",
    "A", "B", "C", "D", "E", "F", "G", "H", "I", "J", "K", "L", "M", "N", "O", "P", "Q", "R", "S", "T", "U", "V", "W", "X", "Y",
    "Z", "bracketleft", "backslash", "bracketright", "asciicircum", "underscore", "grave", "a", "b", "c", "d", "e", "f", "g",
    "h", "i", "j", "k", "l", "m", "n", "o", "p", "q", "r", "s", "t", "u", "v", "w", "x", "y", "z", "braceleft", "bar",
    "braceright", "asciitilde", "Adieresis", "Aring", "Ccedilla", "Eacute", "Ntilde", "Odieresis", "Udieresis", "aacute",
    "agrave", "acircumflex", "adieresis", "atilde", "aring", "ccedilla", "eacute", "egrave", "ecircumflex", "edieresis",
    "iacute", "igrave", "icircumflex", "idieresis", "ntilde", "oacute", "ograve", "ocircumflex", "odieresis", "otilde",
    "uacute", "ugrave", "ucircumflex", "udieresis", "dagger", "degree", "cent", "sterling", "section", "bullet", "paragraph",
    "germandbls", "registered", "copyright", "trademark", "acute", "dieresis", "notequal", "AE", "Oslash", "infinity",
    "plusminus", "lessequal", "greaterequal", "yen", "mu", "partialdiff", "summation", "product", "pi", "integral",
    "ordfeminine", "ordmasculine", "Omega", "ae", "oslash", "questiondown", "exclamdown", "logicalnot", "radical", "florin",
    "approxequal", "Delta", "guillemotleft", "guillemotright", "ellipsis", "nonbreakingspace", "Agrave", "Atilde", "Otilde",
    "OE", "oe", "endash", "emdash", "quotedblleft", "quotedblright", "quoteleft", "quoteright", "divide", "lozenge",
    "ydieresis", "Ydieresis", "fraction", "currency", "guilsinglleft", "guilsinglright", "fi", "fl", "daggerdbl",
    "periodcentered", "quotesinglbase", "quotedblbase", "perthousand", "Acircumflex", "Ecircumflex", "Aacute", "Edieresis",
    "Egrave", "Iacute", "Icircumflex", "Idieresis", "Igrave", "Oacute", "Ocircumflex", "apple", "Ograve", "Uacute",
    "Ucircumflex", "Ugrave", "dotlessi", "circumflex", "tilde", "macron", "breve", "dotaccent", "ring", "cedilla",
    "hungarumlaut", "ogonek", "caron", "Lslash", "lslash", "Scaron", "scaron", "Zcaron", "zcaron", "brokenbar", "Eth", "eth",
    "Yacute", "yacute", "Thorn", "thorn", "minus", "multiply", "onesuperior", "twosuperior", "threesuperior", "onehalf",
    "onequarter", "threequarters", "franc", "Gbreve", "gbreve", "Idotaccent", "Scedilla", "scedilla", "Cacute", "cacute",
    "Ccaron", "ccaron", "dcroat",
];
