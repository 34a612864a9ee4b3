//! Bytes in hex.

/// The bytes that a text of hex digits stands for, with white space anywhere; None where it is none.
pub fn parse(text: &str) -> Option<Vec<u8>> {
    let digits = text.chars().filter(|letter| !letter.is_whitespace());
    let digits: Vec<u32> = digits.map(|digit| digit.to_digit(16)).collect::<Option<_>>()?;
    let are_pairs = digits.len() % 2 == 0;
    are_pairs.then(|| digits.chunks(2).map(|pair| (pair[0] << 4 | pair[1]) as u8).collect())
}

/// The same of a text that is in hex.
pub fn bytes(text: &str) -> Vec<u8> {
    parse(text).expect("bytes in hex")
}

/// The digits of bytes.
pub fn digits(bytes: &[u8]) -> String {
    bytes.iter().map(|byte| format!("{:02x}", byte)).collect()
}

const BYTES_SHOWN: usize = 200;

/// How many bytes there are, and the first of them.
pub fn describe(bytes: &[u8]) -> String {
    let shown = &bytes[..bytes.len().min(BYTES_SHOWN)];
    let more = if shown.len() < bytes.len() { ".." } else { "" };
    format!("{} bytes: {}{}", bytes.len(), digits(shown), more)
}
