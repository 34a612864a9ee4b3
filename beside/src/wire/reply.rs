//! Numbers in calls and replies.

/// The number of these bytes.
pub fn number(bytes: &[u8]) -> u64 {
    bytes.iter().rev().fold(0, |number, byte| number << 8 | u64::from(*byte))
}

/// Adds numbers of 64 bits.
pub fn add(numbers: &[u64], bytes: &mut Vec<u8>) {
    bytes.extend(numbers.iter().flat_map(|number| number.to_le_bytes()));
}

/// The numbers of 64 bits that these bytes are.
pub fn numbers(bytes: &[u8]) -> Vec<u64> {
    bytes.chunks_exact(8).map(number).collect()
}

const NUMBERS_SHOWN: usize = 40;

/// How many numbers there are, and the first of them.
pub fn describe<T: ToString>(numbers: &[T]) -> String {
    let shown: Vec<String> = numbers.iter().take(NUMBERS_SHOWN).map(T::to_string).collect();
    let more = if shown.len() < numbers.len() { " .." } else { "" };
    format!("({}) {}{}", numbers.len(), shown.join(" "), more)
}
