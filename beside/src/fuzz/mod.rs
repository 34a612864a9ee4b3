//! Coverage-guided questions: any bytes choose a call of an exported entry and all that it is lent, and the crate and the box
//! answer it.

pub(crate) mod case;
pub(crate) mod seeds;
pub(crate) mod source;

pub use crate::reference::oracle::quiet_crate;

use crate::tables::random::Random;
use crate::wire::entries::ENTRIES;
use case::Case;

/// The call that these bytes choose, put to both sides; what is to be said where they differ.
pub fn difference(bytes: &[u8], reply_of_box: fn(Vec<u8>) -> Vec<u8>) -> Option<String> {
    let case = Case::of(bytes);
    if case.is_long() {
        return None;
    }
    let given = reply_of_box(case.call());
    match case.reply() {
        Ok(right) if right == given => None,
        Ok(right) => {
            let [right, given] = [right, given].map(|reply| case.describe_reply(&reply));
            Some(format!("difference: {}\n  right: {}\n  box:   {}", case.describe(), right, given))
        }
        Err(fault) => Some(format!("difference: {}\n  {}", case.describe(), fault.describe())),
    }
}

const SEEDS_PER_ENTRY: usize = 60;

/// Writes what to begin with into a directory.
pub fn write_seeds(directory: &str) -> std::io::Result<()> {
    let random = &mut Random::new(1);
    let entries = ENTRIES.iter().flat_map(|entry| vec![entry.0; SEEDS_PER_ENTRY]);
    let seeds = entries.map(|entry| seeds::seed(random, entry));
    for (number, seed) in seeds.chain(seeds::known()).enumerate() {
        std::fs::write(format!("{}/{}", directory, number), seed)?;
    }
    Ok(())
}
