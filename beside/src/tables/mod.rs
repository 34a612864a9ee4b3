//! Tables, subtables, glyphs and names as bytes: those of the documents, all small ones, and any from a seed.

pub mod anchored;
pub mod contextual;
pub mod cuts;
pub mod insertion;
pub mod kerning;
pub mod kerning_examples;
pub mod kerx_manual;
pub mod kinds;
pub mod language;
pub mod ligature;
pub mod lines;
pub mod lookup;
pub mod mort;
pub mod morx;
pub mod noncontextual;
pub mod random;
pub mod rearrangement;
pub mod shaper_inputs;
pub mod states;
pub mod strings;
