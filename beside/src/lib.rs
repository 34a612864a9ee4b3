//! The crate beside the proved entries. What is public here is what the programs, `programs/*.rs`, begin with; so the compiler
//! tells of all that none of them comes to.

pub mod bench;
pub mod compare;
pub mod font;
pub mod fuzz;
mod questions;
mod reference;
mod tables;
mod wire;
