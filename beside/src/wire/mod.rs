//! The box's pipe: the entries' numbers, calls and replies, and how lines are lent on it.

pub mod along;
pub mod entries;
pub mod hex;
pub mod index;
pub mod line;
pub mod marks;
pub mod pipe;
pub mod reply;
