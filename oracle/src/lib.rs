//! The oracle: the original Rust, asked in the words of document 01.
//!
//! It is a library, so that the program `port` shares its requests, answers and text lines.
pub mod answer;
pub mod bits;
pub mod compare;
pub mod driver;
pub mod generate;
mod label;
pub mod listing;
pub mod names;
mod parents;
pub mod program;
mod ranks;
pub mod record;
pub mod request;
mod rng;
mod script;
mod show;
pub mod table;
#[cfg(test)]
mod tests;
pub mod text;
