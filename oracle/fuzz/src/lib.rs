//! What a coverage-guided fuzzer needs to compare the original Rust and the port: its inputs as
//! requests and back, and a caller whose memory faults where the port may not touch it.
pub mod caller;
pub mod input;
mod pages;
