//! Stand-in: types of frames, which no configuration holds, and the table of sample rates.

/// Values of frames that `record.rs` can carry. None is ever made.
#[derive(Debug, Clone, PartialEq)]
pub struct TnsChannel;
#[derive(Debug, Clone, PartialEq)]
pub struct Bwe2Data;
#[derive(Debug, Clone, PartialEq)]
pub struct ElementBwe2Data;

pub mod sfb {
    pub fn index(_hz: u64) -> Option<usize> {
        unimplemented!("sample rates are out of scope")
    }
}
