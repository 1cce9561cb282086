//! The times of all sides on one row.
use crate::agreement::agreed;
use crate::clock::{Side, best, side};
use crate::rows::{Reading, Row};
use crate::sides::{ByHand, Port, Rust};
use oracle::answer::{Answer, Verdict};

/// What a row took, in seconds for one call.
pub struct Measured<'a> {
    pub row: &'a Row,
    pub recording: bool,
    pub answer: Answer,
    pub rust: f64,
    pub port: f64,
    /// Not a number unless it is a scene.
    pub by_hand: f64,
}

impl<'a> Measured<'a> {
    pub fn new(row: &'a Row, recording: bool) -> Self {
        let answer = agreed(row, recording);
        let times = best(&mut sides(row, recording));
        Self {
            row,
            recording,
            answer,
            rust: times[0],
            port: times[1],
            by_hand: times.get(2).copied().unwrap_or(f64::NAN),
        }
    }

    /// How the reading ends: its outcome, with the number unless it is read.
    pub fn end(&self) -> String {
        let Verdict {
            outcome, number, ..
        } = &self.answer.verdict;
        match number {
            0 => outcome.to_string(),
            _ => format!("{outcome} {number}"),
        }
    }
}

fn sides(row: &Row, recording: bool) -> Vec<Side<'_>> {
    let mut rust = Rust::new(row, recording);
    let mut port = Port::new(row, recording);
    let mut sides = vec![side(move || rust.call()), side(move || port.call())];
    if let Reading::Scene = row.reading {
        let mut by_hand = ByHand::new(row, recording);
        sides.push(side(move || by_hand.call()));
    }
    sides
}
