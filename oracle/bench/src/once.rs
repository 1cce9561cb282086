//! A single call of a row, of which callgrind counts the instructions: `count.sh`.
use crate::rows::{self, Reading, Row};
use crate::sides::{ByHand, Port};
use std::hint::black_box;

/// Calls the port on the row of this number, and C if it is a scene, and prints the function called, the
/// input, the fields and whether they are recorded. The rows are those of the tables of scenes, updates
/// and metadata, each with recording off and on. False if there are not so many.
pub fn call(number: usize) -> bool {
    let Some(row) = row(number / 2) else {
        return false;
    };
    let recording = number % 2 == 1;
    let fields = Port::new(&row, recording).call().counted;
    if let Reading::Scene = row.reading {
        black_box(ByHand::new(&row, recording).call());
    }
    println!("{}|{}|{fields}|{recording}", function(&row), row.what);
    true
}

/// A table is made only if no one before it has the row: some inputs take long to be written.
fn row(mut number: usize) -> Option<Row> {
    for table in [rows::scenes, rows::updates, rows::metadata] {
        let mut rows = table();
        if number < rows.len() {
            return Some(rows.swap_remove(number));
        }
        number -= rows.len();
    }
    None
}

fn function(row: &Row) -> &'static str {
    match row.reading {
        Reading::Scene => "gateway_scene",
        Reading::Update { .. } => "gateway_update",
        Reading::Metadata => "gateway_metadata",
    }
}
