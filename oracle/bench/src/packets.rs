//! Packets that give new parents. The Rust writes none, so beside the writing of a packet stands what
//! comes after it: the port's update that reads the packet.
use crate::clock::{best, side};
use crate::scenes::{chain, tree, turned};
use crate::table::{digits, holds, print_cells, print_head};
use gateway::{MAX_POSITIONS, Outcome, PositionSyntax, graph_update, write_parents};
use oracle::request::{Request, Shape};
use port::compare::agreed;
use port::library::lent;
use std::hint::black_box;

const TITLE: &str = "New parents of 63 positions";

const COLUMNS: [&str; 6] = [
    "input",
    "bits",
    "bytes",
    "written by the port, µs",
    "read by its update, µs",
    "written / read",
];

/// The parents of 63 positions, before and after.
struct Row {
    what: &'static str,
    old: fn(usize) -> usize,
    new: fn(usize) -> usize,
}

const ROWS: [Row; 3] = [
    Row {
        what: "none changed",
        old: tree,
        new: tree,
    },
    Row {
        what: "one changed",
        old: tree,
        new: |position| if position == 40 { 1 } else { tree(position) },
    },
    Row {
        what: "all changed",
        old: chain,
        new: turned,
    },
];

/// Measures and prints the rows that hold all these words, and gives their number.
pub fn print(words: &[String]) -> usize {
    let is_selected = |row: &&Row| holds(&format!("{TITLE} {}", row.what), words);
    let selected: Vec<&Row> = ROWS.iter().filter(is_selected).collect();
    if !selected.is_empty() {
        print_head(TITLE, &COLUMNS);
    }
    selected.iter().for_each(|row| print_cells(&row.cells()));
    selected.len()
}

impl Row {
    /// Parents and ranges can change, as those of the scenes.
    fn shapes(&self) -> Vec<Shape> {
        let shape = |position| Shape {
            parent_dynamic: true,
            range_dynamic: true,
            position_precision: 12,
            rotation_precision: 8,
            parent: (self.old)(position),
            polar: position.is_multiple_of(3),
        };
        (1..=MAX_POSITIONS).map(shape).collect()
    }

    fn cells(&self) -> Vec<String> {
        let shapes = self.shapes();
        let parents: Vec<usize> = (1..=MAX_POSITIONS).map(self.new).collect();
        let request = Request::Parents {
            shapes: shapes.clone(),
            parents: parents.clone(),
            room: 128,
        };
        let answer = agreed(&request).expect("the same answer");
        let shapes = lent(&shapes);
        let times = times(&shapes, &parents, &answer.packet);
        vec![
            self.what.into(),
            answer.count.to_string(),
            answer.packet.len().to_string(),
            digits(1e6 * times[0]),
            digits(1e6 * times[1]),
            digits(times[0] / times[1]),
        ]
    }
}

/// Of writing the packet, and of the update that reads it: from its second call on the shapes already
/// have the new parents.
fn times(shapes: &[PositionSyntax], parents: &[usize], packet: &[u8]) -> Vec<f64> {
    let mut written = vec![0; packet.len()];
    let write = side(move || {
        let (answer, _) = write_parents(black_box(shapes), black_box(parents), &mut written);
        assert_eq!(answer.outcome, Outcome::Read);
    });
    let mut shapes = shapes.to_vec();
    let read = side(move || {
        let answer = graph_update(black_box(packet), 0, false, &mut [], &mut shapes);
        assert_eq!(answer.outcome, Outcome::Read);
    });
    best(&mut [write, read])
}
