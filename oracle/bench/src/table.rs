//! Tables of measured rows, in Markdown.
use crate::measure::Measured;
use crate::rows::{self, Row};

pub struct Table {
    title: &'static str,
    rows: fn() -> Vec<Row>,
    columns: &'static [Column],
}

struct Column {
    title: &'static str,
    cell: fn(&Measured<'_>) -> String,
}

pub const TABLES: [Table; 6] = [
    Table {
        title: "Scenes",
        rows: rows::scenes,
        columns: &[
            INPUT, BYTES, POSITIONS, FIELDS, END, RECORDING, RUST, PORT, TO_RUST, BY_HAND, TO_HAND,
        ],
    },
    Table {
        title: "Updates",
        rows: rows::updates,
        columns: &[
            INPUT, BYTES, POSITIONS, FIELDS, END, RECORDING, RUST, PORT, TO_RUST,
        ],
    },
    Table {
        title: "Metadata",
        rows: rows::metadata,
        columns: &[INPUT, BYTES, FIELDS, END, RECORDING, RUST, PORT, TO_RUST],
    },
    Table {
        title: "Growth of scenes, for each position",
        rows: rows::growing_scenes,
        columns: &[
            POSITIONS, FIELDS, BYTES, RECORDING, RUST, PORT, BY_HAND, RUST_EACH, PORT_EACH,
            HAND_EACH,
        ],
    },
    Table {
        title: "Growth of metadata, for each field",
        rows: rows::growing_fields,
        columns: &[FIELDS, BYTES, RECORDING, RUST, PORT, RUST_EACH, PORT_EACH],
    },
    Table {
        title: "Growth of metadata, for each KiB of payloads",
        rows: rows::growing_payloads,
        columns: &[BYTES, FIELDS, RECORDING, RUST, PORT, RUST_EACH, PORT_EACH],
    },
];

macro_rules! columns {
    ($($name:ident: $title:literal, $cell:expr;)+) => {
        $(const $name: Column = Column { title: $title, cell: $cell };)+
    };
}

columns! {
    INPUT: "input", |m| m.row.what.clone();
    BYTES: "bytes", |m| grouped(m.row.bytes.len());
    POSITIONS: "positions", |m| m.row.positions().to_string();
    FIELDS: "fields", |m| grouped(m.answer.count);
    END: "end", |m| m.end();
    RECORDING: "recording", |m| on_or_off(m.recording).into();
    RUST: "Rust, µs", |m| digits(1e6 * m.rust);
    PORT: "port, µs", |m| digits(1e6 * m.port);
    BY_HAND: "C, µs", |m| digits(1e6 * m.by_hand);
    TO_RUST: "port / Rust", |m| digits(m.port / m.rust);
    TO_HAND: "port / C", |m| digits(m.port / m.by_hand);
    RUST_EACH: "Rust, ns each", |m| digits(1e9 * m.rust / m.row.units);
    PORT_EACH: "port, ns each", |m| digits(1e9 * m.port / m.row.units);
    HAND_EACH: "C, ns each", |m| digits(1e9 * m.by_hand / m.row.units);
}

impl Table {
    /// Measures and prints the rows that hold all these words, each with recording off and on, and
    /// gives their number.
    pub fn print(&self, words: &[String]) -> usize {
        let rows = (self.rows)();
        let both = rows.iter().flat_map(|row| [(row, false), (row, true)]);
        let is_selected = |&(row, recording): &_| self.holds(row, recording, words);
        let selected: Vec<(&Row, bool)> = both.filter(is_selected).collect();
        if !selected.is_empty() {
            let titles: Vec<&str> = self.columns.iter().map(|column| column.title).collect();
            print_head(self.title, &titles);
        }
        for &(row, recording) in &selected {
            self.print_line(&Measured::new(row, recording));
        }
        selected.len()
    }

    fn holds(&self, row: &Row, recording: bool, words: &[String]) -> bool {
        let recording = on_or_off(recording);
        let text = format!("{} {} recording {recording}", self.title, row.what);
        holds(&text, words)
    }

    fn print_line(&self, measured: &Measured<'_>) {
        let cells = self.columns.iter().map(|column| (column.cell)(measured));
        let cells: Vec<String> = cells.collect();
        print_cells(&cells);
    }
}

/// Whether a text holds all words, whatever their case.
pub fn holds(text: &str, words: &[String]) -> bool {
    let text = text.to_lowercase();
    words.iter().all(|word| text.contains(&word.to_lowercase()))
}

/// The titles of a table and of its columns.
pub fn print_head(title: &str, titles: &[&str]) {
    println!("\n### {title}\n");
    println!("| {} |", titles.join(" | "));
    println!("|---|{}", "---:|".repeat(titles.len() - 1));
}

pub fn print_cells(cells: &[String]) {
    println!("| {} |", cells.join(" | "));
}

fn on_or_off(recording: bool) -> &'static str {
    if recording { "on" } else { "off" }
}

/// A positive number with three significant digits, or all before its point.
pub fn digits(value: f64) -> String {
    match 2.0 - value.log10().floor() {
        decimals if decimals > 0.0 => format!("{value:.*}", decimals as usize),
        _ => grouped(value.round() as usize),
    }
}

/// A number, its thousands parted by commas.
pub fn grouped(number: usize) -> String {
    match number {
        0..1_000 => number.to_string(),
        _ => format!("{},{:03}", grouped(number / 1_000), number % 1_000),
    }
}

#[cfg(test)]
mod tests {
    use super::*;

    #[test]
    fn three_significant_digits() {
        for (value, text) in [
            (0.000_203_4, "0.000203"),
            (0.25, "0.250"),
            (1.0, "1.00"),
            (20.06, "20.1"),
            (999.4, "999"),
            (67_467.8, "67,468"),
        ] {
            assert_eq!(digits(value), text);
        }
    }

    #[test]
    fn thousands_are_parted() {
        assert_eq!(grouped(999), "999");
        assert_eq!(grouped(8_388_608), "8,388,608");
        assert_eq!(grouped(16_004), "16,004");
    }
}
