//! Times the Rust, the port and a scene read by hand in C on the same inputs, the port's packets of new
//! parents, and its bit reader, and prints tables of their times. Words on the command line select rows:
//! those that hold all of them; `--once` and a number call that row once (`once.rs`).
mod agreement;
mod by_hand;
mod clock;
mod measure;
mod metadata;
mod once;
mod packets;
mod rows;
mod scenes;
mod sides;
mod table;
mod walks;
mod writer;

use std::env;
use std::process::ExitCode;
use table::TABLES;

fn main() -> ExitCode {
    let words: Vec<String> = env::args().skip(1).collect();
    if let [option, number] = words.as_slice()
        && option == "--once"
    {
        let is_row = number.parse().is_ok_and(once::call);
        return ExitCode::from(u8::from(!is_row));
    }
    let readings: usize = TABLES.iter().map(|table| table.print(&words)).sum();
    let rows = readings + packets::print(&words) + walks::print(&words);
    if rows == 0 {
        eprintln!("bench: no row holds {}", words.join(" and "));
        return ExitCode::FAILURE;
    }
    ExitCode::SUCCESS
}
