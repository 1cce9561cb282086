//! What the programs have in common: the lines of standard input, and how a program ends.
use std::io::{self, BufRead};
use std::process::ExitCode;

/// 0 if all was in order, 1 if not, 2 with a message if the program could not go on.
pub fn ended(name: &str, run: Result<bool, String>) -> ExitCode {
    match run {
        Ok(true) => ExitCode::SUCCESS,
        Ok(false) => ExitCode::from(1),
        Err(message) => {
            eprintln!("{name}: {message}");
            ExitCode::from(2)
        }
    }
}

pub fn told(error: io::Error) -> String {
    error.to_string()
}

/// Hands on each line of standard input; an error is told with its line.
pub fn each_line(mut take: impl FnMut(&str) -> Result<(), String>) -> Result<(), String> {
    for (i, line) in io::stdin().lock().lines().enumerate() {
        let taken = line.map_err(told).and_then(|line| take(&line));
        taken.map_err(|message| format!("line {}: {message}", i + 1))?;
    }
    Ok(())
}
