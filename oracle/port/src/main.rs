//! The program: answers requests as the oracle does, by asking the port, or compares the answers.
use oracle::driver::confirm_default_shape;
use oracle::program::{each_line, ended, told};
use oracle::request::Request;
use oracle::text::number;
use port::ask;
use port::compare::{Agreement, agreed};
use std::env;
use std::io::{self, BufWriter, Write};
use std::process::ExitCode;

const USAGE: &str = "usage: port < requests > answers
       port compare < requests
       port compare SEED SCALE REPLAY";

fn main() -> ExitCode {
    let words: Vec<String> = env::args().skip(1).collect();
    let words: Vec<&str> = words.iter().map(String::as_str).collect();
    ended("port", run(&words))
}

/// Whether the command found all in order.
fn run(words: &[&str]) -> Result<bool, String> {
    let compared = match words {
        [] => return write_answers().map(|()| true),
        ["compare"] => compare_lines(),
        ["compare", seed, scale, program] => {
            compare_generated(number(seed)?, number(scale)?, program)
        }
        _ => return Err(USAGE.into()),
    };
    Ok(compared.unwrap_or_else(|difference| {
        println!("{difference}");
        false
    }))
}

fn write_answers() -> Result<(), String> {
    let mut out = BufWriter::new(io::stdout().lock());
    each_line(|line| {
        let answer = ask::answer(&Request::parse(line)?)?;
        writeln!(out, "{answer}").map_err(told)
    })?;
    out.flush().map_err(told)
}

fn compare_lines() -> Result<bool, String> {
    let mut requests = 0;
    each_line(|line| {
        requests += 1;
        agreed(&Request::parse(line)?).map(drop)
    })?;
    println!("{requests} requests, 0 differences");
    Ok(true)
}

fn compare_generated(seed: u64, scale: u64, program: &str) -> Result<bool, String> {
    confirm_default_shape();
    let Agreement {
        requests,
        replayed,
        table,
    } = Agreement::of_generated(seed, scale, program)?;
    println!("{table}");
    println!(
        "{replayed} scripts and shows replayed, {} requests compared",
        requests - replayed
    );
    println!("{requests} requests, 0 differences");
    Ok(table.is_sound())
}
