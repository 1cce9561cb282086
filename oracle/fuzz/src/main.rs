//! The inputs of the fuzzer as request lines, and back.
use fuzz::input::{decode, encode};
use oracle::program::{each_line, ended, told};
use oracle::request::Request;
use std::collections::BTreeSet;
use std::path::Path;
use std::process::ExitCode;
use std::{env, fs};

const USAGE: &str = "usage: corpus inputs FOLDER < requests
       corpus requests FOLDER > requests";

fn main() -> ExitCode {
    let words: Vec<String> = env::args().skip(1).collect();
    let words: Vec<&str> = words.iter().map(String::as_str).collect();
    ended("corpus", run(&words).map(|()| true))
}

fn run(words: &[&str]) -> Result<(), String> {
    match words {
        ["inputs", folder] => write_inputs(Path::new(folder)),
        ["requests", folder] => write_requests(Path::new(folder)),
        _ => Err(USAGE.into()),
    }
}

/// Writes each request as a file, named by the number of its line.
fn write_inputs(folder: &Path) -> Result<(), String> {
    let mut count = 0;
    each_line(|line| {
        count += 1;
        let input = encode(&Request::parse(line)?)?;
        fs::write(folder.join(count.to_string()), input).map_err(told)
    })
}

/// Prints the requests of all files, each once and in the order of their bytes.
fn write_requests(folder: &Path) -> Result<(), String> {
    let mut requests = BTreeSet::new();
    for file in fs::read_dir(folder).map_err(told)? {
        let input = fs::read(file.map_err(told)?.path()).map_err(told)?;
        requests.insert(decode(&input).to_string());
    }
    requests.iter().for_each(|request| println!("{request}"));
    Ok(())
}
