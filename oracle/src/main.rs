//! The program: its commands, each from standard input to standard output.
use oracle::driver::{answer, confirm_default_shape};
use oracle::listing::Folder;
use oracle::program::{each_line, ended, told};
use oracle::request::Request;
use oracle::table::Table;
use oracle::{compare, generate, record, text};
use std::env;
use std::io::{self, BufWriter, Write};
use std::process::ExitCode;

const USAGE: &str = "usage: oracle generate SEED SCALE > requests
       oracle answer < requests > answers
       oracle compare ANSWERS ANSWERS
       oracle table < answers
       oracle sample SEED > requests
       oracle record < requests > records
       oracle listings DIR < requests";

fn main() -> ExitCode {
    let words: Vec<String> = env::args().skip(1).collect();
    let words: Vec<&str> = words.iter().map(String::as_str).collect();
    ended("oracle", run(&words))
}

/// Whether the command found all in order.
fn run(words: &[&str]) -> Result<bool, String> {
    let mut out = BufWriter::new(io::stdout().lock());
    let good = match words {
        ["generate", seed, scale] => {
            confirm_default_shape();
            let (seed, scale) = (text::number(seed)?, text::number(scale)?);
            write_requests(generate::generate(seed, scale), &mut out)?;
            true
        }
        ["sample", seed] => {
            write_requests(generate::sample(text::number(seed)?), &mut out)?;
            true
        }
        ["answer"] => {
            each_line(|line| write_answer(line, &mut out))?;
            true
        }
        ["record"] => {
            each_line(|line| write_record(line, &mut out))?;
            true
        }
        ["listings", folder] => {
            write_listings(folder, &mut out)?;
            true
        }
        ["table"] => write_table(&mut out)?,
        ["compare", a, b] => write_comparison(a, b, &mut out)?,
        _ => return Err(USAGE.into()),
    };
    out.flush().map_err(told)?;
    Ok(good)
}

fn write_requests(
    parts: impl Iterator<Item = Vec<Request>>,
    out: &mut impl Write,
) -> Result<(), String> {
    let mut requests = parts.flatten();
    requests.try_for_each(|request| writeln!(out, "{request}").map_err(told))
}

fn write_answer(line: &str, out: &mut impl Write) -> Result<(), String> {
    let answer = answer(&Request::parse(line)?);
    writeln!(out, "{answer}").map_err(told)
}

fn write_record(line: &str, out: &mut impl Write) -> Result<(), String> {
    let record = record::record(&Request::parse(line)?)?;
    out.write_all(&record).map_err(told)
}

fn write_listings(folder: &str, out: &mut impl Write) -> Result<(), String> {
    let mut folder = Folder::new(folder);
    each_line(|line| folder.add(&Request::parse(line)?))?;
    writeln!(out, "{} cases", folder.count()).map_err(told)
}

fn write_table(out: &mut impl Write) -> Result<bool, String> {
    confirm_default_shape();
    let mut table = Table::default();
    each_line(|line| table.count_line(line))?;
    writeln!(out, "{table}").map_err(told)?;
    writeln!(out, "PositionSyntax::default() is all false and 0").map_err(told)?;
    Ok(table.is_sound())
}

fn write_comparison(a: &str, b: &str, out: &mut impl Write) -> Result<bool, String> {
    let compared = compare::compare(a, b).map_err(told)?;
    let text = match &compared {
        Ok(lines) => format!("{lines} answers, 0 differences"),
        Err(difference) => {
            let [left, right] = difference.sides.each_ref().map(|side| match side {
                Some(line) => line.as_str(),
                None => "(no such line)",
            });
            format!("line {} differs\n{left}\n{right}", difference.line)
        }
    };
    writeln!(out, "{text}").map_err(told)?;
    Ok(compared.is_ok())
}
