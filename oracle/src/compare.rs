//! Compares two files of answers line by line.
use std::fs::File;
use std::io::{self, BufRead, BufReader};

/// The first line that differs, `None` standing for a line that a file lacks.
pub struct Difference {
    pub line: usize,
    pub sides: [Option<String>; 2],
}

/// How many lines agree, or where the files part ways.
pub fn compare(a: &str, b: &str) -> io::Result<Result<usize, Difference>> {
    let mut a = BufReader::new(File::open(a)?).lines();
    let mut b = BufReader::new(File::open(b)?).lines();
    for line in 1.. {
        let sides = [a.next().transpose()?, b.next().transpose()?];
        if sides[0] != sides[1] {
            return Ok(Err(Difference { line, sides }));
        }
        if sides[0].is_none() {
            return Ok(Ok(line - 1));
        }
    }
    unreachable!("lines are counted without end")
}
