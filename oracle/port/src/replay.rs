//! The program that replays records. It is asked for scripts and shows, which the library doesn't have.
use oracle::answer::Answer;
use oracle::driver;
use oracle::program::told;
use oracle::record::record_with;
use oracle::request::Request;
use std::io::{BufWriter, Write};
use std::process::{Child, ChildStdin, Command, Stdio};

pub struct Replay {
    program: Child,
    input: BufWriter<ChildStdin>,
    records: usize,
}

impl Replay {
    pub fn start(path: &str) -> Result<Self, String> {
        let mut command = Command::new(path);
        command.stdin(Stdio::piped()).stdout(Stdio::piped());
        let mut program = command.spawn().map_err(|e| format!("{path}: {e}"))?;
        let input = program.stdin.take().expect("a pipe to the program");
        Ok(Self {
            program,
            input: BufWriter::new(input),
            records: 0,
        })
    }

    /// The answer of the Rust, handed on to be replayed.
    pub fn take(&mut self, request: &Request) -> Result<Answer, String> {
        let answer = driver::answer(request);
        let record = record_with(request, &answer)?;
        self.input.write_all(&record).map_err(told)?;
        self.records += 1;
        Ok(answer)
    }

    /// How many answers were replayed. None may be wrong.
    pub fn end(mut self) -> Result<usize, String> {
        self.input.flush().map_err(told)?;
        drop(self.input);
        let output = self.program.wait_with_output().map_err(told)?;
        let said = String::from_utf8_lossy(&output.stdout);
        if said == format!("{} replayed, 0 wrong\n", self.records) {
            Ok(self.records)
        } else {
            Err(format!("of {} records: {}", self.records, said.trim_end()))
        }
    }
}

#[cfg(test)]
mod tests {
    use super::*;

    #[test]
    fn programs_that_say_something_else() {
        assert!(Replay::start("a/missing/program").is_err());
        let silent = Replay::start("true").expect("a program");
        assert_eq!(silent.end(), Err("of 0 records: ".into()));
    }
}
