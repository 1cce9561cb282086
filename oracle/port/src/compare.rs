//! The Rust and the port, asked the same.
use crate::ask;
use crate::replay::Replay;
use oracle::answer::Answer;
use oracle::request::Request;
use oracle::table::Table;
use oracle::{driver, generate};
use std::sync::mpsc;
use std::thread;

/// How many parts are made before they are compared, at most.
const AHEAD: usize = 8;

/// The answer that both give, or a text that tells the request and what each gives.
pub fn agreed(request: &Request) -> Result<Answer, String> {
    let by_the_rust = driver::answer(request);
    let difference = match ask::answer(request) {
        Ok(by_the_port) if by_the_port == by_the_rust => return Ok(by_the_rust),
        Ok(by_the_port) => difference(&by_the_rust, &by_the_port),
        Err(message) => format!("by the Rust: {by_the_rust}\nby the port: {message}"),
    };
    Err(format!("{request}\n{difference}"))
}

/// Both answers; of lists those to the first packet in which they differ.
fn difference(by_the_rust: &Answer, by_the_port: &Answer) -> String {
    let mut packets = by_the_rust.packets.iter().zip(&by_the_port.packets);
    let pair = packets.find(|(rust, port)| rust != port);
    let (rust, port) = pair.unwrap_or((by_the_rust, by_the_port));
    format!("by the Rust: {rust}\nby the port: {port}")
}

/// Requests to which the Rust and the port gave the same answers.
#[derive(Default)]
pub struct Agreement {
    pub requests: usize,
    /// Those of them that were replayed by the program.
    pub replayed: usize,
    pub table: Table,
}

impl Agreement {
    /// One thread makes the requests that `generate` gives, the other compares them in their order.
    /// The program of this path replays scripts and shows.
    pub fn of_generated(seed: u64, scale: u64, program: &str) -> Result<Self, String> {
        let mut agreement = Self::default();
        let mut replay = Replay::start(program)?;
        thread::scope(|scope| {
            let (sender, parts) = mpsc::sync_channel(AHEAD);
            let mut made = generate::generate(seed, scale);
            scope.spawn(move || made.try_for_each(|part| sender.send(part)));
            let mut requests = parts.into_iter().flatten();
            requests.try_for_each(|request| agreement.add(&request, &mut replay))
        })?;
        agreement.replayed = replay.end()?;
        Ok(agreement)
    }

    /// The library has no scripts and no shows.
    fn add(&mut self, request: &Request, replay: &mut Replay) -> Result<(), String> {
        let answer = match request.kind() {
            "fields" | "show" => replay.take(request)?,
            _ => agreed(request)?,
        };
        self.requests += 1;
        self.table.count(&answer)
    }
}

#[cfg(test)]
mod tests {
    use super::*;
    use oracle::answer::Verdict;

    fn refused(number: u8) -> Answer {
        Answer::bare("update", Verdict::refused(number, 7), &[])
    }

    const TOLD: &str = "by the Rust: update refused 8 7 0 0 0 - -
by the port: update refused 9 7 0 0 0 - -";

    #[test]
    fn differences_are_told() {
        assert_eq!(difference(&refused(8), &refused(9)), TOLD);
        let list = |numbers: [u8; 3]| Answer::of_list(numbers.map(refused).to_vec());
        assert_eq!(difference(&list([3, 8, 3]), &list([3, 9, 9])), TOLD);
    }

    #[test]
    fn shows_are_not_asked_of_the_library() {
        let request = Request::parse("show 00").expect("a request");
        let told = "show 00
by the Rust: show refused 24 0 16 - 0 - file refused 24/
by the port: the library has no shows";
        assert_eq!(agreed(&request), Err(told.into()));
    }
}
