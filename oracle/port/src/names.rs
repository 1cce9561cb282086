//! Name words put to the library, and the texts that it writes.
use crate::buffer::Buffer;
use crate::library::Answered;
use gateway::{MAX_NAME, Outcome, name_text};
use oracle::answer::Answer;

pub fn answer(word: u64, room: usize) -> Result<Answer, String> {
    let mut bytes = Buffer::blank(room);
    let (answer, text) = name_text(word, bytes.lent());
    let text = (answer.outcome == Outcome::Read).then(|| text.into());
    bytes.written(answer.counted)?;
    let verdict = Answered::from(answer).verdict()?;
    Ok(Answer::of_text("name", verdict, answer.counted, text))
}

/// The text of a recorded word.
pub fn text(word: u64) -> Result<String, String> {
    let answer = answer(word, MAX_NAME)?;
    let number = answer.verdict.number;
    let missing = || format!("the recorded word {word} has no text, but number {number}");
    answer.text.ok_or_else(missing)
}
