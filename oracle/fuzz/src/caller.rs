//! The library asked again, in memory that faults beside all that is lent.
use crate::input::{GREATEST_ROOM, GREATEST_SHAPES};
use crate::pages::{Access, Lent, Pages, Side};
use gateway::raw::{self, GatewayAnswer, GatewayGraphAnswer, GatewayScene};
use gateway::{MAX_POSITIONS, PositionSyntax};
use oracle::answer::{Answer, Field, Outcome};
use oracle::names;
use oracle::request::{Call, List, Question, Request, Shape};
use port::library::lent;
use std::iter;

/// The most bytes that are lent. The fuzzer's inputs are shorter (run.sh).
const GREATEST_BYTES: usize = 8_192;

/// What lent words and bytes hold until they are written.
const BLANK_WORD: u64 = 0xa5a5_a5a5_a5a5_a5a5;
const BLANK_BYTE: u8 = 0xa5;

/// The memory that is lent, call after call.
pub struct Caller {
    bytes: Pages,
    words: Pages,
    shapes: Pages,
    parents: Pages,
}

impl Default for Caller {
    fn default() -> Self {
        let words = GREATEST_ROOM as usize * size_of::<u64>();
        let shapes = GREATEST_SHAPES as usize * size_of::<PositionSyntax>();
        let parents = GREATEST_SHAPES as usize * size_of::<usize>();
        Self {
            bytes: Pages::new("bytes", GREATEST_BYTES),
            words: Pages::new("words", words),
            shapes: Pages::new("shapes", shapes),
            parents: Pages::new("new parents", parents),
        }
    }
}

impl Caller {
    /// Asks the library with faulting pages before, and then behind, all that is lent. What it gives
    /// and what it leaves there must be as the answer tells.
    pub fn confirm(&mut self, request: &Request, answer: &Answer) -> Result<(), String> {
        let sides = [Side::Before, Side::Behind];
        sides.into_iter().try_for_each(|side| match request {
            Request::Call(call) => self.call(side, call, answer),
            Request::List(list) => self.list(side, list, answer),
            Request::Validation { at, shapes } => self.validation(side, *at, shapes, answer),
            Request::Parents {
                shapes,
                parents,
                room,
            } => self.parents(side, shapes, parents, *room as usize, answer),
            Request::Name { word, room } => self.name(side, *word, *room as usize, answer),
            Request::Show { .. } => Err("the library has no shows".into()),
        })
    }

    fn list(&mut self, side: Side, list: &List, answer: &Answer) -> Result<(), String> {
        let packets = iter::once(&list.scene).chain(&list.updates);
        let mut question = Question::Scene;
        for (packet, answer) in packets.zip(&answer.packets) {
            self.call(side, &list.call(question, packet), answer)?;
            question = Question::Update(answer.shapes.clone());
        }
        Ok(())
    }

    fn call(&mut self, side: Side, call: &Call, answer: &Answer) -> Result<(), String> {
        let access = if call.recording {
            Access::Writing
        } else {
            Access::Nothing
        };
        let blank = words(&[], call.room as usize)?;
        let shapes = lent(call.question.shapes());
        let memory = Memory {
            bytes: self.bytes.lend(side, &call.bytes, Access::Reading),
            words: self.words.lend(side, &blank, access),
            shapes: self.shapes.lend(side, &shapes, Access::Writing),
        };
        must_be(memory.read(call, answer)?, answer)?;
        memory.must_hold(call, answer)
    }

    fn validation(
        &mut self,
        side: Side,
        at: u64,
        shapes: &[Shape],
        answer: &Answer,
    ) -> Result<(), String> {
        let shapes = lent(shapes);
        let memory = self.shapes.lend(side, &shapes, Access::Reading);
        // SAFETY: as for a reading.
        let given = unsafe { raw::gateway_validation(memory.as_ptr(), memory.len(), at as usize) };
        must_be(given.into(), answer)?;
        memory.must_hold(&shapes)
    }

    fn parents(
        &mut self,
        side: Side,
        shapes: &[Shape],
        parents: &[usize],
        room: usize,
        answer: &Answer,
    ) -> Result<(), String> {
        let mut packet = vec![BLANK_BYTE; room];
        let shapes = lent(shapes);
        let lent_shapes = self.shapes.lend(side, &shapes, Access::Reading);
        let lent_parents = self.parents.lend(side, parents, Access::Reading);
        let memory = self.bytes.lend(side, &packet, Access::Writing);
        // SAFETY: as for a reading.
        let given = unsafe {
            raw::gateway_parents(
                lent_shapes.as_ptr(),
                lent_shapes.len(),
                lent_parents.as_ptr(),
                lent_parents.len(),
                memory.as_ptr(),
                memory.len(),
            )
        };
        must_be(given.into(), answer)?;
        lent_shapes.must_hold(&shapes)?;
        lent_parents.must_hold(parents)?;
        packet[..answer.packet.len()].copy_from_slice(&answer.packet);
        memory.must_hold(&packet)
    }

    fn name(&mut self, side: Side, word: u64, room: usize, answer: &Answer) -> Result<(), String> {
        let mut text = vec![BLANK_BYTE; room];
        let memory = self.bytes.lend(side, &text, Access::Writing);
        // SAFETY: as for a reading.
        let given = unsafe { raw::gateway_name(word, memory.as_ptr(), memory.len()) };
        must_be(given.into(), answer)?;
        let written = answer.text.as_deref().unwrap_or_default();
        text[..written.len()].copy_from_slice(written.as_bytes());
        memory.must_hold(&text)
    }
}

/// What a reading is lent.
struct Memory<'p> {
    bytes: Lent<'p, u8>,
    words: Lent<'p, u64>,
    shapes: Lent<'p, PositionSyntax>,
}

impl Memory<'_> {
    fn read(&self, call: &Call, answer: &Answer) -> Result<Given, String> {
        let (bytes, words, shapes) = (&self.bytes, &self.words, &self.shapes);
        /// Calls a reading with what every reading takes, and what this one takes more.
        macro_rules! reading {
            ($function:ident $(, $more:expr)*) => {
                // SAFETY: all is lent with its length, aligned, and in pages of its own. The call may
                // do with it what `gateway.h` tells. If it does more, that is a fault, as it must be.
                unsafe {
                    raw::$function(
                        bytes.as_ptr(),
                        bytes.len(),
                        call.offset as usize,
                        call.recording,
                        words.as_ptr(),
                        words.len()
                        $(, $more)*
                    )
                }
            };
        }
        match &call.question {
            Question::Scene => declared(reading!(gateway_scene), &answer.shapes),
            Question::Metadata => Ok(reading!(gateway_metadata).into()),
            Question::Update(_) => {
                Ok(reading!(gateway_update, shapes.as_ptr(), shapes.len()).into())
            }
            Question::Position { full, .. } => {
                Ok(reading!(gateway_position, shapes.as_ptr(), *full).into())
            }
            Question::Fields(_) => Err("the library has no fields".into()),
        }
    }

    fn must_hold(self, call: &Call, answer: &Answer) -> Result<(), String> {
        let shapes = match call.question {
            Question::Scene => Vec::new(),
            _ => lent(&answer.shapes),
        };
        self.bytes.must_hold(&call.bytes)?;
        let words = words(&answer.fields, call.room as usize)?;
        self.words.must_hold(&words)?;
        self.shapes.must_hold(&shapes)
    }
}

/// The words of the fields, and blank ones up to the room.
fn words(fields: &[Field], room: usize) -> Result<Vec<u64>, String> {
    let mut words = Vec::with_capacity(room);
    for field in fields {
        let name = names::word(&field.name)?;
        words.extend([
            field.offset,
            field.length,
            field.kind.into(),
            field.value,
            name,
        ]);
    }
    words.resize(room, BLANK_WORD);
    Ok(words)
}

/// The answer of a scene, whose shapes must be these and then the default.
fn declared(scene: GatewayScene, shapes: &[Shape]) -> Result<Given, String> {
    let mut all = lent(shapes);
    all.resize(MAX_POSITIONS, PositionSyntax::default());
    if scene.count == shapes.len() && scene.shapes[..] == all {
        Ok(scene.answer.into())
    } else {
        Err("other shapes of a scene".into())
    }
}

/// Outcome, number, position and count of what was answered, and the largest rank if there is one.
#[derive(Debug, PartialEq)]
struct Given([u64; 4], Option<usize>);

impl From<GatewayAnswer> for Given {
    fn from(answer: GatewayAnswer) -> Self {
        let (position, counted) = (answer.position as u64, answer.counted as u64);
        Self([answer.outcome, answer.number, position, counted], None)
    }
}

impl From<GatewayGraphAnswer> for Given {
    fn from(answer: GatewayGraphAnswer) -> Self {
        let (position, counted) = (answer.position as u64, answer.counted as u64);
        let numbers = [answer.outcome, answer.number, position, counted];
        Self(numbers, Some(answer.deepest))
    }
}

fn must_be(given: Given, answer: &Answer) -> Result<(), String> {
    let verdict = &answer.verdict;
    let outcome = match verdict.outcome {
        Outcome::Read => 0,
        Outcome::Refused => 1,
        Outcome::Stopped => 2,
        _ => return Err(format!("no outcome of the library: {}", verdict.outcome)),
    };
    let (number, count) = (verdict.number.into(), answer.count as u64);
    let must = Given([outcome, number, verdict.position, count], answer.deepest);
    if given == must {
        Ok(())
    } else {
        Err(format!("{given:?} was answered instead of {must:?}"))
    }
}

#[cfg(test)]
mod tests {
    use super::*;
    use port::compare::agreed;

    /// Requests of every kind, read and refused, with recording and without.
    const LINES: [&str; 15] = [
        "scene 0 1 101 0a0080800080",
        "scene 0 1 99 0a0080800080",
        "scene 0 0 3 0a0080800080",
        "metadata 0 1 21 40",
        "update 0 1 42 1:0:0:0:2:0,1:0:0:0:0:0 70",
        "update 0 0 1 1:0:0:0:0:0,1:0:0:0:1:0 c100",
        "position 0 1 60 1 0:1:2:4:6:1 000000",
        "list 1 100 0:0a0080800080 0:c100,0:70,0:c100",
        "validation 77 0:0:0:0:2:0,0:0:0:0:1:0",
        "validation 77 0:0:0:0:2:0,0:0:0:0:0:0",
        "name 257 28",
        "name 257 26",
        "parents 3 1:0:0:0:0:0,1:0:0:0:0:0 2,0",
        "parents 1 1:0:0:0:0:0,1:0:0:0:0:0 2,0",
        "parents 0 - -",
    ];

    /// Changes of an answer, which tell whether there was something to change.
    const CHANGES: [fn(&mut Answer) -> bool; 12] = [
        |_| false,
        |answer| {
            answer.verdict.outcome = Outcome::Stopped;
            true
        },
        |answer| {
            answer.verdict.number ^= 1;
            true
        },
        |answer| {
            answer.verdict.position ^= 1;
            true
        },
        |answer| {
            answer.count ^= 1;
            true
        },
        |answer| {
            let deepest = answer.deepest.as_mut();
            deepest.map(|deepest| *deepest ^= 1).is_some()
        },
        |answer| {
            let last = answer.shapes.last_mut();
            last.map(|shape| shape.polar ^= true).is_some()
        },
        |answer| {
            let last = answer.fields.last_mut();
            last.map(|field| field.value ^= 1).is_some()
        },
        |answer| answer.fields.pop().is_some(),
        |answer| {
            let text = answer.text.as_mut();
            text.map(|text| text.replace_range(..1, "b")).is_some()
        },
        |answer| {
            let last = answer.packet.last_mut();
            last.map(|byte| *byte ^= 1).is_some()
        },
        |answer| answer.packet.pop().is_some(),
    ];

    /// The answers that both give are confirmed, and no other.
    #[test]
    fn only_true_answers_are_confirmed() {
        let mut caller = Caller::default();
        for line in LINES {
            let request = Request::parse(line).expect("a request");
            for (i, change) in CHANGES.iter().enumerate() {
                let mut answer = agreed(&request).expect("an answer");
                let changed = if answer.packets.is_empty() {
                    change(&mut answer)
                } else {
                    answer.packets.last_mut().is_some_and(change)
                };
                let confirmed = caller.confirm(&request, &answer);
                assert_eq!(confirmed.is_ok(), !changed, "change {i} of {line}");
            }
        }
    }
}
