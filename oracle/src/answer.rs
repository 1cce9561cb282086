//! Answers in the words of document 01, and the text lines that carry them.
use crate::bits::Bits;
use crate::request::{Shape, shape_list};
use crate::text::{hex, joined, or_none};
use apac::numbers::{self, REFUSALS, STOPS};
use apac::run::End;
use apac::{ConfigField, DigestUnit, FieldValue};
use std::fmt;

#[derive(Clone, Debug, PartialEq)]
pub enum Outcome {
    Read,
    Refused,
    Stopped,
    /// The Rust panicked.
    Panic,
    /// The Rust gave an error or a reason without a number.
    Unmapped(String),
    /// Two runs that must be alike were not.
    Disagree,
}

/// A recorded field, its digest replaced by the count.
#[derive(Clone, Debug, PartialEq)]
pub struct Field {
    pub offset: u64,
    pub length: u64,
    pub kind: u8,
    pub value: u64,
    pub name: String,
}

/// An outcome with its number and bit position.
#[derive(Clone, Debug, PartialEq)]
pub struct Verdict {
    pub outcome: Outcome,
    pub number: u8,
    pub position: u64,
}

#[derive(Clone, Debug, PartialEq)]
pub struct Answer {
    pub kind: &'static str,
    pub verdict: Verdict,
    /// The fields counted, the length of a text, the bits of a packet that was written, or the number
    /// of a list's packets. With recording off no field is listed.
    pub count: usize,
    /// The largest rank of the shapes that a scene, an update or a validation accepts, 0 unless it
    /// is read. Other kinds have none.
    pub deepest: Option<usize>,
    pub shapes: Vec<Shape>,
    pub fields: Vec<Field>,
    /// The text of a name that was read, or what is printed for a show.
    pub text: Option<String>,
    /// The bytes of a packet that was written.
    pub packet: Vec<u8>,
    /// Of a list the answers of its scene and of its updates.
    pub packets: Vec<Answer>,
}

impl Verdict {
    pub fn refused(number: u8, position: u64) -> Self {
        Self {
            outcome: Outcome::Refused,
            number,
            position,
        }
    }

    pub fn without_number(outcome: Outcome) -> Self {
        Self {
            outcome,
            number: 0,
            position: 0,
        }
    }
}

impl From<End> for Verdict {
    fn from(end: End) -> Self {
        let (outcome, number, position) = match end {
            End::Read { position } => (Outcome::Read, Some(0), position),
            End::Invalid { kind, position } => match numbers::number(&REFUSALS, kind) {
                None => (Outcome::Unmapped(kind.into()), None, position),
                known => (Outcome::Refused, known, position),
            },
            End::Stopped { reason, position } => match numbers::number(&STOPS, &reason) {
                None => (Outcome::Unmapped(reason.replace(' ', "_")), None, position),
                known => (Outcome::Stopped, known, position),
            },
        };
        Self {
            outcome,
            number: number.unwrap_or(0),
            position: position as u64,
        }
    }
}

impl From<ConfigField> for Field {
    fn from(field: ConfigField) -> Self {
        let (kind, value) = match field.value {
            FieldValue::Bool(flag) => (0, u64::from(flag)),
            FieldValue::U64(number) => (1, number),
            FieldValue::Digest { unit, count, .. } => match unit {
                DigestUnit::Bits => (2, count as u64),
                DigestUnit::Bytes => (3, count as u64),
            },
            other => panic!("{} has a value out of scope: {other:?}", field.name),
        };
        Self {
            offset: field.bit_offset as u64,
            length: field.bit_length as u64,
            kind,
            value,
            name: field.name,
        }
    }
}

/// The kinds of answers that have a largest rank.
const RANKED: [&str; 3] = ["scene", "update", "validation"];

impl Answer {
    /// An answer without fields, with the shapes that were handed in and a largest rank of 0.
    pub fn bare(kind: &'static str, verdict: Verdict, given: &[Shape]) -> Self {
        Self {
            kind,
            verdict,
            count: 0,
            deepest: RANKED.contains(&kind).then_some(0),
            shapes: given.to_vec(),
            fields: Vec::new(),
            text: None,
            packet: Vec::new(),
            packets: Vec::new(),
        }
    }

    /// An answer that is a text, of a name or of a show.
    pub fn of_text(
        kind: &'static str,
        verdict: Verdict,
        length: usize,
        text: Option<String>,
    ) -> Self {
        Self {
            count: length,
            text,
            ..Self::bare(kind, verdict, &[])
        }
    }

    /// The answer of new parents, for which this packet was written.
    pub fn of_packet(bits: &Bits) -> Self {
        Self {
            count: bits.len(),
            packet: bits.bytes(),
            ..Self::bare("parents", Verdict::without_number(Outcome::Read), &[])
        }
    }

    /// The answer of a list, which is read whatever its packets give.
    pub fn of_list(packets: Vec<Answer>) -> Self {
        Self {
            count: packets.len(),
            packets,
            ..Self::bare("list", Verdict::without_number(Outcome::Read), &[])
        }
    }

    /// The number of positions that a scene declared.
    fn positions(&self) -> usize {
        match self.kind {
            "scene" => self.shapes.len(),
            _ => 0,
        }
    }
}

impl fmt::Display for Outcome {
    fn fmt(&self, f: &mut fmt::Formatter<'_>) -> fmt::Result {
        match self {
            Self::Read => f.write_str("read"),
            Self::Refused => f.write_str("refused"),
            Self::Stopped => f.write_str("stopped"),
            Self::Panic => f.write_str("panic"),
            Self::Unmapped(text) => write!(f, "unmapped:{text}"),
            Self::Disagree => f.write_str("disagree"),
        }
    }
}

impl fmt::Display for Field {
    fn fmt(&self, f: &mut fmt::Formatter<'_>) -> fmt::Result {
        let Self {
            offset,
            length,
            kind,
            value,
            name,
        } = self;
        write!(f, "{offset}:{length}:{kind}:{value}:{name}")
    }
}

impl fmt::Display for Answer {
    fn fmt(&self, f: &mut fmt::Formatter<'_>) -> fmt::Result {
        let Verdict {
            outcome,
            number,
            position,
        } = &self.verdict;
        let Self { kind, count, .. } = self;
        let deepest = or_none(self.deepest);
        let positions = self.positions();
        let shapes = shape_list(&self.shapes);
        write!(
            f,
            "{kind} {outcome} {number} {position} {count} {deepest} {positions} {shapes} "
        )?;
        match &self.text {
            Some(text) => f.write_str(&text.replace('\n', "/")),
            None if !self.packet.is_empty() => f.write_str(&hex(&self.packet)),
            None if self.packets.is_empty() => {
                f.write_str(&joined(self.fields.iter().map(Field::to_string), ";"))
            }
            None => f.write_str(&joined(self.packets.iter().map(Answer::to_string), "|")),
        }
    }
}
