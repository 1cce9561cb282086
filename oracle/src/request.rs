//! Requests, and the text lines that carry them.
use crate::script;
use crate::text::{Words, flag, hex, joined, list, number, unhex};
use apac::run::Op;
use std::fmt;

/// A shape, as it is handed in and given back.
pub type Shape = apac::PositionSyntax;

/// What is asked of an input.
#[derive(Clone, Debug, PartialEq)]
pub enum Question {
    Scene,
    Metadata,
    Update(Vec<Shape>),
    Position { full: bool, shape: Shape },
    Fields(Vec<Op>),
}

/// A question about bytes, with all arguments of the call.
#[derive(Clone, Debug, PartialEq)]
pub struct Call {
    pub question: Question,
    pub offset: u64,
    pub recording: bool,
    /// The number of 64-bit words of the lent field buffer.
    pub room: u32,
    pub bytes: Vec<u8>,
}

/// Bytes, and the bit at which their reading begins.
#[derive(Clone, Debug, PartialEq)]
pub struct Input {
    pub offset: u64,
    pub bytes: Vec<u8>,
}

/// A scene, and packets that update its shapes one after the other. All are lent the same room.
#[derive(Clone, Debug, PartialEq)]
pub struct List {
    pub recording: bool,
    pub room: u32,
    pub scene: Input,
    pub updates: Vec<Input>,
}

#[derive(Clone, Debug, PartialEq)]
pub enum Request {
    Call(Call),
    List(List),
    Validation {
        at: u64,
        shapes: Vec<Shape>,
    },
    /// The packet that hangs the shapes on these parents, with the number of bytes that are lent for
    /// it.
    Parents {
        shapes: Vec<Shape>,
        parents: Vec<usize>,
        room: u32,
    },
    /// The text of a name word, with the number of bytes that are lent for it.
    Name {
        word: u64,
        room: u32,
    },
    /// What is printed for a show file.
    Show {
        bytes: Vec<u8>,
    },
}

impl Question {
    pub fn kind(&self) -> &'static str {
        match self {
            Self::Scene => "scene",
            Self::Metadata => "metadata",
            Self::Update(_) => "update",
            Self::Position { .. } => "position",
            Self::Fields(_) => "fields",
        }
    }

    /// The shapes that are handed in.
    pub fn shapes(&self) -> &[Shape] {
        match self {
            Self::Update(shapes) => shapes,
            Self::Position { shape, .. } => std::slice::from_ref(shape),
            Self::Scene | Self::Metadata | Self::Fields(_) => &[],
        }
    }
}

impl Request {
    pub fn kind(&self) -> &'static str {
        match self {
            Self::Call(call) => call.question.kind(),
            Self::List(_) => "list",
            Self::Validation { .. } => "validation",
            Self::Parents { .. } => "parents",
            Self::Name { .. } => "name",
            Self::Show { .. } => "show",
        }
    }

    /// The shapes that are handed in.
    pub fn shapes(&self) -> &[Shape] {
        match self {
            Self::Call(call) => call.question.shapes(),
            Self::Validation { shapes, .. } | Self::Parents { shapes, .. } => shapes,
            Self::List(_) | Self::Name { .. } | Self::Show { .. } => &[],
        }
    }

    pub fn parse(line: &str) -> Result<Self, String> {
        let mut words = Words::new(line);
        let kind = words.next()?;
        let request = match kind {
            "list" => Self::List(List::parse(&mut words)?),
            "validation" => Self::Validation {
                at: number(words.next()?)?,
                shapes: parse_shapes(words.next()?)?,
            },
            "parents" => Self::Parents {
                room: number(words.next()?)?,
                shapes: parse_shapes(words.next()?)?,
                parents: list(words.next()?).map(number).collect::<Result<_, _>>()?,
            },
            "name" => Self::Name {
                word: number(words.next()?)?,
                room: number(words.next()?)?,
            },
            "show" => Self::Show {
                bytes: unhex(words.next()?)?,
            },
            _ => Self::Call(Call::parse(kind, &mut words)?),
        };
        words.end()?;
        Ok(request)
    }
}

impl Call {
    fn parse(kind: &str, words: &mut Words<'_>) -> Result<Self, String> {
        let offset = number(words.next()?)?;
        let recording = flag(words.next()?)?;
        let room = number(words.next()?)?;
        let question = match kind {
            "scene" => Question::Scene,
            "metadata" => Question::Metadata,
            "update" => Question::Update(parse_shapes(words.next()?)?),
            "position" => Question::Position {
                full: flag(words.next()?)?,
                shape: parse_shape(words.next()?)?,
            },
            "fields" => Question::Fields(script::parse(words.next()?)?),
            other => return Err(format!("no such kind of request: {other}")),
        };
        let bytes = unhex(words.next()?)?;
        Ok(Self {
            question,
            offset,
            recording,
            room,
            bytes,
        })
    }
}

impl List {
    fn parse(words: &mut Words<'_>) -> Result<Self, String> {
        Ok(Self {
            recording: flag(words.next()?)?,
            room: number(words.next()?)?,
            scene: Input::parse(words.next()?)?,
            updates: list(words.next()?)
                .map(Input::parse)
                .collect::<Result<_, _>>()?,
        })
    }

    /// A question about one of the packets, with the arguments that all have in common.
    pub fn call(&self, question: Question, input: &Input) -> Call {
        Call {
            question,
            offset: input.offset,
            recording: self.recording,
            room: self.room,
            bytes: input.bytes.clone(),
        }
    }
}

impl Input {
    fn parse(text: &str) -> Result<Self, String> {
        let parts = text.split_once(':');
        let (offset, bytes) = parts.ok_or_else(|| format!("not a packet: {text}"))?;
        Ok(Self {
            offset: number(offset)?,
            bytes: unhex(bytes)?,
        })
    }

    /// The same bytes, read from another bit on.
    pub fn at_bit(&self, offset: u64) -> Self {
        Self {
            offset,
            bytes: self.bytes.clone(),
        }
    }
}

impl From<&[u8]> for Input {
    fn from(bytes: &[u8]) -> Self {
        Self {
            offset: 0,
            bytes: bytes.to_vec(),
        }
    }
}

impl fmt::Display for Request {
    fn fmt(&self, f: &mut fmt::Formatter<'_>) -> fmt::Result {
        match self {
            Self::Call(call) => call.fmt(f),
            Self::List(list) => list.fmt(f),
            Self::Validation { at, shapes } => write!(f, "validation {at} {}", shape_list(shapes)),
            Self::Parents {
                shapes,
                parents,
                room,
            } => {
                let parents = joined(parents.iter().map(usize::to_string), ",");
                write!(f, "parents {room} {} {parents}", shape_list(shapes))
            }
            Self::Name { word, room } => write!(f, "name {word} {room}"),
            Self::Show { bytes } => write!(f, "show {}", hex(bytes)),
        }
    }
}

impl fmt::Display for Call {
    fn fmt(&self, f: &mut fmt::Formatter<'_>) -> fmt::Result {
        let recording = u8::from(self.recording);
        write!(f, "{} {}", self.question.kind(), self.offset)?;
        write!(f, " {recording} {} ", self.room)?;
        match &self.question {
            Question::Scene | Question::Metadata => {}
            Question::Update(shapes) => write!(f, "{} ", shape_list(shapes))?,
            Question::Position { full, shape } => {
                write!(f, "{} {} ", u8::from(*full), shape_text(shape))?
            }
            Question::Fields(ops) => write!(f, "{} ", script::text(ops))?,
        }
        f.write_str(&hex(&self.bytes))
    }
}

impl fmt::Display for List {
    fn fmt(&self, f: &mut fmt::Formatter<'_>) -> fmt::Result {
        let recording = u8::from(self.recording);
        let updates = joined(self.updates.iter().map(Input::to_string), ",");
        write!(f, "list {recording} {} {} {updates}", self.room, self.scene)
    }
}

impl fmt::Display for Input {
    fn fmt(&self, f: &mut fmt::Formatter<'_>) -> fmt::Result {
        write!(f, "{}:{}", self.offset, hex(&self.bytes))
    }
}

/// Shapes as `pd:rd:pp:rp:parent:polar`, parted by commas; `-` if there are none.
pub fn shape_list(shapes: &[Shape]) -> String {
    joined(shapes.iter().map(shape_text), ",")
}

fn shape_text(shape: &Shape) -> String {
    format!(
        "{}:{}:{}:{}:{}:{}",
        u8::from(shape.parent_dynamic),
        u8::from(shape.range_dynamic),
        shape.position_precision,
        shape.rotation_precision,
        shape.parent,
        u8::from(shape.polar),
    )
}

fn parse_shapes(text: &str) -> Result<Vec<Shape>, String> {
    list(text).map(parse_shape).collect()
}

fn parse_shape(text: &str) -> Result<Shape, String> {
    let parts: Vec<&str> = text.split(':').collect();
    let &[pd, rd, pp, rp, parent, polar] = parts.as_slice() else {
        return Err(format!("not a shape: {text}"));
    };
    Ok(Shape {
        parent_dynamic: flag(pd)?,
        range_dynamic: flag(rd)?,
        position_precision: number(pp)?,
        rotation_precision: number(rp)?,
        parent: number(parent)?,
        polar: flag(polar)?,
    })
}
