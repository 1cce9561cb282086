//! What can be asked of the Rust, and how a run of it ends.
//!
//! The functions of these types stand in `config/scenes/driver.rs`.
use crate::prelude::*;
use crate::{ConfigField, PositionSyntax};

/// A reading of the Rust.
pub enum Reading<'a> {
    Scene,
    Metadata,
    /// The loop of `graph_update`, replayed: its own parser is out of reach after an error.
    Update(&'a [PositionSyntax]),
    /// A position called alone, named as the first of a scene.
    Position {
        full: bool,
        shape: &'a PositionSyntax,
    },
    /// Calls of the parser's own methods, one after the other.
    Script(&'a [Op]),
}

/// One line of a script.
#[derive(Clone, Copy, Debug, PartialEq)]
pub struct Op {
    pub action: Action,
    pub repeat: u16,
    /// The name of the field that the action makes, 0 if it makes none.
    pub name: u64,
}

/// A call of one of the parser's methods.
#[derive(Clone, Copy, Debug, PartialEq)]
pub enum Action {
    Take(u32),
    Flag,
    Esc([u32; 3]),
    Payload(u32),
    /// Has no method of its own; it is read by a metadata configuration only.
    Label,
    Count {
        value: u32,
        least: u32,
    },
    SetEnd(u32),
    Refuse(u8),
    Stop(u8),
}

/// The end of a run.
#[derive(Clone, Debug, PartialEq)]
pub enum End {
    Read { position: usize },
    Invalid { kind: &'static str, position: usize },
    Stopped { reason: String, position: usize },
}

/// A run: its end, the fields recorded by then, and the shapes (as they came, unless read).
#[derive(Clone, Debug, PartialEq)]
pub struct Run {
    pub end: End,
    pub fields: Vec<ConfigField>,
    pub shapes: Vec<PositionSyntax>,
}
