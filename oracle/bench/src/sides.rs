//! The sides that are timed, each called on the input of a row as the one before left it.
use crate::by_hand;
use crate::rows::{Reading, Row};
use apac::run::End;
use gateway::{
    FIELD_WORDS, GraphAnswer, MAX_FIELDS, PositionSyntax, graph_update, read_metadata, read_scene,
};
use oracle::request::Shape;
use port::library::Answered;
use std::hint::black_box;

/// The words that are lent: room for as many fields as can be recorded, or none.
pub fn words(recording: bool) -> Vec<u64> {
    let fields = if recording { MAX_FIELDS } else { 0 };
    vec![0; FIELD_WORDS * fields]
}

/// The shapes that an update is handed at first, as the port reads them.
fn scene_shapes(row: &Row) -> Vec<PositionSyntax> {
    match &row.reading {
        Reading::Update { scene } => read_scene(scene, 0, false, &mut []).shapes().to_vec(),
        Reading::Scene | Reading::Metadata => Vec::new(),
    }
}

/// The Rust itself. What it allocates and drops belongs to its time.
pub struct Rust<'a> {
    row: &'a Row,
    recording: bool,
    pub shapes: Vec<Shape>,
}

/// The port, through its crate. The words are not cleared between calls.
pub struct Port<'a> {
    row: &'a Row,
    recording: bool,
    words: Vec<u64>,
    pub shapes: Vec<PositionSyntax>,
}

/// The scene that is read by hand, lent the same.
pub struct ByHand<'a> {
    row: &'a Row,
    recording: bool,
    words: Vec<u64>,
}

impl<'a> Rust<'a> {
    pub fn new(row: &'a Row, recording: bool) -> Self {
        let shapes = row.shapes();
        Self {
            row,
            recording,
            shapes,
        }
    }

    pub fn call(&mut self) -> End {
        let bytes = black_box(self.row.bytes.as_slice());
        match self.row.reading {
            Reading::Scene => End::of_scene(bytes, 0, self.recording),
            Reading::Metadata => End::of_metadata(bytes, 0, self.recording),
            Reading::Update { .. } => {
                End::of_graph_update(bytes, 0, &mut self.shapes, self.recording)
            }
        }
    }
}

impl<'a> Port<'a> {
    pub fn new(row: &'a Row, recording: bool) -> Self {
        Self {
            row,
            recording,
            words: words(recording),
            shapes: scene_shapes(row),
        }
    }

    pub fn call(&mut self) -> Answered {
        let (bytes, recording) = (black_box(self.row.bytes.as_slice()), self.recording);
        let words = self.words.as_mut_slice();
        match self.row.reading {
            Reading::Scene => {
                let scene = read_scene(bytes, 0, recording, words);
                black_box(&scene).answer().into()
            }
            Reading::Metadata => read_metadata(bytes, 0, recording, words).into(),
            Reading::Update { .. } => {
                graph_update(bytes, 0, recording, words, &mut self.shapes).into()
            }
        }
    }
}

impl<'a> ByHand<'a> {
    pub fn new(row: &'a Row, recording: bool) -> Self {
        Self {
            row,
            recording,
            words: words(recording),
        }
    }

    pub fn call(&mut self) -> GraphAnswer {
        let bytes = black_box(self.row.bytes.as_slice());
        let scene = by_hand::read_scene(bytes, 0, self.recording, &mut self.words);
        black_box(&scene);
        scene.answer.into()
    }
}
