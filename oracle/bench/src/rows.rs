//! What is timed: one row for each input.
use crate::metadata;
use crate::scenes::{Content, chain, scene, tree, turned, update};
use apac::run;
use gateway::{MAX_BYTES, MAX_POSITIONS};
use oracle::request::{Question, Shape};

/// What fills the largest inputs; a few bytes are left to the other fields.
const LARGE: Content = Content::Large {
    bytes: MAX_BYTES - 2_048,
};
const FULLEST: Content = Content::Fullest { more: 0 };
const TOO_FULL: Content = Content::Fullest { more: 1 };

pub enum Reading {
    Scene,
    /// An update of the shapes of this scene.
    Update {
        scene: Vec<u8>,
    },
    Metadata,
}

pub struct Row {
    pub reading: Reading,
    pub what: String,
    pub bytes: Vec<u8>,
    /// Of inputs that grow: how many there are of what makes them larger.
    pub units: f64,
}

impl Row {
    fn of_scene(what: &str, bytes: Vec<u8>) -> Self {
        Self {
            reading: Reading::Scene,
            what: what.into(),
            bytes,
            units: 1.0,
        }
    }

    /// An update of a scene of so many positions.
    fn of_update(what: &str, count: usize, bytes: Vec<u8>) -> Self {
        let scene = scene(count, tree, Content::Mixed);
        Self {
            reading: Reading::Update { scene },
            ..Self::of_scene(what, bytes)
        }
    }

    fn of_metadata(what: &str, bytes: Vec<u8>) -> Self {
        Self {
            reading: Reading::Metadata,
            ..Self::of_scene(what, bytes)
        }
    }

    fn of_units(self, units: usize) -> Self {
        let units = units as f64;
        Self { units, ..self }
    }

    /// The shapes that an update is handed at first.
    pub fn shapes(&self) -> Vec<Shape> {
        match &self.reading {
            Reading::Update { scene } => run::Reading::Scene.run(scene, 0, false).shapes,
            Reading::Scene | Reading::Metadata => Vec::new(),
        }
    }

    /// The positions that the scene declares, in its first six bits.
    pub fn positions(&self) -> u8 {
        let scene = match &self.reading {
            Reading::Scene => &self.bytes,
            Reading::Update { scene } => scene,
            Reading::Metadata => return 0,
        };
        scene.first().map_or(0, |byte| byte >> 2)
    }

    pub fn question(&self) -> Question {
        match self.reading {
            Reading::Scene => Question::Scene,
            Reading::Update { .. } => Question::Update(self.shapes()),
            Reading::Metadata => Question::Metadata,
        }
    }
}

pub fn scenes() -> Vec<Row> {
    let of = |what, bytes| Row::of_scene(what, bytes);
    let mixed = |count, parents| scene(count, parents, Content::Mixed);
    let most = |content| scene(MAX_POSITIONS, tree, content);
    vec![
        of("cut after its count", vec![0x04]),
        of("1 position", mixed(1, tree)),
        of("8 positions", mixed(8, tree)),
        of("63 positions", mixed(MAX_POSITIONS, tree)),
        of("63 positions in a chain", mixed(MAX_POSITIONS, chain)),
        of(
            "63 positions in a chain, turned",
            mixed(MAX_POSITIONS, turned),
        ),
        of("the most fields that are read", most(FULLEST)),
        of("the most fields", most(TOO_FULL)),
        of("8 MiB of extensions", filled(most(LARGE))),
    ]
}

pub fn updates() -> Vec<Row> {
    let of = |what, count, bytes| Row::of_update(what, count, bytes);
    let of_63 = |what, bytes| of(what, MAX_POSITIONS, bytes);
    let mixed = |count, updated| update(count, tree, Content::Mixed, updated);
    let most = |parents, content| update(MAX_POSITIONS, parents, content, all);
    let none = |_| false;
    vec![
        of("8 positions, cut in the first", 8, vec![0xff]),
        of("1 position", 1, mixed(1, all)),
        of("8 positions, 3 updated", 8, mixed(8, |i| i % 3 == 1)),
        of_63("63 positions, none updated", mixed(MAX_POSITIONS, none)),
        of_63("63 positions, all updated", mixed(MAX_POSITIONS, all)),
        of_63("63 positions into a chain", most(chain, Content::Mixed)),
        of_63("the most fields that are read", most(tree, FULLEST)),
        of_63("the most fields", most(tree, TOO_FULL)),
        of_63("8 MiB of extensions", filled(most(tree, LARGE))),
    ]
}

/// Whether a position is updated, if all are.
fn all(_: usize) -> bool {
    true
}

pub fn metadata() -> Vec<Row> {
    let of = |what, bytes| Row::of_metadata(what, bytes);
    vec![
        of("not present", vec![0x00]),
        of("the fewest fields", metadata::least()),
        of("compression, parameters, 3 groups", metadata::typical()),
        of("the most fields, values of one bit", metadata::tables(1)),
        of("the most fields, values in binary32", metadata::tables(32)),
        of("8 MiB of payloads", metadata::payloads(MAX_BYTES)),
    ]
}

/// Scenes of more and more positions.
pub fn growing_scenes() -> Vec<Row> {
    let of = |count| Row::of_scene("scene", scene(count, tree, Content::Mixed)).of_units(count);
    [1, 2, 4, 8, 16, 32, 63].map(of).into()
}

/// Metadata of more and more fields, most of them the indices of channels.
pub fn growing_fields() -> Vec<Row> {
    let of = |(fields, groups)| {
        Row::of_metadata("channels", metadata::channels(fields, groups)).of_units(fields)
    };
    [(64, 1), (512, 1), (4_096, 4), (16_384, 15)].map(of).into()
}

/// Metadata of larger and larger payloads.
pub fn growing_payloads() -> Vec<Row> {
    let of = |kib| Row::of_metadata("payloads", metadata::payloads(kib << 10)).of_units(kib);
    [1, 32, 1_024, 8_192].map(of).into()
}

/// The input, and zeros up to the greatest length.
fn filled(mut bytes: Vec<u8>) -> Vec<u8> {
    assert!(bytes.len() <= MAX_BYTES);
    bytes.resize(MAX_BYTES, 0);
    bytes
}
