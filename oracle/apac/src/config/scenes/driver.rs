//! Runs the Rust: one fresh parser for each reading, set to the offset.
use crate::config::ParseError;
use crate::config::parser::{PResult, Parser, Stop};
use crate::config::passive::{self, PositionSyntax};
use crate::numbers::{self, REFUSALS, STOPS};
use crate::prelude::*;
use crate::run::{Action, End, Op, Reading, Run};

const FIRST_POSITION: &str = "ancillary.scene_graph.positions[0]";

impl Reading<'_> {
    /// Reads `data` from the bit `offset` on.
    pub fn run(&self, data: &[u8], offset: usize, record: bool) -> Run {
        let mut parser = Parser::new(data, record);
        let read = self.read(&mut parser, offset);
        let (end, shapes) = match read {
            Ok(shapes) => (parser.end(), shapes),
            Err(stop) => (stop.into(), self.given()),
        };
        let fields = parser.in_band().fields;
        Run {
            end,
            fields,
            shapes,
        }
    }

    /// The shapes that were handed in.
    fn given(&self) -> Vec<PositionSyntax> {
        match self {
            Self::Update(shapes) => shapes.to_vec(),
            Self::Position { shape, .. } => vec![(*shape).clone()],
            Self::Scene | Self::Metadata | Self::Script(_) => Vec::new(),
        }
    }

    fn read(&self, parser: &mut Parser<'_>, offset: usize) -> PResult<Vec<PositionSyntax>> {
        parser.bits.skip(offset)?;
        let mut shapes = self.given();
        match self {
            Self::Scene => shapes = scene(parser)?,
            Self::Metadata => parser.metadata_configuration()?,
            Self::Update(_) => replay_update(parser, &mut shapes)?,
            Self::Position { full, .. } => {
                parser.position(FIRST_POSITION, &mut shapes[0], *full)?
            }
            Self::Script(ops) => ops.iter().try_for_each(|op| op.act(parser))?,
        }
        Ok(shapes)
    }
}

impl Run {
    /// `graph_update` itself. It hands back no fields on an error.
    pub fn of_graph_update(
        data: &[u8],
        offset: usize,
        given: &[PositionSyntax],
        record: bool,
    ) -> Self {
        let mut shapes = given.to_vec();
        let updated = passive::graph_update(data, offset, &mut shapes, record);
        let (end, fields) = match updated {
            Err(error) => (error.into(), Vec::new()),
            Ok((in_band, position)) => (End::of_update(in_band.reason, position), in_band.fields),
        };
        Self {
            end,
            fields,
            shapes,
        }
    }
}

impl End {
    /// `validate_graph`, told that it is asked at bit `at`.
    pub fn of_validation(shapes: &[PositionSyntax], at: usize) -> Self {
        match passive::validate_graph(shapes, at) {
            Ok(()) => Self::Read { position: at },
            Err(error) => error.into(),
        }
    }

    pub(super) fn of_update(stop: Option<String>, position: usize) -> Self {
        match stop {
            None => Self::Read { position },
            Some(reason) => Self::Stopped { reason, position },
        }
    }
}

impl From<ParseError> for End {
    fn from(error: ParseError) -> Self {
        Self::Invalid {
            kind: error.kind,
            position: error.bit_offset,
        }
    }
}

impl From<Stop> for End {
    fn from(stop: Stop) -> Self {
        match stop {
            Stop::Invalid(error) => error.into(),
            Stop::Unsupported {
                position, reason, ..
            } => Self::Stopped { reason, position },
        }
    }
}

impl Parser<'_> {
    pub(super) fn end(&self) -> End {
        End::Read {
            position: self.pos(),
        }
    }
}

impl Op {
    fn act(&self, parser: &mut Parser<'_>) -> PResult<()> {
        (0..self.repeat).try_for_each(|_| self.action.call(parser, self.name))
    }
}

impl Action {
    fn call(self, parser: &mut Parser<'_>, name: u64) -> PResult<()> {
        match self {
            Self::Take(width) => parser.take(name, width as usize).map(drop),
            Self::Flag => parser.flag(name).map(drop),
            Self::Esc(widths) => parser.esc(name, widths.map(|w| w as usize)).map(drop),
            Self::Payload(bits) => parser.passive_bits(name, bits as usize),
            Self::Label => panic!("a label is read by a metadata configuration only"),
            Self::Count { value, least } => parser.count(value.into(), least as usize).map(drop),
            Self::SetEnd(end) => Ok(parser.bits.set_end(end as usize).map(drop)?),
            Self::Refuse(number) => parser.invalid(known(&REFUSALS, number), "by the script"),
            Self::Stop(number) => parser.stop(known(&STOPS, number)),
        }
    }
}

fn known(table: &[(u8, &'static str)], number: u8) -> &'static str {
    numbers::text(table, number).expect("a number that the Rust can give")
}

fn scene(parser: &mut Parser<'_>) -> PResult<Vec<PositionSyntax>> {
    parser.scene_graph()?;
    let scene = parser.config.ancillary.scene_graph.take();
    Ok(scene.expect("a scene that was read").positions)
}

/// The loop of `graph_update`, line for line.
fn replay_update(parser: &mut Parser<'_>, shapes: &mut [PositionSyntax]) -> PResult<()> {
    for (i, shape) in shapes.iter_mut().enumerate() {
        let p = format!("ancillary.scene_graph.positions[{i}]");
        if parser.flag(format_args!("{p}.updated"))? {
            parser.position(&p, shape, false)?;
        }
    }
    passive::validate_graph(shapes, parser.bits.position())?;
    Ok(())
}
