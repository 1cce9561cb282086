//! The library's shapes and answers, in the oracle's types.
use gateway::{GraphAnswer, PositionSyntax};
use oracle::answer::{Answer, Outcome, Verdict};
use oracle::request::Shape;

/// A shape of another type: the fields are the same.
macro_rules! same_shape {
    ($type:ident, $shape:expr) => {
        $type {
            parent_dynamic: $shape.parent_dynamic,
            range_dynamic: $shape.range_dynamic,
            position_precision: $shape.position_precision,
            rotation_precision: $shape.rotation_precision,
            parent: $shape.parent,
            polar: $shape.polar,
        }
    };
}

/// The shapes of a request, to be lent.
pub fn lent(shapes: &[Shape]) -> Vec<PositionSyntax> {
    let lent = |shape: &Shape| same_shape!(PositionSyntax, shape);
    shapes.iter().map(lent).collect()
}

/// The shapes that a call has left.
pub fn left(shapes: &[PositionSyntax]) -> Vec<Shape> {
    let left = |shape: &PositionSyntax| same_shape!(Shape, shape);
    shapes.iter().map(left).collect()
}

/// What a call answers, whatever is asked.
#[derive(Clone, Copy, Debug, PartialEq)]
pub struct Answered {
    pub outcome: gateway::Outcome,
    pub position: usize,
    pub counted: usize,
    /// The largest rank, if the library's type has one.
    pub deepest: Option<usize>,
}

impl From<gateway::Answer> for Answered {
    fn from(answer: gateway::Answer) -> Self {
        Self {
            outcome: answer.outcome,
            position: answer.position,
            counted: answer.counted,
            deepest: None,
        }
    }
}

impl From<GraphAnswer> for Answered {
    fn from(answer: GraphAnswer) -> Self {
        Self {
            outcome: answer.outcome,
            position: answer.position,
            counted: answer.counted,
            deepest: Some(answer.deepest),
        }
    }
}

impl Answered {
    pub fn verdict(&self) -> Result<Verdict, String> {
        let (outcome, number) = match self.outcome {
            gateway::Outcome::Read => (Outcome::Read, 0),
            gateway::Outcome::Refused(number) => (Outcome::Refused, number),
            gateway::Outcome::Stopped(number) => (Outcome::Stopped, number),
        };
        Ok(Verdict {
            outcome,
            number: number
                .try_into()
                .map_err(|_| format!("no number: {number}"))?,
            position: self.position as u64,
        })
    }

    /// The oracle's form of the answer, with the shapes after the call and no fields.
    pub fn with_shapes(&self, kind: &'static str, shapes: &[Shape]) -> Result<Answer, String> {
        Ok(Answer {
            count: self.counted,
            deepest: self.deepest,
            ..Answer::bare(kind, self.verdict()?, shapes)
        })
    }
}
