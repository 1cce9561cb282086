//! The packet that gives shapes new parents, by the words of document 02 alone: the questions in
//! their order, and the packet of fewest bits. What the Rust has of it is asked of the Rust: 8 and 9
//! are those of its `validate_graph`, and its `graph_update` is fed every packet.
use crate::answer::{Answer, Outcome, Verdict};
use crate::bits::Bits;
use crate::driver::{self, are_few_and_coarse};
use crate::request::{Input, Question, Request, Shape};

/// Bits of a parent that is not 0.
const PARENT_BITS: usize = 6;

/// The questions in their order, of which the first that is not met decides, each at position 0.
const QUESTIONS: [fn(&Asked<'_>) -> Verdict; 5] = [
    |asked| met_or(36, asked.parents.len() == asked.shapes.len()),
    |asked| met_or(2, are_few_and_coarse(asked.shapes)),
    |asked| met_or(37, asked.changed_ones_are_dynamic()),
    |asked| asked.by_the_validation(),
    |asked| met_or(38, asked.packet().bytes().len() <= asked.room),
];

/// Shapes, the parents that they are to have, and how many bytes are lent for the packet.
struct Asked<'a> {
    shapes: &'a [Shape],
    parents: &'a [usize],
    room: usize,
}

pub fn answer(shapes: &[Shape], parents: &[usize], room: usize) -> Answer {
    let asked = Asked {
        shapes,
        parents,
        room,
    };
    asked.answer()
}

fn bare(verdict: Verdict) -> Answer {
    Answer::bare("parents", verdict, &[])
}

fn met_or(number: u8, is_met: bool) -> Verdict {
    if is_met {
        Verdict::without_number(Outcome::Read)
    } else {
        Verdict::refused(number, 0)
    }
}

impl Asked<'_> {
    fn answer(&self) -> Answer {
        let mut verdicts = QUESTIONS.iter().map(|question| question(self));
        match verdicts.find(|verdict| verdict.outcome != Outcome::Read) {
            Some(unmet) => bare(unmet),
            None => self.by_the_update(),
        }
    }

    fn changed_ones_are_dynamic(&self) -> bool {
        let mut pairs = self.shapes.iter().zip(self.parents);
        pairs.all(|(shape, parent)| shape.parent == *parent || shape.parent_dynamic)
    }

    /// The shapes with the new parents.
    fn hung(&self) -> Vec<Shape> {
        let pairs = self.shapes.iter().zip(self.parents);
        let hung = pairs.map(|(shape, &parent)| Shape {
            parent,
            ..shape.clone()
        });
        hung.collect()
    }

    fn by_the_validation(&self) -> Verdict {
        let shapes = self.hung();
        driver::answer(&Request::Validation { at: 0, shapes }).verdict
    }

    /// Position by position: a 0 if the parent stays. Otherwise a 1 for `updated` and a 1 for
    /// `parent_update`, then the parent: a 1 for none, or a 0 and its number. After that a 0 for
    /// each part that could follow: a range, where it can change, coordinates, a rotation, extensions.
    fn packet(&self) -> Bits {
        let mut bits = Bits::default();
        for (shape, &parent) in self.shapes.iter().zip(self.parents) {
            if shape.parent == parent {
                bits.put(0, 1);
                continue;
            }
            bits.put(0b11, 2);
            match parent {
                0 => bits.put(1, 1),
                _ => bits.put(parent as u64, 1 + PARENT_BITS),
            }
            bits.put(0, if shape.range_dynamic { 4 } else { 3 });
        }
        bits
    }

    /// The Rust must read the packet to its last bit, and leave the shapes with the new parents and
    /// everything else as it was.
    fn by_the_update(&self) -> Answer {
        let packet = self.packet();
        let question = Question::Update(self.shapes.to_vec());
        let update = driver::read(question, Input::from(packet.bytes().as_slice()));
        let verdict = &update.verdict;
        let is_whole = verdict.outcome == Outcome::Read && verdict.position == packet.len() as u64;
        if is_whole && update.shapes == self.hung() {
            Answer::of_packet(&packet)
        } else {
            bare(Verdict::without_number(Outcome::Disagree))
        }
    }
}

#[cfg(test)]
mod tests;
