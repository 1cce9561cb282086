//! What is asked around a good input: at other offsets, cut, damaged, with little room.
use super::batch::{Batch, Record};
use crate::answer::{Answer, Field};
use crate::bits::Bits;
use crate::driver::{FIELD_WORDS, all_fields, read};
use crate::request::{Call, Input, Question};
use crate::rng::Rng;
use apac::run::{Action, Op};

/// A question and bits that it finds good, from their first bit on.
#[derive(Clone)]
pub struct Good {
    pub question: Question,
    pub bits: Bits,
}

/// What drafts a good input.
pub type Drafted = fn(&mut Rng) -> Good;

impl Good {
    /// The bits after `lead` random ones, the last byte filled at random.
    pub fn input(&self, rng: &mut Rng, lead: usize) -> Input {
        let mut bits = Bits::default();
        (0..lead).for_each(|_| bits.push(rng.percent(50)));
        bits.append(&self.bits);
        (0..bits.spare()).for_each(|_| bits.push(rng.percent(50)));
        Input {
            offset: lead as u64,
            bytes: bits.bytes(),
        }
    }

    /// The question, its windows moved along with the bits.
    fn question_at(&self, lead: usize) -> Question {
        match &self.question {
            Question::Fields(ops) => {
                Question::Fields(ops.iter().map(|op| moved(op, lead)).collect())
            }
            other => other.clone(),
        }
    }

    /// The same question about the first bits only.
    pub fn cut(&self, length: usize) -> Good {
        self.with(self.bits.cut(length))
    }

    /// How many bits must lead, at least, for the input to end with the last bit.
    pub fn flush_lead(&self) -> usize {
        self.bits.spare()
    }

    fn with(&self, bits: Bits) -> Good {
        Good {
            question: self.question.clone(),
            bits,
        }
    }

    /// What the Rust answers, with recording off.
    pub fn answer(&self) -> Answer {
        let bytes = self.bits.bytes();
        read(self.question.clone(), Input::from(bytes.as_slice()))
    }

    /// The fields that the Rust reads.
    pub fn fields(&self) -> Vec<Field> {
        all_fields(&Call {
            question: self.question.clone(),
            offset: 0,
            recording: true,
            room: 0,
            bytes: self.bits.bytes(),
        })
    }

    /// Those fields that have bits, all of them inside the good ones.
    fn writable_fields(&self) -> Vec<Field> {
        let inside = |field: &Field| {
            field.length > 0 && field.offset + field.length <= self.bits.len() as u64
        };
        self.fields().into_iter().filter(inside).collect()
    }

    /// A few bits turned over.
    pub fn damaged(&self, rng: &mut Rng) -> Good {
        let mut bits = self.bits.clone();
        for _ in 0..rng.pick(&[1, 1, 1, 2, 5]) {
            bits.flip(rng.below(bits.len() as u64) as usize);
        }
        self.with(bits)
    }

    /// One field overwritten by a value that tests its limits.
    fn overwritten(&self, rng: &mut Rng, fields: &[Field]) -> Good {
        let field = &fields[rng.below(fields.len() as u64) as usize];
        let width = (field.length as usize).min(64);
        let ones = u64::MAX >> (64 - width);
        let value = match rng.below(7) {
            0 => 0,
            1 => 1,
            2 => ones,
            3 => ones - 1,
            4 => field.value.wrapping_add(1),
            5 => field.value.wrapping_sub(1),
            _ => rng.next(),
        };
        let mut bits = self.bits.clone();
        bits.set(field.offset as usize, width, value);
        self.with(bits)
    }
}

fn moved(op: &Op, lead: usize) -> Op {
    match op.action {
        Action::SetEnd(end) => Op {
            action: Action::SetEnd(end + lead as u32),
            ..*op
        },
        _ => *op,
    }
}

impl Batch<'_> {
    /// The good input after so many bits.
    pub fn at(&mut self, good: &Good, lead: usize, record: Record) {
        let input = good.input(self.rng, lead);
        self.call(&good.question_at(lead), input, record);
    }

    pub fn somewhere(&mut self, good: &Good) {
        let lead = self.rng.below(8) as usize;
        let record = self.some_record();
        self.at(good, lead, record);
    }

    /// At every offset within a byte, at a few larger ones, and past the end.
    pub fn every_offset(&mut self, good: &Good) {
        for lead in (0..=8).chain([13, 64, 71]) {
            self.at(good, lead, Record::Ample);
        }
        let mut past = good.input(self.rng, 0);
        past.offset = 8 * past.bytes.len() as u64;
        for offset in [past.offset, past.offset + 1, u64::MAX] {
            past.offset = offset;
            self.call(&good.question, past.clone(), Record::Ample);
        }
    }

    /// The first bits only, the input ended with them.
    pub fn cut_at(&mut self, good: &Good, length: usize) {
        let short = good.cut(length);
        let record = if self.rng.percent(25) {
            Record::Ample
        } else {
            Record::Off
        };
        self.at(&short, short.flush_lead(), record);
    }

    pub fn every_cut(&mut self, good: &Good) {
        for length in 0..=good.bits.len() {
            self.cut_at(good, length);
        }
    }

    pub fn cut_somewhere(&mut self, good: &Good) {
        let length = self.rng.below(good.bits.len() as u64 + 1);
        self.cut_at(good, length as usize);
    }

    /// Rooms of any number of words up to a few more than enough.
    pub fn every_room(&mut self, good: &Good) {
        let enough = FIELD_WORDS * good.fields().len() as u32;
        self.rooms(good, 0, enough + 6);
    }

    /// Rooms around the smallest one that is enough.
    pub fn rooms_near(&mut self, good: &Good) {
        let enough = FIELD_WORDS * good.fields().len() as u32;
        self.rooms(good, enough.saturating_sub(6), enough + 1);
    }

    fn rooms(&mut self, good: &Good, least: u32, most: u32) {
        for words in least..=most {
            self.at(good, 0, Record::Room(words));
        }
    }

    /// One good input, and what it becomes when cut, damaged or overwritten.
    pub fn around(&mut self, good: &Good) {
        self.somewhere(good);
        self.somewhere(good);
        if good.bits.is_empty() {
            return;
        }
        let fields = good.writable_fields();
        for _ in 0..3 {
            self.cut_somewhere(good);
            let damaged = good.damaged(self.rng);
            self.somewhere(&damaged);
            if !fields.is_empty() {
                let overwritten = good.overwritten(self.rng, &fields);
                self.somewhere(&overwritten);
            }
        }
    }
}
