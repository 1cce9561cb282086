//! A growing list of requests.
use crate::driver::{FIELD_WORDS, all_fields, most_fields};
use crate::request::{Call, Input, List, Question, Request, Shape};
use crate::rng::Rng;

pub struct Batch<'r> {
    pub rng: &'r mut Rng,
    pub requests: Vec<Request>,
}

/// Whether a call records its fields, and how much room it is lent for them.
#[derive(Clone, Copy)]
pub enum Record {
    Off,
    /// Room for every field, and perhaps a few words more.
    Ample,
    Room(u32),
}

impl Record {
    fn is_on(self) -> bool {
        !matches!(self, Self::Off)
    }
}

impl<'r> Batch<'r> {
    pub fn new(rng: &'r mut Rng) -> Self {
        Self {
            rng,
            requests: Vec::new(),
        }
    }

    pub fn call(&mut self, question: &Question, input: Input, record: Record) {
        let mut call = Call {
            question: question.clone(),
            offset: input.offset,
            recording: record.is_on(),
            room: 0,
            bytes: input.bytes,
        };
        call.room = self.room(record, || all_fields(&call).len());
        self.requests.push(Request::Call(call));
    }

    /// The list, with recording and room as told.
    pub fn list(&mut self, mut list: List, record: Record) {
        list.recording = record.is_on();
        list.room = self.room(record, || most_fields(&list));
        self.requests.push(Request::List(list));
    }

    /// The words that are lent, if so many fields are to be recorded.
    fn room(&mut self, record: Record, fields: impl FnOnce() -> usize) -> u32 {
        match record {
            Record::Off => self.rng.below(12) as u32,
            Record::Ample => FIELD_WORDS * fields() as u32 + self.few_words(),
            Record::Room(words) => words,
        }
    }

    pub fn validation(&mut self, at: u64, shapes: Vec<Shape>) {
        self.requests.push(Request::Validation { at, shapes });
    }

    pub fn parents(&mut self, (shapes, parents): (Vec<Shape>, Vec<usize>), room: u32) {
        self.requests.push(Request::Parents {
            shapes,
            parents,
            room,
        });
    }

    pub fn name(&mut self, word: u64, room: u32) {
        self.requests.push(Request::Name { word, room });
    }

    pub fn show(&mut self, bytes: Vec<u8>) {
        self.requests.push(Request::Show { bytes });
    }

    /// Mostly with all fields, else without.
    pub fn some_record(&mut self) -> Record {
        if self.rng.percent(60) {
            Record::Ample
        } else {
            Record::Off
        }
    }

    fn few_words(&mut self) -> u32 {
        self.rng.below(7) as u32
    }
}
