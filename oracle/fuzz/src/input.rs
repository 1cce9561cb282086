//! The bytes of a fuzzer's input as a request, and back. README.md tells their form.
use oracle::request::{Call, Input, List, Question, Request, Shape};

/// The most words that are lent for fields, bytes for a text or a packet, shapes, and new parents; the most updates
/// of a list.
pub const GREATEST_ROOM: u64 = 8_191;
pub const GREATEST_TEXT: u64 = 255;
pub const GREATEST_SHAPES: u64 = 79;
const GREATEST_UPDATES: usize = 200;

/// The kinds of requests; the first byte of an input, modulo their number, is the place of its kind.
pub const KINDS: [&str; 8] = [
    "scene",
    "metadata",
    "update",
    "position",
    "list",
    "validation",
    "name",
    "parents",
];

/// After this byte comes one byte of a number, after the next two, and so on.
const ESCAPE: u8 = 248;

/// The request that an input stands for. Every input stands for one.
pub fn decode(input: &[u8]) -> Request {
    let mut reader = Reader(input);
    let kind = usize::from(reader.byte()) % KINDS.len();
    match KINDS[kind] {
        "list" => Request::List(reader.list()),
        "validation" => Request::Validation {
            at: reader.number(),
            shapes: reader.shapes(),
        },
        "name" => Request::Name {
            word: reader.number(),
            room: reader.number_to(GREATEST_TEXT) as u32,
        },
        "parents" => Request::Parents {
            room: reader.number_to(GREATEST_TEXT) as u32,
            shapes: reader.shapes(),
            parents: reader.parents(),
        },
        kind => Request::Call(reader.call(kind)),
    }
}

/// An input that stands for the request, if one does.
pub fn encode(request: &Request) -> Result<Vec<u8>, String> {
    let kind = KINDS.iter().position(|&kind| kind == request.kind());
    let mut writer = Writer(vec![kind.ok_or("no input is of this kind")? as u8]);
    match request {
        Request::Call(call) => writer.call(call),
        Request::List(list) => writer.list(list),
        Request::Validation { at, shapes } => {
            writer.number(*at);
            writer.shapes(shapes);
        }
        Request::Name { word, room } => {
            writer.number(*word);
            writer.number((*room).into());
        }
        Request::Parents {
            shapes,
            parents,
            room,
        } => {
            writer.number((*room).into());
            writer.shapes(shapes);
            writer.parents(parents);
        }
        Request::Show { .. } => {}
    }
    let Writer(input) = writer;
    let told = decode(&input) == *request;
    told.then_some(input).ok_or("more than inputs tell".into())
}

/// What is left of an input. After its end there are zeros.
struct Reader<'a>(&'a [u8]);

impl Reader<'_> {
    fn byte(&mut self) -> u8 {
        self.bytes(1).first().copied().unwrap_or(0)
    }

    /// So many bytes, or all that are left.
    fn bytes(&mut self, count: usize) -> &[u8] {
        let (bytes, rest) = self.0.split_at(count.min(self.0.len()));
        self.0 = rest;
        bytes
    }

    fn flag(&mut self) -> bool {
        self.byte() & 1 == 1
    }

    fn number(&mut self) -> u64 {
        let first = self.byte();
        if first < ESCAPE {
            return first.into();
        }
        (ESCAPE..=first).fold(0, |number, _| number << 8 | u64::from(self.byte()))
    }

    /// A number up to the greatest.
    fn number_to(&mut self, greatest: u64) -> u64 {
        self.number() % (greatest + 1)
    }

    fn shapes(&mut self) -> Vec<Shape> {
        let count = self.number_to(GREATEST_SHAPES);
        (0..count).map(|_| self.shape()).collect()
    }

    fn parents(&mut self) -> Vec<usize> {
        let count = self.number_to(GREATEST_SHAPES);
        (0..count).map(|_| self.number() as usize).collect()
    }

    fn shape(&mut self) -> Shape {
        let flags = self.byte();
        Shape {
            parent_dynamic: flags & 1 != 0,
            range_dynamic: flags & 2 != 0,
            polar: flags & 4 != 0,
            position_precision: self.number() as usize,
            rotation_precision: self.number() as usize,
            parent: self.number() as usize,
        }
    }

    fn call(&mut self, kind: &str) -> Call {
        Call {
            offset: self.number(),
            recording: self.flag(),
            room: self.number_to(GREATEST_ROOM) as u32,
            question: self.question(kind),
            bytes: self.0.to_vec(),
        }
    }

    fn question(&mut self, kind: &str) -> Question {
        match kind {
            "scene" => Question::Scene,
            "metadata" => Question::Metadata,
            "update" => Question::Update(self.shapes()),
            "position" => Question::Position {
                full: self.flag(),
                shape: self.shape(),
            },
            other => unreachable!("{other} is no call"),
        }
    }

    fn list(&mut self) -> List {
        List {
            recording: self.flag(),
            room: self.number_to(GREATEST_ROOM) as u32,
            scene: self.packet(),
            updates: self.updates(),
        }
    }

    /// Updates until nothing is left.
    fn updates(&mut self) -> Vec<Input> {
        let mut updates = Vec::new();
        while !self.0.is_empty() && updates.len() < GREATEST_UPDATES {
            updates.push(self.packet());
        }
        updates
    }

    fn packet(&mut self) -> Input {
        let offset = self.number();
        let length = self.number();
        Input {
            offset,
            bytes: self.bytes(length as usize).to_vec(),
        }
    }
}

/// An input that grows. Each method writes what the reader's method of its name reads.
struct Writer(Vec<u8>);

impl Writer {
    fn flag(&mut self, flag: bool) {
        self.0.push(flag.into());
    }

    fn number(&mut self, number: u64) {
        let bytes = number.to_be_bytes();
        let zeros = number.leading_zeros() as usize / 8;
        match &bytes[zeros..] {
            [] => self.0.push(0),
            [byte] if *byte < ESCAPE => self.0.push(*byte),
            more => {
                self.0.push(ESCAPE - 1 + more.len() as u8);
                self.0.extend(more);
            }
        }
    }

    fn shapes(&mut self, shapes: &[Shape]) {
        self.number(shapes.len() as u64);
        shapes.iter().for_each(|shape| self.shape(shape));
    }

    fn parents(&mut self, parents: &[usize]) {
        self.number(parents.len() as u64);
        for &parent in parents {
            self.number(parent as u64);
        }
    }

    fn shape(&mut self, shape: &Shape) {
        let flags = [shape.polar, shape.range_dynamic, shape.parent_dynamic];
        let byte = flags
            .iter()
            .fold(0, |byte, &flag| byte << 1 | u8::from(flag));
        self.0.push(byte);
        self.number(shape.position_precision as u64);
        self.number(shape.rotation_precision as u64);
        self.number(shape.parent as u64);
    }

    fn call(&mut self, call: &Call) {
        self.number(call.offset);
        self.flag(call.recording);
        self.number(call.room.into());
        self.question(&call.question);
        self.0.extend(&call.bytes);
    }

    fn question(&mut self, question: &Question) {
        match question {
            Question::Update(shapes) => self.shapes(shapes),
            Question::Position { full, shape } => {
                self.flag(*full);
                self.shape(shape);
            }
            Question::Scene | Question::Metadata | Question::Fields(_) => {}
        }
    }

    fn list(&mut self, list: &List) {
        self.flag(list.recording);
        self.number(list.room.into());
        self.packet(&list.scene);
        list.updates.iter().for_each(|update| self.packet(update));
    }

    fn packet(&mut self, packet: &Input) {
        self.number(packet.offset);
        self.number(packet.bytes.len() as u64);
        self.0.extend(&packet.bytes);
    }
}

#[cfg(test)]
mod tests {
    use super::*;

    const STORED: &str = include_str!("../corpus");

    fn request(line: &str) -> Request {
        Request::parse(line).expect("a request")
    }

    #[test]
    fn examples() {
        let examples: [(&str, &[u8]); 10] = [
            ("scene 9 1 247 0a80", &[0, 9, 1, 247, 0x0a, 0x80]),
            (
                "metadata 248 0 255 00f8",
                &[1, 248, 248, 0, 248, 255, 0, 248],
            ),
            (
                "update 1 0 20 1:0:24:2:0:1,0:0:0:0:0:0 c1",
                &[2, 1, 0, 20, 2, 5, 24, 2, 0, 0, 0, 0, 0, 0xc1],
            ),
            (
                "position 0 1 5 1 0:1:0:0:256:0 -",
                &[3, 0, 1, 5, 1, 2, 0, 0, 249, 1, 0],
            ),
            (
                "list 1 3 0:0a00 7:c1,2:-",
                &[4, 1, 3, 0, 2, 0x0a, 0, 7, 1, 0xc1, 2, 0],
            ),
            ("list 0 0 0:- -", &[4, 0, 0, 0, 0]),
            (
                "validation 65536 0:0:0:0:1:0",
                &[5, 250, 1, 0, 0, 1, 0, 0, 0, 1],
            ),
            (
                "name 18446744073709551615 4",
                &[6, 255, 255, 255, 255, 255, 255, 255, 255, 255, 4],
            ),
            ("parents 0 - -", &[7, 0, 0, 0]),
            (
                "parents 2 1:1:0:24:256:0 7,0",
                &[7, 2, 1, 3, 0, 24, 249, 1, 0, 2, 7, 0],
            ),
        ];
        for (line, input) in examples {
            assert_eq!(decode(input), request(line));
            assert_eq!(encode(&request(line)), Ok(input.to_vec()));
        }
    }

    /// What ends early goes on with zeros, and what is too great is reduced.
    #[test]
    fn other_inputs() {
        let examples: [(&str, &[u8]); 6] = [
            ("scene 0 0 0 -", &[]),
            ("scene 512 0 0 -", &[8, 249, 2]),
            ("scene 0 1 1 ff", &[16, 0, 3, 249, 0x20, 0x01, 0xff]),
            ("list 0 0 0:ff -", &[4, 0, 0, 0, 9, 0xff]),
            ("validation 0 0:0:0:0:0:0,0:0:0:0:0:0", &[5, 0, 82]),
            ("parents 1 - 3,0", &[7, 249, 1, 1, 80, 82, 3]),
        ];
        for (line, input) in examples {
            assert_eq!(decode(input), request(line));
        }
    }

    #[test]
    fn limits() {
        let told = |line: &str| encode(&request(line)).is_ok();
        let shapes = |count| vec!["0:0:0:0:0:0"; count].join(",");
        let updates = |count| format!("list 0 0 0:- {}", vec!["0:-"; count].join(","));
        assert!(told("scene 0 1 8191 00") && !told("scene 0 1 8192 00"));
        assert!(told("list 0 8191 0:- -") && !told("list 0 8192 0:- -"));
        assert!(told("name 0 255") && !told("name 0 256"));
        assert!(told(&format!("validation 0 {}", shapes(79))));
        assert!(!told(&format!("validation 0 {}", shapes(80))));
        let parents = |count| vec!["0"; count].join(",");
        assert!(told("parents 255 - 0") && !told("parents 256 - 0"));
        assert!(told(&format!("parents 0 {} {}", shapes(79), parents(79))));
        assert!(!told(&format!("parents 0 {} 0", shapes(80))));
        assert!(!told(&format!("parents 0 - {}", parents(80))));
        assert!(told(&updates(200)) && !told(&updates(201)));
        assert!(!told("show -") && !told("fields 0 0 0 - -"));
    }

    /// The stored requests, of every kind.
    #[test]
    fn stored_requests_have_inputs() {
        for line in STORED.lines() {
            let input = encode(&request(line)).expect("an input");
            assert_eq!(decode(&input).to_string(), line);
        }
        for kind in KINDS {
            let is_kind = |line: &str| line.split(' ').next() == Some(kind);
            assert!(STORED.lines().any(is_kind), "{kind}");
        }
    }

    /// Any bytes are a request, and their request has an input: here the stored ones cut, and with
    /// a byte turned to each value.
    #[test]
    fn every_input_is_a_request() {
        for line in STORED.lines().filter(|line| line.len() < 80) {
            let input = encode(&request(line)).expect("an input");
            for i in 0..input.len() {
                again(&input[..i]);
                let mut input = input.clone();
                for byte in 0..=255 {
                    input[i] = byte;
                    again(&input);
                }
            }
        }
    }

    fn again(input: &[u8]) {
        let request = decode(input);
        let input = encode(&request).expect("an input");
        assert_eq!(decode(&input), request);
    }
}
