//! Random payloads: well-formed ones in free encodings, deep ones around the last level, and damaged ones.

use crate::schema::{Field, Kind, Label};
use crate::table::SCHEMAS;
use crate::wire::{key, put_varint, EIGHT_BYTES, FOUR_BYTES, GROUP, GROUP_END, LENGTH, VARINT};

/// The largest number of a field.
const LAST_NUMBER: u32 = (1 << 29) - 1;

/// Numbers that depend only on a seed and a case (splitmix64).
#[derive(Clone, Debug)]
pub struct Random(u64);

impl Random {
    pub fn new(seed: u64, case: u64) -> Random {
        let mut random = Random(seed);
        random.0 = random.number().wrapping_add(case);
        random.0 = random.number();
        random
    }

    /// Any number.
    pub fn number(&mut self) -> u64 {
        self.0 = self.0.wrapping_add(0x9E37_79B9_7F4A_7C15);
        let mut mixed = self.0;
        mixed = (mixed ^ mixed >> 30).wrapping_mul(0xBF58_476D_1CE4_E5B9);
        mixed = (mixed ^ mixed >> 27).wrapping_mul(0x94D0_49BB_1331_11EB);
        mixed ^ mixed >> 31
    }

    /// A number below a bound that is not 0.
    pub fn below(&mut self, bound: usize) -> usize {
        (self.number() % bound as u64) as usize
    }

    pub fn one_in(&mut self, times: usize) -> bool {
        self.below(times) == 0
    }

    pub fn pick<'a, T>(&mut self, choices: &'a [T]) -> &'a T {
        &choices[self.below(choices.len())]
    }

    /// A number of a random size: small ones are as likely as large ones.
    pub fn sized(&mut self) -> u64 {
        let bits = *self.pick(&[0, 1, 7, 8, 14, 21, 31, 32, 33, 63, 64]);
        if bits == 0 {
            0
        } else {
            self.number() >> (64 - bits)
        }
    }

    pub fn bytes(&mut self, length: usize) -> Vec<u8> {
        (0..length).map(|_| self.number() as u8).collect()
    }

    pub fn text(&mut self, length: usize) -> String {
        const LETTERS: [char; 10] = ['a', 'b', 'z', '0', '-', '/', '\0', 'é', '中', '🦀'];
        (0..length).map(|_| *self.pick(&LETTERS)).collect()
    }
}

/// How a payload is made.
#[derive(Clone, Copy, Debug, PartialEq, Eq)]
pub enum Style {
    /// Shortest varints, and only the fields of the schema.
    Tidy,
    /// Any encoding, and records that the schema skips.
    Free,
    /// As free, but here and there a record that makes the payload malformed.
    Spoilt,
}

/// Makes payloads.
pub struct Payloads<'a> {
    random: &'a mut Random,
    style: Style,
}

/// A step down by one level.
enum Step {
    Message(u32),
    Group(u32),
}

impl<'a> Payloads<'a> {
    pub fn new(random: &'a mut Random, style: Style) -> Payloads<'a> {
        Payloads { random, style }
    }

    /// A payload for a schema.
    pub fn payload(&mut self, schema: usize) -> Vec<u8> {
        let mut out = Vec::new();
        self.records(schema, 0, &mut out);
        out
    }

    /// A payload for a schema with records on a level near the last: messages down to some level, and groups below it.
    pub fn deep(&mut self, schema: usize) -> Vec<u8> {
        let levels = 98 + self.random.below(5);
        let turn = self.random.below(2 * levels);
        let mut path = Vec::with_capacity(levels);
        let mut inside = Some(schema);
        for level in 0..levels {
            let field = match inside {
                Some(schema) if level < turn => self.way_down(schema),
                _ => None,
            };
            inside = field.map(|(_, inner)| inner);
            path.push(match field {
                Some((number, _)) => Step::Message(number),
                None => Step::Group(self.skipped_number(schema)),
            });
        }
        let mut content = self.bottom(inside);
        for step in path.iter().rev() {
            content = self.wrapped(step, &content);
        }
        content
    }

    /// A field that leads a level down, with the schema of its message.
    fn way_down(&mut self, schema: usize) -> Option<(u32, usize)> {
        let ways: Vec<_> = SCHEMAS[schema]
            .fields
            .iter()
            .filter_map(|field| match field.kind {
                Kind::Message(inner) => Some((field.number, inner)),
                _ => None,
            })
            .collect();
        (!ways.is_empty()).then(|| *self.random.pick(&ways))
    }

    /// What is at the end of a way down.
    fn bottom(&mut self, schema: Option<usize>) -> Vec<u8> {
        let mut out = Vec::new();
        match (self.random.below(6), schema) {
            (0, _) => (),
            (1 | 2, Some(schema)) => self.records(schema, 9, &mut out),
            (3, _) => self.group(77, 9, &mut out),
            _ => {
                let wire_type = self.wire_type();
                self.skipped_record(77, wire_type, 9, &mut out);
            }
        }
        out
    }

    fn wrapped(&mut self, step: &Step, content: &[u8]) -> Vec<u8> {
        let mut out = Vec::with_capacity(content.len() + 16);
        match *step {
            Step::Message(number) => {
                self.key(number, LENGTH, &mut out);
                self.varint(content.len() as u64, &mut out);
                out.extend_from_slice(content);
            }
            Step::Group(number) => {
                self.key(number, GROUP, &mut out);
                out.extend_from_slice(content);
                self.key(number, GROUP_END, &mut out);
            }
        }
        out
    }

    /// Some records for a schema, in any order. `depth` is how far they are from the front, to come to an end.
    fn records(&mut self, schema: usize, depth: usize, out: &mut Vec<u8>) {
        let fields = SCHEMAS[schema].fields;
        let most = if depth > 2 { 3 } else { 2 * fields.len() + 2 };
        for _ in 0..self.random.below(most.min(10)) {
            if self.style == Style::Spoilt && self.random.one_in(15) {
                self.spoilt_record(fields, out);
            } else if let Some(field) = self.choice(fields) {
                self.record(field, depth, out);
            } else if self.style != Style::Tidy {
                let number = self.skipped_number(schema);
                let wire_type = self.wire_type();
                self.skipped_record(number, wire_type, depth, out);
            }
        }
    }

    /// A field, or none where a record is to be skipped. Members of a oneof come often, so that they take turns.
    fn choice(&mut self, fields: &'static [Field]) -> Option<&'static Field> {
        if fields.is_empty() || self.style != Style::Tidy && self.random.one_in(6) {
            return None;
        }
        let field = self.random.pick(fields);
        if matches!(field.label, Label::Member(_)) || self.random.one_in(2) {
            return Some(field);
        }
        Some(self.random.pick(fields))
    }

    fn record(&mut self, field: &Field, depth: usize, out: &mut Vec<u8>) {
        if field.is_packable() && self.random.one_in(2) {
            return self.packed(field, out);
        }
        self.key(field.number, field.kind.wire_type(), out);
        match field.kind {
            Kind::U32 | Kind::U64 | Kind::Bool => {
                let number = self.random.sized();
                self.varint(number, out);
            }
            Kind::Enum => {
                let number = self.enumeration();
                self.varint(number, out);
            }
            Kind::Text => {
                let length = self.length() / 2;
                let text = self.random.text(length);
                self.lengthy(text.as_bytes(), out);
            }
            Kind::Bytes => {
                let length = self.length();
                let bytes = self.random.bytes(length);
                self.lengthy(&bytes, out);
            }
            Kind::Message(inner) => {
                let mut content = Vec::new();
                if depth < 6 {
                    self.records(inner, depth + 1, &mut content);
                }
                self.lengthy(&content, out);
            }
        }
    }

    /// A small number, a negative one as sign-extended, or anything.
    fn enumeration(&mut self) -> u64 {
        match self.random.below(4) {
            0 | 1 => self.random.below(3) as u64,
            2 => (self.random.below(5) as u64).wrapping_neg(),
            _ => self.random.sized(),
        }
    }

    fn packed(&mut self, field: &Field, out: &mut Vec<u8>) {
        let mut run = Vec::new();
        for _ in 0..self.random.below(6) {
            let number = self.random.sized();
            self.varint(number, &mut run);
        }
        self.key(field.number, LENGTH, out);
        self.lengthy(&run, out);
    }

    /// The length of a text or of bytes: mostly short, at times past what the first byte of a length says, or the
    /// second.
    fn length(&mut self) -> usize {
        match self.random.below(64) {
            0 if self.style != Style::Tidy => self.random.below(20_000),
            1..=4 => 120 + self.random.below(20),
            5..=12 => 0,
            _ => self.random.below(20),
        }
    }

    /// A number that the schema does not have.
    fn skipped_number(&mut self, schema: usize) -> u32 {
        loop {
            let number = match self.random.below(4) {
                0 => 1 + (self.random.number() % u64::from(LAST_NUMBER)) as u32,
                1 => LAST_NUMBER,
                _ => 1 + self.random.below(40) as u32,
            };
            if SCHEMAS[schema].field(number).is_none() {
                return number;
            }
        }
    }

    fn wire_type(&mut self) -> u8 {
        *self
            .random
            .pick(&[VARINT, EIGHT_BYTES, LENGTH, GROUP, FOUR_BYTES])
    }

    fn skipped_record(&mut self, number: u32, wire_type: u8, depth: usize, out: &mut Vec<u8>) {
        if wire_type == GROUP {
            return self.group(number, depth, out);
        }
        self.key(number, wire_type, out);
        match wire_type {
            VARINT => {
                let number = self.random.sized();
                self.varint(number, out);
            }
            EIGHT_BYTES => out.extend(self.random.bytes(8)),
            LENGTH => {
                let length = self.random.below(12);
                let bytes = self.random.bytes(length);
                self.lengthy(&bytes, out);
            }
            _ => out.extend(self.random.bytes(4)),
        }
    }

    /// A group of records of any numbers.
    fn group(&mut self, number: u32, depth: usize, out: &mut Vec<u8>) {
        self.key(number, GROUP, out);
        let most = if depth > 3 { 1 } else { 4 };
        for _ in 0..self.random.below(most) {
            let inner = 1 + self.random.below(20) as u32;
            let wire_type = self.wire_type();
            self.skipped_record(inner, wire_type, depth + 1, out);
        }
        self.key(number, GROUP_END, out);
    }

    /// A record that makes the payload malformed, or what follows it, by most of its ways.
    fn spoilt_record(&mut self, fields: &'static [Field], out: &mut Vec<u8>) {
        let number = fields.first().map_or(1, |field| field.number);
        let text = fields.iter().find(|field| field.kind == Kind::Text);
        let packable = fields.iter().find(|field| field.is_packable());
        match self.random.below(14) {
            // a field of another wire type
            0 | 1 if !fields.is_empty() => {
                let number = self.random.pick(fields).number;
                let wire_type = self.wire_type();
                self.skipped_record(number, wire_type, 3, out);
            }
            2 => {
                self.key(99, VARINT, out);
                self.long_varint(out);
            }
            3 => {
                self.key(number, LENGTH, out);
                self.long_varint(out);
            }
            4 => self.long_varint(out),
            // field number 0
            5 => {
                let wire_type = self.wire_type();
                self.skipped_record(0, wire_type, 3, out);
            }
            // a key past 32 bits
            6 => {
                let past = (1 << 32) + self.random.sized() % (1 << 20);
                self.varint(past, out);
                self.varint(0, out);
            }
            7 => self.key(number, GROUP_END, out),
            8 => {
                self.key(99, GROUP, out);
                self.key(98, GROUP_END, out);
            }
            // wire types that are none
            9 => {
                let wire_type = 6 + self.random.below(2) as u8;
                self.key(number, wire_type, out);
                self.varint(0, out);
            }
            // a group without end
            10 => self.key(99, GROUP, out),
            11 => {
                self.key(99, LENGTH, out);
                let length = self.random.sized();
                self.varint(length, out);
            }
            12 => {
                if let Some(field) = text {
                    let length = 1 + self.random.below(4);
                    let bytes = self.random.bytes(length);
                    self.key(field.number, LENGTH, out);
                    self.lengthy(&bytes, out);
                }
            }
            // a run that is cut in the middle of a number, or a record that is
            _ => match packable {
                Some(field) => {
                    self.key(field.number, LENGTH, out);
                    self.lengthy(&[1, 0x80], out);
                }
                None => self.key(number, VARINT, out),
            },
        }
    }

    /// A varint whose tenth byte is too large, or of eleven bytes.
    fn long_varint(&mut self, out: &mut Vec<u8>) {
        out.extend([0x80 | self.random.number() as u8; 9]);
        if self.random.one_in(2) {
            out.push(2 + self.random.below(126) as u8);
        } else {
            out.extend([0x81, 0]);
        }
    }

    fn key(&mut self, number: u32, wire_type: u8, out: &mut Vec<u8>) {
        self.varint(key(number, wire_type), out);
    }

    fn lengthy(&mut self, bytes: &[u8], out: &mut Vec<u8>) {
        self.varint(bytes.len() as u64, out);
        out.extend_from_slice(bytes);
    }

    /// A number, at times in a longer encoding than it needs.
    fn varint(&mut self, number: u64, out: &mut Vec<u8>) {
        let start = out.len();
        put_varint(number, out);
        let shortest = out.len() - start;
        if self.style != Style::Tidy && shortest < 10 && self.random.one_in(10) {
            let length = shortest + 1 + self.random.below(10 - shortest);
            if let Some(last) = out.last_mut() {
                *last |= 0x80;
            }
            out.resize(start + length - 1, 0x80);
            out.push(0);
        }
    }
}

/// Changes some bytes: flips, inserts, drops and doubles them, or cuts the end off.
pub fn damage(random: &mut Random, bytes: &mut Vec<u8>) {
    for _ in 0..=random.below(3) {
        let place = random.below(bytes.len() + 1);
        match random.below(6) {
            0 | 1 if place < bytes.len() => bytes[place] ^= 1 << random.below(8),
            2 if place < bytes.len() => drop(bytes.remove(place)),
            3 => bytes.truncate(place),
            4 if place < bytes.len() => {
                let end = place + random.below((bytes.len() - place).min(16) + 1);
                bytes.extend_from_within(place..end);
            }
            _ => bytes.insert(place, random.number() as u8),
        }
    }
}
