//! Random cases, as one of a comparison and as those of the written files.

use std::collections::HashSet;

use crate::conformance::{Case, Disagreement, Verdict};
use crate::random::{damage, Payloads, Random, Style};
use crate::schema::{type_of, MessageType};
use crate::streams;
use crate::table::{SCHEMAS, TYPES};

/// The most bytes of most random cases. Few have as many as come.
const LONG: usize = 900;

/// The most bytes of a written case, but of a deep payload, and of a stream.
const SHORT: usize = 110;
const DEEP: usize = 700;
const STREAM: usize = 240;

/// How many cases are written for each schema, for each message type at each version, and of streams.
const OF_A_SCHEMA: usize = 200;
const OF_A_TYPE: usize = 6;
const OF_STREAMS: usize = 400;

/// The seed of the written files.
const SEED: u64 = 53;

/// A payload for a schema, of any make.
pub fn any_payload(random: &mut Random, schema: usize) -> Vec<u8> {
    match random.below(16) {
        0 => Payloads::new(random, Style::Free).deep(schema),
        1 => damaged(random, |random| {
            Payloads::new(random, Style::Free).deep(schema)
        }),
        2 => Payloads::new(random, Style::Tidy).payload(schema),
        3..=5 => Payloads::new(random, Style::Spoilt).payload(schema),
        6..=8 => damaged(random, |random| {
            Payloads::new(random, Style::Free).payload(schema)
        }),
        9 => {
            let length = random.below(12);
            random.bytes(length)
        }
        _ => Payloads::new(random, Style::Free).payload(schema),
    }
}

fn damaged(random: &mut Random, make: impl Fn(&mut Random) -> Vec<u8>) -> Vec<u8> {
    let mut payload = make(random);
    damage(random, &mut payload);
    payload
}

/// A length of chunks: 0 for one chunk, mostly short ones.
pub fn any_chunk(random: &mut Random, length: usize) -> usize {
    match random.below(4) {
        0 => random.below(2),
        1 => 1 + random.below(12),
        2 => 1 + random.below(length + 1),
        _ => *random.pick(&[0, 8, 16, 64, 4096]),
    }
}

/// A version from 5 to 9.
pub fn any_version(random: &mut Random) -> u32 {
    5 + random.below(5) as u32
}

/// A case of any kind and size.
pub fn any(random: &mut Random) -> Case {
    match random.below(8) {
        0..=3 => {
            let schema = random.below(SCHEMAS.len());
            a_payload(random, schema)
        }
        4 | 5 => {
            let schema = random.below(SCHEMAS.len());
            a_merge(random, schema)
        }
        6 => {
            // the types whose frames the version changes come often
            let message_type = match random.below(6) {
                0 => type_of("Suspension"),
                1 => type_of("ProposeRunCompletion"),
                _ => None,
            };
            let message_type = message_type.unwrap_or_else(|| random.pick(&TYPES));
            let version = any_version(random);
            a_frame(random, message_type, version)
        }
        _ => a_stream(random),
    }
}

/// A case of any kind, and mostly of a few hundred bytes at most.
pub fn any_handy(random: &mut Random) -> Case {
    let most = if random.one_in(200) { usize::MAX } else { LONG };
    within(random, most, any)
}

/// A case of at most this many bytes.
fn within(random: &mut Random, most: usize, make: impl Fn(&mut Random) -> Case) -> Case {
    loop {
        let case = make(random);
        if case.size() <= most {
            return case;
        }
    }
}

fn a_payload(random: &mut Random, schema: usize) -> Case {
    Case::Payload {
        schema,
        payload: any_payload(random, schema),
    }
}

/// A payload with records near the last level.
fn a_deep_payload(random: &mut Random, schema: usize) -> Case {
    let deep = |random: &mut Random| Payloads::new(random, Style::Free).deep(schema);
    let payload = if random.one_in(3) {
        damaged(random, deep)
    } else {
        deep(random)
    };
    Case::Payload { schema, payload }
}

/// A canonical payload.
fn a_canonical_payload(random: &mut Random, schema: usize) -> Case {
    let payload = Payloads::new(random, Style::Tidy).payload(schema);
    Case::Payload {
        schema,
        payload: crate::peer::canonical(schema, &payload).unwrap_or_default(),
    }
}

/// Payloads to be merged: two, and at times more. Mostly all of them are well-formed.
fn a_merge(random: &mut Random, schema: usize) -> Case {
    let any = random.one_in(4);
    let make = |random: &mut Random| match random.below(4) {
        _ if any => any_payload(random, schema),
        0 => Payloads::new(random, Style::Tidy).payload(schema),
        _ => Payloads::new(random, Style::Free).payload(schema),
    };
    let count = if random.one_in(6) {
        3 + random.below(2)
    } else {
        2
    };
    Case::Merge {
        schema,
        payloads: (0..count).map(|_| make(random)).collect(),
    }
}

fn a_frame(random: &mut Random, message_type: &'static MessageType, version: u32) -> Case {
    Case::Frame {
        message_type,
        version,
        payload: any_payload(random, message_type.schema),
    }
}

/// A stream in chunks of all lengths, or of one.
fn a_stream(random: &mut Random) -> Case {
    let damaged = random.one_in(2);
    let stream = streams::any(random, damaged);
    let version = any_version(random);
    let alike = any_chunk(random, stream.len());
    let varied = random.one_in(2);
    let mut chunks = Vec::new();
    let mut rest = stream.as_slice();
    while !rest.is_empty() {
        let length = match alike {
            _ if varied => random.below(2 * 12),
            0 => rest.len(),
            _ => alike,
        };
        let (chunk, behind) = rest.split_at(length.min(rest.len()));
        chunks.push(chunk.to_vec());
        rest = behind;
    }
    if chunks.is_empty() {
        chunks.push(Vec::new());
    }
    Case::Stream { version, chunks }
}

/// A file of cases that are written down.
pub struct File {
    pub name: &'static str,
    pub text: String,
    /// The number of its results that are only those of the rules.
    pub departures: usize,
    /// The cases that it has.
    seen: HashSet<String>,
}

impl File {
    fn new(name: &'static str, what: &str) -> File {
        File {
            name,
            text: format!(
                "# {what}\n# Random cases with the results of prost and of the rules, written by \
                 bench/src/bin/vectors.rs; see README.md.\n"
            ),
            departures: 0,
            seen: HashSet::new(),
        }
    }

    fn section(&mut self, what: &str) {
        self.text += &format!("\n# {what}\n");
    }

    /// Adds a case, and returns whether the file did not have it already.
    fn add(&mut self, case: &Case) -> Result<bool, Failed> {
        let text = case.to_string();
        if self.seen.contains(&text) {
            return Ok(false);
        }
        let Verdict { result, departs } = judge(case)?;
        self.text += &format!("{text} = {result}\n");
        self.departures += usize::from(departs);
        self.seen.insert(text);
        Ok(true)
    }
}

/// A case on which the readers differ.
#[derive(Debug)]
pub struct Failed {
    pub case: Case,
    pub results: Disagreement,
}

/// What both readers return for a case.
pub fn judge(case: &Case) -> Result<Verdict, Failed> {
    case.judge().map_err(|results| Failed {
        case: case.clone(),
        results,
    })
}

/// A file of payloads and merges: its name, what its messages are, and the least and the greatest code of their types,
/// where they have one.
struct Group(&'static str, &'static str, Option<(u16, u16)>);

const GROUPS: [Group; 5] = [
    Group(
        "random_parts.txt",
        "Messages that are nested in others, and those that no message type has.",
        None,
    ),
    Group(
        "random_runtime.txt",
        "How an invocation starts, suspends, fails and ends.",
        Some((0, 0x03FF)),
    ),
    Group(
        "random_state_commands.txt",
        "Commands on input, output and state.",
        Some((0x0400, 0x0408)),
    ),
    Group(
        "random_call_commands.txt",
        "Commands on promises, time, calls, signals and invocations.",
        Some((0x0409, 0x7FFF)),
    ),
    Group(
        "random_notifications.txt",
        "Notifications.",
        Some((0x8000, 0xFBFF)),
    ),
];

impl Group {
    fn has(&self, schema: usize) -> bool {
        match (self.2, code_of(schema)) {
            (Some((least, greatest)), Some(code)) => (least..=greatest).contains(&code),
            (codes, code) => codes.is_none() && code.is_none(),
        }
    }

    fn file(&self) -> Result<File, Failed> {
        let mut file = File::new(self.0, self.1);
        for schema in (0..SCHEMAS.len()).filter(|schema| self.has(*schema)) {
            file.section(SCHEMAS[schema].name);
            of_schema(&mut file, schema)?;
        }
        Ok(file)
    }
}

/// The files of random cases that conformance/ has.
pub fn files() -> Result<Vec<File>, Failed> {
    let mut files: Vec<File> = GROUPS.iter().map(Group::file).collect::<Result<_, _>>()?;
    files.push(frames()?);
    files.push(random_streams()?);
    Ok(files)
}

/// The code of the message type whose payloads a schema has.
fn code_of(schema: usize) -> Option<u16> {
    TYPES
        .iter()
        .find(|message_type| message_type.schema == schema)
        .map(|message_type| message_type.code)
}

fn of_schema(file: &mut File, schema: usize) -> Result<(), Failed> {
    let mut count = 0;
    // where few cases are different, not as many are found
    for place in 0..2 * OF_A_SCHEMA {
        if count == OF_A_SCHEMA {
            break;
        }
        let random = &mut Random::new(SEED, (2 * OF_A_SCHEMA * schema + place) as u64);
        let case = match place % 50 {
            0 => within(random, DEEP, |random| a_deep_payload(random, schema)),
            1..=3 => within(random, SHORT, |random| a_canonical_payload(random, schema)),
            4..=15 => within(random, SHORT, |random| a_merge(random, schema)),
            _ => within(random, SHORT, |random| a_payload(random, schema)),
        };
        count += usize::from(file.add(&case)?);
    }
    Ok(())
}

fn frames() -> Result<File, Failed> {
    let mut file = File::new(
        "random_frames.txt",
        "Frames of all message types at each version.",
    );
    let mut number = 1_000_000;
    for message_type in &TYPES {
        file.section(message_type.name);
        let changes = matches!(message_type.name, "Suspension" | "ProposeRunCompletion");
        let count = if changes { 4 * OF_A_TYPE } else { OF_A_TYPE };
        for version in 5..=9 {
            for _ in 0..count {
                number += 1;
                let random = &mut Random::new(SEED, number);
                let make = |random: &mut Random| a_frame(random, message_type, version);
                file.add(&within(random, SHORT, make))?;
            }
        }
    }
    Ok(file)
}

fn random_streams() -> Result<File, Failed> {
    let mut file = File::new(
        "random_streams.txt",
        "Streams in chunks, with types of all kinds, codes of none, and bits that say nothing.",
    );
    file.section("Whole, cut short and damaged");
    for place in 0..OF_STREAMS {
        let random = &mut Random::new(SEED, 2_000_000 + place as u64);
        file.add(&within(random, STREAM, a_stream))?;
    }
    Ok(file)
}
