//! Lines of conformance/*.txt: a case and its expected result. conformance/README.md describes them.

use std::fmt::{self, Write};

use crate::peer::{self, Decoder, Refusal};
use crate::rules::{self, Meaning};
use crate::schema::{schema_of, type_of, type_of_code, MessageType};
use crate::table::SCHEMAS;

/// The input of a test vector, before the ` = ` of its line.
#[derive(Clone, Debug)]
pub enum Case {
    /// The canonical payload of what a payload means.
    Payload { schema: usize, payload: Vec<u8> },
    /// The canonical payload of what comes of merging payloads, one after the other.
    Merge {
        schema: usize,
        payloads: Vec<Vec<u8>>,
    },
    /// The frame of the message that a payload means.
    Frame {
        message_type: &'static MessageType,
        version: u32,
        payload: Vec<u8>,
    },
    /// The listing of a stream that comes in chunks.
    Stream { version: u32, chunks: Vec<Vec<u8>> },
    /// The record that a canonical payload means, as Rust prints it.
    Record { schema: usize, payload: Vec<u8> },
}

/// The result for a payload that is not well-formed.
pub const MALFORMED: &str = "malformed";

/// The result for a payload that should be canonical and is not.
const NOT_CANONICAL: &str = "not canonical";

impl Case {
    /// Reads what is before the ` = ` of a line.
    pub fn read(text: &str) -> Option<Case> {
        let mut words = text.split(' ');
        let case = match words.next()? {
            "payload" => Case::Payload {
                schema: schema_of(words.next()?)?,
                payload: bytes(words.next()?)?,
            },
            "merge" => Case::Merge {
                schema: schema_of(words.next()?)?,
                payloads: several_bytes(&mut words).filter(|payloads| payloads.len() > 1)?,
            },
            "frame" => Case::Frame {
                message_type: type_of(words.next()?)?,
                version: version(words.next()?)?,
                payload: bytes(words.next()?)?,
            },
            "stream" => Case::Stream {
                version: version(words.next()?)?,
                chunks: several_bytes(&mut words)?,
            },
            "record" => Case::Record {
                schema: schema_of(words.next()?)?,
                payload: bytes(words.next()?)?,
            },
            _ => return None,
        };
        words.next().is_none().then_some(case)
    }

    /// How many bytes the case has.
    pub fn size(&self) -> usize {
        match self {
            Case::Payload { payload, .. }
            | Case::Frame { payload, .. }
            | Case::Record { payload, .. } => payload.len(),
            Case::Merge { payloads, .. } => payloads.iter().map(Vec::len).sum(),
            Case::Stream { chunks, .. } => chunks.iter().map(Vec::len).sum(),
        }
    }

    /// What the baseline returns.
    pub fn by_peer(&self) -> String {
        match self {
            Case::Payload { schema, payload } => written(peer::canonical(*schema, payload)),
            Case::Merge { schema, payloads } => written(peer::merge(*schema, slices(payloads))),
            Case::Frame {
                message_type,
                version,
                payload,
            } => written(peer::frame(*version, message_type.code, payload, 1)),
            Case::Stream { version, chunks } => list_by_peer(*version, chunks),
            Case::Record { schema, payload } => match peer::canonical(*schema, payload) {
                Ok(canonical) if canonical == *payload => record_by_peer(*schema, payload),
                Ok(_) => NOT_CANONICAL.into(),
                Err(refusal) => refused(&refusal),
            },
        }
    }

    /// What the rules return, except for the text of a record, since they know no names: of its payload they return
    /// whether it is canonical.
    fn by_rules(&self) -> ByRules {
        match self {
            Case::Payload { schema, payload } | Case::Record { schema, payload } => {
                ByRules::new(Meaning::of(*schema, [payload.as_slice()]), |meaning| {
                    Some(meaning.payload())
                })
            }
            Case::Merge { schema, payloads } => {
                ByRules::new(Meaning::of(*schema, slices(payloads)), |meaning| {
                    Some(meaning.payload())
                })
            }
            Case::Frame {
                message_type,
                version,
                payload,
            } => ByRules::new(
                Meaning::of(message_type.schema, [payload.as_slice()]),
                |meaning| meaning.frame(message_type, *version),
            ),
            Case::Stream { version, chunks } => ByRules {
                result: list_by_rules(*version, &chunks.concat()),
                departs: false,
            },
        }
    }

    /// What both readers return.
    pub fn judge(&self) -> Result<Verdict, Disagreement> {
        let peer = self.by_peer();
        let rules = self.by_rules();
        let agreed = match self {
            Case::Record { payload, .. } => rules.result == hex(payload),
            _ if rules.departs => peer == MALFORMED,
            _ => rules.result == peer,
        };
        if !agreed {
            return Err(Disagreement {
                peer,
                rules: rules.result,
            });
        }
        Ok(Verdict {
            result: match self {
                Case::Record { .. } => peer,
                _ => rules.result,
            },
            departs: rules.departs,
        })
    }
}

impl fmt::Display for Case {
    fn fmt(&self, f: &mut fmt::Formatter<'_>) -> fmt::Result {
        match self {
            Case::Payload { schema, payload } => {
                write!(f, "payload {} {}", SCHEMAS[*schema].name, hex(payload))
            }
            Case::Merge { schema, payloads } => {
                write!(f, "merge {}", SCHEMAS[*schema].name)?;
                write_several(f, payloads)
            }
            Case::Frame {
                message_type,
                version,
                payload,
            } => write!(f, "frame {} {version} {}", message_type.name, hex(payload)),
            Case::Stream { version, chunks } => {
                write!(f, "stream {version}")?;
                write_several(f, chunks)
            }
            Case::Record { schema, payload } => {
                write!(f, "record {} {}", SCHEMAS[*schema].name, hex(payload))
            }
        }
    }
}

/// What both readers return, where they agree.
#[derive(Clone, Debug, PartialEq, Eq)]
pub struct Verdict {
    pub result: String,
    /// Whether the result is only that of the rules: prost rejects it, since a skipped record is on the last level. It
    /// counts a level for each record that it skips; the rules count one only for messages and groups.
    pub departs: bool,
}

/// Results of readers that differ, and not as is known.
#[derive(Clone, Debug, PartialEq, Eq)]
pub struct Disagreement {
    pub peer: String,
    pub rules: String,
}

impl fmt::Display for Disagreement {
    fn fmt(&self, f: &mut fmt::Formatter<'_>) -> fmt::Result {
        write!(f, "  prost:     {}\n  the rules: {}", self.peer, self.rules)
    }
}

struct ByRules {
    result: String,
    departs: bool,
}

impl ByRules {
    fn new(
        meaning: Option<Meaning>,
        bytes_of: impl FnOnce(&Meaning) -> Option<Vec<u8>>,
    ) -> ByRules {
        let departs = matches!(&meaning, Some(meaning) if meaning.skips_on_last_level);
        let result = meaning
            .and_then(|meaning| bytes_of(&meaning))
            .map_or_else(|| MALFORMED.into(), |bytes| hex(&bytes));
        ByRules { result, departs }
    }
}

/// A line: a case and its expected result.
#[derive(Clone, Debug)]
pub struct Line<'a> {
    pub case: Case,
    pub expected: &'a str,
}

impl Line<'_> {
    /// Reads a line that says something.
    pub fn read(text: &str) -> Option<Line<'_>> {
        let (case, expected) = text.split_once(" = ")?;
        Some(Line {
            case: Case::read(case)?,
            expected,
        })
    }
}

/// What a line begins with that compares two commands. The readers say nothing of it, since they know payloads and no
/// texts.
const COMPARISON: &str = "compare ";

/// The lines of a text that are neither empty nor remarks nor comparisons, each with its number.
pub fn lines(text: &str) -> impl Iterator<Item = (usize, &str)> {
    text.lines()
        .enumerate()
        .filter(|(_, line)| {
            !line.is_empty() && !line.starts_with('#') && !line.starts_with(COMPARISON)
        })
        .map(|(place, line)| (place + 1, line))
}

/// Bytes as hex digits, or `-` where there are none.
pub fn hex(bytes: &[u8]) -> String {
    if bytes.is_empty() {
        return "-".into();
    }
    bytes.iter().fold(String::new(), |mut text, byte| {
        let _ = write!(text, "{byte:02x}");
        text
    })
}

/// The bytes of a word.
fn bytes(word: &str) -> Option<Vec<u8>> {
    if word == "-" {
        return Some(Vec::new());
    }
    let is_digit = |digit: &u8| digit.is_ascii_digit() || (b'a'..=b'f').contains(digit);
    if word.is_empty() || word.len() % 2 != 0 || !word.as_bytes().iter().all(is_digit) {
        return None;
    }
    (0..word.len() / 2)
        .map(|place| u8::from_str_radix(&word[2 * place..2 * place + 2], 16).ok())
        .collect()
}

/// The bytes of all words that are left. There is at least one.
fn several_bytes<'a>(words: &mut impl Iterator<Item = &'a str>) -> Option<Vec<Vec<u8>>> {
    let several: Vec<_> = words.map(bytes).collect::<Option<_>>()?;
    (!several.is_empty()).then_some(several)
}

fn version(word: &str) -> Option<u32> {
    matches!(word, "5" | "6" | "7" | "8" | "9")
        .then(|| word.parse().ok())
        .flatten()
}

fn slices(several: &[Vec<u8>]) -> impl Iterator<Item = &[u8]> {
    several.iter().map(Vec::as_slice)
}

fn write_several(f: &mut fmt::Formatter<'_>, several: &[Vec<u8>]) -> fmt::Result {
    several
        .iter()
        .try_for_each(|bytes| write!(f, " {}", hex(bytes)))
}

fn written<T: AsRef<[u8]>>(result: Result<T, Refusal>) -> String {
    match result {
        Ok(bytes) => hex(bytes.as_ref()),
        Err(refusal) => refused(&refusal),
    }
}

fn refused(refusal: &Refusal) -> String {
    match refusal {
        Refusal::Malformed(_) => MALFORMED.into(),
        Refusal::Unknown => "unknown".into(),
    }
}

/// A record as Rust prints it, enums by their numbers.
fn record_by_peer(schema: usize, payload: &[u8]) -> String {
    const NAMED: [(&str, &str); 3] = [
        ("combinator_type: Zero", "combinator_type: 0"),
        ("behavior: Retry", "behavior: 0"),
        ("behavior: Pause", "behavior: 1"),
    ];
    match peer::text(schema, payload) {
        Ok(text) => NAMED
            .iter()
            .fold(text, |text, (name, number)| text.replace(name, number)),
        Err(refusal) => refused(&refusal),
    }
}

/// A listing: an entry for each item, and how many bytes are in none.
#[derive(Default)]
pub struct Listing(String);

impl Listing {
    pub fn message(&mut self, code: u16, acknowledge: bool, length: usize) {
        match type_of_code(code) {
            Some(message_type) => self.0 += message_type.name,
            None => {
                let _ = write!(self.0, "CustomEntry({code})");
            }
        }
        let acknowledge = if acknowledge { " ack" } else { "" };
        let _ = write!(self.0, " {length}{acknowledge}, ");
    }

    pub fn unknown(&mut self, code: u16) {
        let _ = write!(self.0, "unknown 0x{code:x}, ");
    }

    pub fn skipped(&mut self, code: u16, length: usize) {
        let _ = write!(self.0, "skipped 0x{code:x} {length}, ");
    }

    pub fn rest(mut self, rest: usize) -> String {
        let _ = write!(self.0, "rest {rest}");
        self.0
    }
}

fn list_by_peer(version: u32, chunks: &[Vec<u8>]) -> String {
    let mut decoder = Decoder::new(version);
    let mut listing = Listing::default();
    for chunk in chunks {
        decoder.push(chunk.clone().into());
        while let Some(item) = decoder.next_item() {
            match item {
                peer::Item::Message(header, payload) => {
                    listing.message(header.code, header.acknowledge, payload.len());
                }
                peer::Item::Unknown(code) => listing.unknown(code),
                peer::Item::Skipped(code, payload) => listing.skipped(code, payload.len()),
            }
        }
    }
    listing.rest(decoder.pending())
}

fn list_by_rules(version: u32, stream: &[u8]) -> String {
    let (items, rest) = rules::items(version, stream);
    let mut listing = Listing::default();
    for item in items {
        match item {
            rules::Item::Message {
                code,
                acknowledge,
                payload,
            } => listing.message(code, acknowledge, payload.len()),
            rules::Item::Unknown(code) => listing.unknown(code),
            rules::Item::Skipped { code, payload } => listing.skipped(code, payload.len()),
        }
    }
    listing.rest(rest)
}
