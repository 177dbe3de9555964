//! The baseline, which is the side `peer`: the protocol over prost and shared buffers, as one writes it in ordinary
//! Rust.
//!
//! A payload is cut out of the chunks received and not copied, unless it lies across several; `bytes` fields are parts
//! of the payload.

use std::collections::VecDeque;
use std::hint::black_box;
use std::mem;

use bytes::{Buf, BufMut, Bytes, BytesMut};
use prost::{DecodeError, Message};

use crate::records::{Future, SuspensionMessage, SuspensionMessageV6};
use crate::table::{with_message, with_schema};

const HEADER: usize = 8;
const ACKNOWLEDGE: u64 = 1 << 47;
pub const SUSPENSION: u16 = 0x0001;
pub const PROPOSE_RUN_COMPLETION: u16 = 0x0005;

/// The version from which on futures are sent as trees, and the proposal of a run's result requests an acknowledgement.
pub const FUTURES: u32 = 7;

/// The version from which on a message of an unknown type is skipped with its payload.
const SKIPS: u32 = 9;

/// Why a call returns no result.
#[derive(Debug)]
pub enum Refusal {
    Malformed(DecodeError),
    Unknown,
}

impl From<DecodeError> for Refusal {
    fn from(error: DecodeError) -> Refusal {
        Refusal::Malformed(error)
    }
}

/// What comes before a payload.
#[derive(Clone, Copy, Debug, PartialEq, Eq)]
pub struct Header {
    pub code: u16,
    pub acknowledge: bool,
    pub length: u32,
}

impl Header {
    pub fn word(self) -> u64 {
        let acknowledge = if self.acknowledge { ACKNOWLEDGE } else { 0 };
        u64::from(self.code) << 48 | acknowledge | u64::from(self.length)
    }
}

fn is_named(code: u16) -> bool {
    with_message!(code, _Record => true, _ => false)
}

/// Whether a code is that of a custom entry, if no type of a name has it.
fn is_custom(code: u16) -> bool {
    code & 0xFC00 != 0
}

/// Eight bytes of a stream.
#[derive(Clone, Copy, Debug)]
enum Head {
    Message(Header),
    /// The code is that of no type.
    Unknown {
        code: u16,
        length: u32,
    },
}

impl Head {
    fn read(word: u64) -> Head {
        let code = (word >> 48) as u16;
        let length = word as u32;
        if !is_custom(code) && !is_named(code) {
            return Head::Unknown { code, length };
        }
        Head::Message(Header {
            code,
            acknowledge: code == PROPOSE_RUN_COMPLETION && word & ACKNOWLEDGE != 0,
            length,
        })
    }

    fn length(self) -> usize {
        match self {
            Head::Message(Header { length, .. }) | Head::Unknown { length, .. } => length as usize,
        }
    }
}

/// What a stream is made of.
#[derive(Clone, Debug, PartialEq, Eq)]
pub enum Item {
    Message(Header, Bytes),
    /// A header whose code is that of no type.
    Unknown(u16),
    /// The same with its payload.
    Skipped(u16, Bytes),
}

impl Item {
    /// The header's word, or what one has in the places of the code and the length.
    pub fn word(&self) -> u64 {
        match self {
            Item::Message(header, _) => header.word(),
            Item::Unknown(code) => u64::from(*code) << 48,
            Item::Skipped(code, payload) => u64::from(*code) << 48 | payload.len() as u64,
        }
    }
}

/// Reads a stream that comes in chunks.
#[derive(Debug)]
pub struct Decoder {
    /// What came and was not taken; none of the chunks is empty.
    chunks: VecDeque<Bytes>,
    pending: usize,
    /// The eight bytes after which the payload has not come yet.
    head: Option<Head>,
    /// The word of the last header that was taken.
    word: u64,
    /// Whether a message of an unknown type is skipped with its payload.
    skips: bool,
}

impl Decoder {
    pub fn new(version: u32) -> Decoder {
        Decoder {
            chunks: VecDeque::new(),
            pending: 0,
            head: None,
            word: 0,
            skips: version >= SKIPS,
        }
    }

    pub fn push(&mut self, chunk: Bytes) {
        if !chunk.is_empty() {
            self.pending += chunk.len();
            self.chunks.push_back(chunk);
        }
    }

    /// How many bytes came that no item has taken.
    pub fn pending(&self) -> usize {
        self.pending + self.head.map_or(0, |_| HEADER)
    }

    /// The word of the header of the last item.
    pub fn word(&self) -> u64 {
        self.word
    }

    /// The bytes that were received and that no item has taken.
    pub fn pending_bytes(&self) -> Vec<u8> {
        let head = self.head.map(|_| self.word.to_be_bytes());
        let mut bytes = Vec::from_iter(head.into_iter().flatten());
        self.chunks.iter().for_each(|chunk| bytes.extend(chunk));
        bytes
    }

    /// The next item, if all of it was received.
    pub fn next_item(&mut self) -> Option<Item> {
        let head = match self.head.take() {
            Some(head) => head,
            None => {
                self.word = self.take_word()?;
                Head::read(self.word)
            }
        };
        if let (Head::Unknown { code, .. }, false) = (head, self.skips) {
            return Some(Item::Unknown(code));
        }
        match self.take(head.length()) {
            Some(payload) => Some(match head {
                Head::Message(header) => Item::Message(header, payload),
                Head::Unknown { code, .. } => Item::Skipped(code, payload),
            }),
            None => {
                self.head = Some(head);
                None
            }
        }
    }

    fn take_word(&mut self) -> Option<u64> {
        if self.pending < HEADER {
            return None;
        }
        self.pending -= HEADER;
        match self.chunks.front_mut() {
            Some(chunk) if chunk.len() > HEADER => Some(chunk.get_u64()),
            _ => Some(self.collect(0, HEADER, |word, bytes| {
                bytes
                    .iter()
                    .fold(word, |word, &byte| word << 8 | u64::from(byte))
            })),
        }
    }

    fn take(&mut self, length: usize) -> Option<Bytes> {
        if self.pending < length {
            return None;
        }
        self.pending -= length;
        match self.chunks.front_mut() {
            None => Some(Bytes::new()),
            Some(chunk) if chunk.len() > length => Some(chunk.split_to(length)),
            Some(chunk) if chunk.len() == length => self.chunks.pop_front(),
            Some(_) => {
                let joined =
                    self.collect(Vec::with_capacity(length), length, |mut joined, bytes| {
                        joined.extend_from_slice(bytes);
                        joined
                    });
                Some(joined.into())
            }
        }
    }

    /// Takes bytes that may lie across several chunks, part by part.
    fn collect<T>(&mut self, start: T, length: usize, add: impl Fn(T, &[u8]) -> T) -> T {
        let mut sum = start;
        let mut missing = length;
        while let Some(chunk) = self.chunks.front_mut() {
            if chunk.len() > missing {
                sum = add(sum, &chunk.split_to(missing));
                break;
            }
            missing -= chunk.len();
            sum = add(sum, chunk);
            self.chunks.pop_front();
        }
        sum
    }
}

/// The items of a stream that comes in chunks of a length (0: in one), each read before the next chunk comes.
pub struct Items {
    decoder: Decoder,
    rest: Bytes,
    chunk: usize,
}

impl Items {
    pub fn new(version: u32, stream: Bytes, chunk: usize) -> Items {
        Items {
            decoder: Decoder::new(version),
            chunk: if chunk == 0 { stream.len() } else { chunk },
            rest: stream,
        }
    }
}

impl Iterator for Items {
    type Item = Item;

    fn next(&mut self) -> Option<Item> {
        loop {
            if let Some(item) = self.decoder.next_item() {
                return Some(item);
            }
            if self.rest.is_empty() {
                return None;
            }
            let chunk = self.rest.split_to(self.chunk.min(self.rest.len()));
            self.decoder.push(chunk);
        }
    }
}

/// A word for each item of a stream, which is copied once and read several times.
pub fn items(version: u32, stream: &[u8], chunk: usize, rounds: usize, words: &mut Vec<u64>) {
    let stream = Bytes::copy_from_slice(stream);
    for _ in 0..rounds.max(1) {
        words.clear();
        words.extend(Items::new(version, stream.clone(), chunk).map(|item| item.word()));
    }
}

/// Decodes each message of a named type of a stream, and returns how many there are.
pub fn messages(
    version: u32,
    stream: &[u8],
    chunk: usize,
    rounds: usize,
) -> Result<usize, Refusal> {
    let stream = Bytes::copy_from_slice(stream);
    let mut count = 0;
    for _ in 0..rounds.max(1) {
        count = 0;
        for item in Items::new(version, stream.clone(), chunk) {
            if let Item::Message(header, payload) = item {
                count += usize::from(decode(header.code, payload)?);
            }
        }
    }
    Ok(count)
}

/// Decodes a message if its type has a name, and returns whether it has.
fn decode(code: u16, payload: Bytes) -> Result<bool, DecodeError> {
    with_message!(
        code,
        Record => {
            // looked at, so that decoding it is not dead code
            black_box(&Record::decode(payload)?);
            Ok(true)
        },
        _ => Ok(false),
    )
}

/// Decodes each command of a stream twice, compares the two `rounds` times by their derived `==`, and returns the
/// number of comparisons that hold.
pub fn compare(version: u32, stream: &[u8], rounds: usize) -> Result<usize, Refusal> {
    let stream = Bytes::copy_from_slice(stream);
    let mut count = 0;
    for item in Items::new(version, stream, 0) {
        if let Item::Message(header, payload) = item {
            if is_command(header.code) {
                count += compare_command(header.code, payload, rounds)?;
            }
        }
    }
    Ok(count)
}

/// Whether a code is that of a command of a named type.
pub fn is_command(code: u16) -> bool {
    code >> 8 == 0x04 && is_named(code)
}

fn compare_command(code: u16, payload: Bytes, rounds: usize) -> Result<usize, DecodeError> {
    with_message!(
        code,
        Record => {
            let first = Record::decode(payload.clone())?;
            let second = Record::decode(payload)?;
            Ok(count_same(&first, &second, rounds))
        },
        _ => Ok(0),
    )
}

/// The number of comparisons of two records that hold, of `rounds`.
fn count_same<R: PartialEq>(first: &R, second: &R, rounds: usize) -> usize {
    // they take turns, so that no round can be left out for being the one before it
    let (mut asked, mut other) = (first, second);
    let mut count = 0;
    for _ in 0..rounds {
        if asked == other {
            count += 1;
        }
        (asked, other) = (other, asked);
    }
    count
}

/// Decodes a payload to its record this many times, and drops it; returns how often it did.
pub fn decode_in_rounds(schema: usize, payload: &Bytes, rounds: usize) -> Result<usize, Refusal> {
    with_schema!(
        schema,
        Record => {
            for _ in 0..rounds {
                black_box(Record::decode(payload.clone())?);
            }
            Ok(rounds)
        },
        _ => Err(Refusal::Unknown),
    )
}

/// The canonical payload of what a payload means.
pub fn canonical(schema: usize, payload: &[u8]) -> Result<Vec<u8>, Refusal> {
    let payload = Bytes::copy_from_slice(payload);
    with_schema!(
        schema,
        Record => Ok(Record::decode(payload)?.encode_to_vec()),
        _ => Err(Refusal::Unknown),
    )
}

/// The canonical payload of what comes of merging payloads, one after the other.
pub fn merge<'a>(
    schema: usize,
    payloads: impl IntoIterator<Item = &'a [u8]>,
) -> Result<Vec<u8>, Refusal> {
    with_schema!(
        schema,
        Record => {
            let mut record = Record::default();
            for payload in payloads {
                record.merge(Bytes::copy_from_slice(payload))?;
            }
            Ok(record.encode_to_vec())
        },
        _ => Err(Refusal::Unknown),
    )
}

/// The record that a payload means, as Rust's derived Debug prints it, except for enums: they are printed by the names
/// of their numbers.
pub fn text(schema: usize, payload: &[u8]) -> Result<String, Refusal> {
    let payload = Bytes::copy_from_slice(payload);
    with_schema!(
        schema,
        Record => Ok(format!("{:?}", Record::decode(payload)?)),
        _ => Err(Refusal::Unknown),
    )
}

/// The frame of the message that a payload holds, which is decoded once and encoded several times.
pub fn frame(version: u32, code: u16, payload: &[u8], rounds: usize) -> Result<Bytes, Refusal> {
    let mut last = Bytes::new();
    frames(version, code, payload, rounds, &mut last)?;
    Ok(last)
}

/// The same as a `Vec`.
pub fn frame_vec(
    version: u32,
    code: u16,
    payload: &[u8],
    rounds: usize,
) -> Result<Vec<u8>, Refusal> {
    let mut last = Vec::new();
    frames(version, code, payload, rounds, &mut last)?;
    Ok(last)
}

/// The same in one buffer, which is cleared before each round.
pub fn frame_into(
    version: u32,
    code: u16,
    payload: &[u8],
    rounds: usize,
    out: &mut BytesMut,
) -> Result<(), Refusal> {
    frames(version, code, payload, rounds, out)
}

/// The same out of one buffer, whose blocks the frames share; the last ones are held.
pub fn frame_shared(
    version: u32,
    code: u16,
    payload: &[u8],
    rounds: usize,
) -> Result<Bytes, Refusal> {
    let mut room = Shared {
        block: BytesMut::with_capacity(BLOCK),
        kept: Kept::new(),
    };
    frames(version, code, payload, rounds, &mut room)?;
    Ok(room.kept.last)
}

/// The same, each in a buffer of its own; the last ones are held.
pub fn frame_held(
    version: u32,
    code: u16,
    payload: &[u8],
    rounds: usize,
) -> Result<Bytes, Refusal> {
    let mut room = Kept::new();
    frames(version, code, payload, rounds, &mut room)?;
    Ok(room.last)
}

/// Where frames go: the one that is put in takes the place of the one before.
trait Room {
    fn put(&mut self, code: u16, acknowledge: bool, message: &impl Message);
}

/// A buffer of its own for each frame.
impl Room for Bytes {
    fn put(&mut self, code: u16, acknowledge: bool, message: &impl Message) {
        *self = Bytes::new();
        *self = new_frame(code, acknowledge, message).into();
    }
}

/// A `Vec` of its own for each frame.
impl Room for Vec<u8> {
    fn put(&mut self, code: u16, acknowledge: bool, message: &impl Message) {
        *self = Vec::new();
        *self = new_frame(code, acknowledge, message);
    }
}

/// One buffer for all frames.
impl Room for BytesMut {
    fn put(&mut self, code: u16, acknowledge: bool, message: &impl Message) {
        let length = message.encoded_len();
        self.clear();
        self.reserve(HEADER + length);
        append(code, acknowledge, length, message, self);
    }
}

/// How many frames are held, and the bytes of a block that they share.
const HELD: usize = 1024;
const BLOCK: usize = 65_536;

/// The last frame, and those that are held before it.
struct Kept {
    last: Bytes,
    held: VecDeque<Bytes>,
}

impl Kept {
    fn new() -> Kept {
        Kept {
            last: Bytes::new(),
            held: VecDeque::with_capacity(HELD),
        }
    }

    fn keep(&mut self, frame: Bytes) {
        if self.held.len() == HELD {
            self.held.pop_front();
        }
        self.held.push_back(mem::replace(&mut self.last, frame));
    }
}

/// A buffer of its own for each frame.
impl Room for Kept {
    fn put(&mut self, code: u16, acknowledge: bool, message: &impl Message) {
        self.keep(new_frame(code, acknowledge, message).into());
    }
}

/// One buffer out of which all frames are taken.
struct Shared {
    block: BytesMut,
    kept: Kept,
}

impl Room for Shared {
    fn put(&mut self, code: u16, acknowledge: bool, message: &impl Message) {
        let length = message.encoded_len();
        self.block.reserve(HEADER + length);
        append(code, acknowledge, length, message, &mut self.block);
        self.kept.keep(self.block.split().freeze());
    }
}

/// A frame in a buffer of its own.
fn new_frame(code: u16, acknowledge: bool, message: &impl Message) -> Vec<u8> {
    let length = message.encoded_len();
    let mut frame = Vec::with_capacity(HEADER + length);
    append(code, acknowledge, length, message, &mut frame);
    frame
}

/// Appends a header and the message's payload.
fn append(
    code: u16,
    acknowledge: bool,
    length: usize,
    message: &impl Message,
    out: &mut impl BufMut,
) {
    let header = Header {
        code,
        acknowledge,
        length: length as u32,
    };
    out.put_u64(header.word());
    // `encode` would compute the length once more, to compare it with the room
    message.encode_raw(out);
}

/// Puts the frame of the message that a payload holds `rounds` times.
fn frames(
    version: u32,
    code: u16,
    payload: &[u8],
    rounds: usize,
    room: &mut impl Room,
) -> Result<(), Refusal> {
    let payload = Bytes::copy_from_slice(payload);
    match code {
        SUSPENSION if version < FUTURES => {
            let message = SuspensionMessage::decode(payload)?;
            for _ in 0..rounds.max(1) {
                room.put(code, false, &flattened(&message));
                black_box(&mut *room);
            }
            Ok(())
        }
        _ => with_message!(
            code,
            Record => {
                let message = Record::decode(payload)?;
                let acknowledge = code == PROPOSE_RUN_COMPLETION && version >= FUTURES;
                for _ in 0..rounds.max(1) {
                    room.put(code, acknowledge, &message);
                    black_box(&mut *room);
                }
                Ok(())
            },
            _ => Err(Refusal::Unknown),
        ),
    }
}

/// The suspension as it was sent before futures were trees: all that is awaited, in three lists.
fn flattened(message: &SuspensionMessage) -> SuspensionMessageV6 {
    let mut lists = SuspensionMessageV6::default();
    if let Some(future) = &message.awaiting_on {
        flatten(future, &mut lists);
    }
    lists
}

fn flatten(future: &Future, lists: &mut SuspensionMessageV6) {
    lists
        .waiting_completions
        .extend_from_slice(&future.waiting_completions);
    lists
        .waiting_signals
        .extend_from_slice(&future.waiting_signals);
    lists
        .waiting_named_signals
        .extend_from_slice(&future.waiting_named_signals);
    for nested in &future.nested_futures {
        flatten(nested, lists);
    }
}
