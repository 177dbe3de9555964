//! Measures the crate for Rust against prost: records decoded, two fields read, and encoded, and then streams, frames
//! and JSON, for which prost has the framing that a user writes, below, and serde_json. A line is the record, the work,
//! microseconds of CPU time here and there, and how many times as fast the crate is.

use std::error::Error;
use std::fs;
use std::hint::black_box;

use bytes::{Buf, BufMut, Bytes, BytesMut};
use pendratsoa::messages::{self, MessageRecord};
use pendratsoa::{from_json, to_json, Decoder, Ignored, Item, Replay, Version};
use pendratsoa_bench::records;
use prost::Message;
use serde::de::DeserializeOwned;
use serde::Serialize;

/// How often a work is done in a round, and how many rounds there are.
const COUNT: usize = 10_000;
const ROUNDS: u32 = 50;

fn main() -> Result<(), Box<dyn Error>> {
    let path = concat!(env!("CARGO_MANIFEST_DIR"), "/languages/messages.txt");
    for line in fs::read_to_string(path)?.lines() {
        let (name, digits) = match line.split_once(' ') {
            Some((name, digits)) if name != "#" => (name, digits),
            _ => continue,
        };
        let payload = bytes_of(digits)?;
        match name {
            "SetStateCommandMessage" => measure(
                name,
                &payload,
                |one: &messages::SetStateCommandMessage<'_>| {
                    one.key.len() + one.value.as_ref().map_or(0, |value| value.content.len())
                },
                |one: &records::SetStateCommandMessage| {
                    one.key.len() + one.value.as_ref().map_or(0, |value| value.content.len())
                },
            )?,
            "CallCommandMessage" => measure(
                name,
                &payload,
                |one: &messages::CallCommandMessage<'_>| {
                    one.service_name.len() + one.parameter.len()
                },
                |one: &records::CallCommandMessage| one.service_name.len() + one.parameter.len(),
            )?,
            "CallCompletionNotificationMessage" => measure(
                name,
                &payload,
                |one: &messages::CallCompletionNotificationMessage<'_>| match &one.result {
                    Some(messages::CallCompletionNotificationResult::Value(value)) => {
                        one.completion_id as usize + value.content.len()
                    }
                    _ => 0,
                },
                |one: &records::CallCompletionNotificationMessage| match &one.result {
                    Some(records::call_completion_notification_message::Result::Value(value)) => {
                        one.completion_id as usize + value.content.len()
                    }
                    _ => 0,
                },
            )?,
            other => return Err(format!("no such record: {other}").into()),
        }
    }
    Ok(())
}

/// Measures a record here and there, by what is read of each.
fn measure<
    'a,
    Ours: MessageRecord<'a>,
    Theirs: Message + Default + Serialize + DeserializeOwned,
>(
    name: &str,
    payload: &'a [u8],
    read: impl Fn(&Ours) -> usize,
    read_theirs: impl Fn(&Theirs) -> usize,
) -> Result<(), Box<dyn Error>> {
    let ours = Ours::decode(payload)?;
    let theirs = Theirs::decode(payload)?;
    if read(&ours) != read_theirs(&theirs) || ours.encode()? != theirs.encode_to_vec() {
        return Err(format!("{name} is not the same").into());
    }
    let decoded = least(
        1,
        || read(&Ours::decode(black_box(payload)).unwrap()),
        || read_theirs(&Theirs::decode(black_box(payload)).unwrap()),
    );
    let encoded = least(
        1,
        || black_box(&ours).encode().unwrap().len(),
        || black_box(&theirs).encode_to_vec().len(),
    );
    show(name, "decode", decoded);
    show(name, "encode", encoded);
    measure_more::<Ours, Theirs>(name, payload)
}

/// How many frames a stream has, how many bytes come at a time, and the limit of a framing by hand.
const FRAMES: usize = 1_000;
const CHUNK: usize = 1 << 16;
const LIMIT: usize = 1 << 24;

/// The next message of what came, as a framing by hand has it: its code and its payload.
fn peer_next(came: &mut BytesMut) -> Option<(u16, Bytes)> {
    let header = u64::from_be_bytes(came.get(..8)?.try_into().ok()?);
    let length = (header & 0xFFFF_FFFF) as usize;
    assert!(length <= LIMIT, "a message has {length} bytes");
    if came.len() - 8 < length {
        return None;
    }
    came.advance(8);
    Some(((header >> 48) as u16, came.split_to(length).freeze()))
}

/// Gives each message of a stream that comes in chunks to a function.
fn each_peer(stream: &[u8], mut take: impl FnMut(u16, Bytes)) {
    let mut came = BytesMut::new();
    for chunk in stream.chunks(CHUNK) {
        came.extend_from_slice(chunk);
        while let Some((code, payload)) = peer_next(&mut came) {
            take(code, payload);
        }
    }
}

/// Gives each item of a stream that comes in chunks to a function.
fn each(stream: &[u8], mut take: impl FnMut(&Item<'_>)) {
    let mut decoder = Decoder::new(Version::V8);
    for chunk in stream.chunks(CHUNK) {
        decoder.feed(chunk).unwrap();
        for item in decoder.items() {
            take(&item.unwrap());
        }
    }
}

/// The frame of a message.
fn peer_frame(code: u16, message: &impl Message) -> Vec<u8> {
    let length = message.encoded_len();
    let mut frame = Vec::with_capacity(8 + length);
    frame.put_u16(code);
    frame.put_u16(0);
    frame.put_u32(length as u32);
    message.encode(&mut frame).unwrap();
    frame
}

/// Measures items, frames, a replay and JSON.
fn measure_more<
    'a,
    Ours: MessageRecord<'a>,
    Theirs: Message + Default + Serialize + DeserializeOwned,
>(
    name: &str,
    payload: &'a [u8],
) -> Result<(), Box<dyn Error>> {
    let ours = Ours::decode(payload)?;
    let theirs = Theirs::decode(payload)?;
    let code = Ours::TYPE.code();
    let frame = peer_frame(code, &theirs);
    let schema = Ours::SCHEMA.number();
    let text = to_json(schema, payload)?;
    let read: Theirs = serde_json::from_str(&text)?;
    if ours.frame(Version::V8)? != frame || read.encode_to_vec() != from_json(schema, &text)? {
        return Err(format!("{name} is not the same").into());
    }
    let stream = frame.repeat(FRAMES);
    let items = least(
        FRAMES,
        || {
            let mut sum = 0;
            each(black_box(&stream), |item| {
                if let Item::Message(message) = item {
                    sum += message.payload().len();
                }
            });
            sum
        },
        || {
            let mut sum = 0;
            each_peer(black_box(&stream), |_, payload| sum += payload.len());
            sum
        },
    );
    let framed = least(
        1,
        || black_box(&ours).frame(Version::V8).unwrap().len(),
        || peer_frame(code, black_box(&theirs)).len(),
    );
    let replayed = least(
        FRAMES,
        || {
            let mut replay = Replay::new(Version::V8, &stream, Ignored::default());
            each(black_box(&stream), |item| {
                assert!(replay.check(item).unwrap().is_none());
            });
            usize::from(replay.finish().unwrap().is_none())
        },
        || {
            // bytes first, and one of two equal payloads is decoded
            let mut recorded = BytesMut::from(&stream[..]);
            each_peer(black_box(&stream), |code, payload| {
                let (other_code, other) = peer_next(&mut recorded).unwrap();
                black_box(Theirs::decode(payload.clone()).unwrap());
                assert!(code == other_code && payload == other);
            });
            recorded.len()
        },
    );
    let written = least(
        1,
        || to_json(schema, black_box(payload)).unwrap().len(),
        || {
            serde_json::to_string(&Theirs::decode(black_box(payload)).unwrap())
                .unwrap()
                .len()
        },
    );
    let made = least(
        1,
        || from_json(schema, black_box(&text)).unwrap().len(),
        || {
            serde_json::from_str::<Theirs>(black_box(&text))
                .unwrap()
                .encode_to_vec()
                .len()
        },
    );
    show(name, "items", items);
    show(name, "frame", framed);
    // a replay of notifications has nothing to compare
    if name.contains("Command") {
        show(name, "replay", replayed);
    }
    show(name, "to-json", written);
    show(name, "from-json", made);
    Ok(())
}

/// Prints the line of a work.
fn show(name: &str, work: &str, (here, there): (f64, f64)) {
    println!(
        "rust {name} {work} {here:.3} {there:.3} {:.2}",
        there / here
    );
}

/// The microseconds that a part of two works takes, each in its fastest round. The rounds take turns.
fn least(parts: usize, ours: impl Fn() -> usize, theirs: impl Fn() -> usize) -> (f64, f64) {
    (0..ROUNDS).fold((f64::INFINITY, f64::INFINITY), |least, _| {
        (
            least.0.min(round(parts, &ours)),
            least.1.min(round(parts, &theirs)),
        )
    })
}

/// The microseconds that a part of a work takes in a round.
fn round(parts: usize, work: impl Fn() -> usize) -> f64 {
    let start = processor_time();
    for _ in 0..COUNT / parts {
        black_box(work());
    }
    (processor_time() - start) * 1e6 / COUNT as f64
}

/// The seconds of CPU time that the process has had.
fn processor_time() -> f64 {
    extern "C" {
        fn clock_gettime(clock: i32, time: &mut [i64; 2]) -> i32;
    }
    const CLOCK_PROCESS_CPUTIME_ID: i32 = 2;
    let mut time = [0; 2];
    // SAFETY: it writes a struct of two numbers, which the C library of Linux has on 64 bits
    let status = unsafe { clock_gettime(CLOCK_PROCESS_CPUTIME_ID, &mut time) };
    assert_eq!(status, 0);
    time[0] as f64 + time[1] as f64 / 1e9
}

fn bytes_of(digits: &str) -> Result<Vec<u8>, Box<dyn Error>> {
    let pairs = digits.as_bytes().chunks(2).map(std::str::from_utf8);
    pairs
        .map(|pair| Ok(u8::from_str_radix(pair?, 16)?))
        .collect()
}
