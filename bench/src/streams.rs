//! Streams: random ones to compare, and those that are measured.

use prost::Message;

use crate::random::{damage, Payloads, Random, Style};
use crate::records::*;
use crate::table::TYPES;

/// A message on its way: its type's code and its payload.
pub struct Frame {
    pub code: u16,
    pub payload: Vec<u8>,
}

impl Frame {
    pub fn new(code: u16, message: &impl Message) -> Frame {
        Frame {
            code,
            payload: message.encode_to_vec(),
        }
    }
}

/// Frames one after the other.
pub fn stream(frames: &[Frame]) -> Vec<u8> {
    let mut out = Vec::new();
    for frame in frames {
        put_frame(u64::from(frame.code) << 48, &frame.payload, &mut out);
    }
    out
}

/// A header whose length is added to a word, and a payload.
fn put_frame(word: u64, payload: &[u8], out: &mut Vec<u8>) {
    out.extend((word | payload.len() as u64).to_be_bytes());
    out.extend_from_slice(payload);
}

/// Any stream: messages of named types and of others, unknown codes, and bits that are to be ignored.
pub fn any(random: &mut Random, damaged: bool) -> Vec<u8> {
    let mut out = Vec::new();
    for _ in 0..random.below(12) {
        let ignored = (random.number() & 0xFFFF) << 32;
        match random.below(8) {
            0 => {
                // codes with and without one of the upper six bits, the named ones among them
                let code = random.number() >> random.below(16) & 0xFFFF;
                let length = random.below(40);
                put_frame(code << 48 | ignored, &random.bytes(length), &mut out);
            }
            1 => {
                // an unassigned code, half of the time with a payload
                let code = 0x0008 + random.below(8) as u64;
                let length = random.below(2) * random.below(24);
                put_frame(code << 48 | ignored, &random.bytes(length), &mut out);
            }
            _ => {
                let message_type = random.pick(&TYPES);
                let style = if damaged && random.one_in(8) {
                    Style::Spoilt
                } else {
                    *random.pick(&[Style::Tidy, Style::Free])
                };
                let payload = Payloads::new(random, style).payload(message_type.schema);
                let word = u64::from(message_type.code) << 48 | ignored;
                put_frame(word, &payload, &mut out);
            }
        }
    }
    if damaged {
        damage(random, &mut out);
    }
    out
}

/// Messages of all types in turn, in any encoding and here and there malformed, and between them custom entries and
/// unknown codes; at the end a part of a header. Only at version 9 does an unassigned code have a payload.
pub fn varied(random: &mut Random, version: u32) -> Vec<u8> {
    let mut out = Vec::new();
    for _ in 0..60 {
        for message_type in &TYPES {
            let style = *random.pick(&[Style::Tidy, Style::Free, Style::Spoilt]);
            let payload = Payloads::new(random, style).payload(message_type.schema);
            let ignored = (random.number() & 0xFFFF) << 32;
            put_frame(
                u64::from(message_type.code) << 48 | ignored,
                &payload,
                &mut out,
            );
        }
        let length = random.below(40);
        put_frame(0xFC01 << 48, &random.bytes(length), &mut out);
        let length = if version < 9 { 0 } else { random.below(40) };
        put_frame(0x0008 << 48, &random.bytes(length), &mut out);
    }
    out.extend(random.bytes(5));
    out
}

/// A replayed journal: the start, the input, and then what a handler did, each command with its completion.
pub fn replay(random: &mut Random) -> Vec<Frame> {
    let mut frames = vec![start(random), input(random)];
    for id in 1..=200 {
        match id % 5 {
            0 => frames.extend(get_state(random, id)),
            1 => frames.push(set_state(random)),
            2 => frames.extend(call(random, id)),
            3 => frames.extend(sleep(random, id)),
            _ => frames.extend(run(random, id)),
        }
    }
    frames
}

/// The commands of a replayed journal.
pub fn commands(random: &mut Random) -> Vec<Frame> {
    let mut frames = replay(random);
    frames.retain(|frame| crate::peer::is_command(frame.code));
    frames
}

/// Messages of all types in turn, with random values.
pub fn mixed(random: &mut Random) -> Vec<Frame> {
    let mut frames = Vec::new();
    for _ in 0..25 {
        for message_type in &TYPES {
            let tidy = Payloads::new(random, Style::Tidy).payload(message_type.schema);
            frames.push(Frame {
                code: message_type.code,
                payload: crate::peer::canonical(message_type.schema, &tidy).unwrap_or_default(),
            });
        }
    }
    frames
}

/// Messages with large values.
pub fn large(random: &mut Random) -> Vec<Frame> {
    const MEBIBYTE: usize = 1 << 20;
    let mut frames = Vec::new();
    for _ in 0..2 {
        let content = random.bytes(MEBIBYTE).into();
        frames.push(Frame::new(
            0x0400,
            &InputCommandMessage {
                headers: headers(random),
                name: String::new(),
                value: Some(Value { content }),
            },
        ));
        let content = random.bytes(MEBIBYTE).into();
        frames.push(Frame::new(
            0x0403,
            &SetStateCommandMessage {
                key: "basket".into(),
                value: Some(Value { content }),
                name: String::new(),
            },
        ));
        let content = random.bytes(MEBIBYTE).into();
        frames.push(Frame::new(
            0x8002,
            &GetLazyStateCompletionNotificationMessage {
                completion_id: 7,
                result: Some(
                    get_lazy_state_completion_notification_message::Result::Value(Value {
                        content,
                    }),
                ),
            },
        ));
    }
    frames
}

/// How many futures there are in a suspension below the one that is awaited.
const FUTURES: u32 = 90;

/// A suspension that waits for futures in one another, each with a completion of its own and every third with a named
/// signal.
pub fn deep() -> Frame {
    let innermost = future(FUTURES, Vec::new());
    suspension(
        (0..FUTURES)
            .rev()
            .fold(innermost, |inner, id| future(id, vec![inner])),
    )
}

/// The same futures side by side.
pub fn wide() -> Frame {
    suspension(future(
        0,
        (1..=FUTURES).map(|id| future(id, Vec::new())).collect(),
    ))
}

fn suspension(awaited: Future) -> Frame {
    let awaiting_on = Some(awaited);
    Frame::new(0x0001, &SuspensionMessage { awaiting_on })
}

fn future(id: u32, nested_futures: Vec<Future>) -> Future {
    let signal = (id % 3 == 0).then(|| format!("approved by {id}"));
    Future {
        waiting_completions: vec![100 + id],
        waiting_named_signals: signal.into_iter().collect(),
        nested_futures,
        ..Future::default()
    }
}

/// Something as JSON of about a length.
fn json(random: &mut Random, length: usize) -> bytes::Bytes {
    let text: String = (0..length.saturating_sub(12))
        .map(|_| char::from(b'a' + random.below(26) as u8))
        .collect();
    format!("{{\"value\":\"{text}\"}}").into()
}

fn headers(random: &mut Random) -> Vec<Header> {
    [
        ("content-type", "application/json"),
        ("accept", "*/*"),
        ("user-agent", "client/1.4"),
    ]
    .into_iter()
    .map(|(key, value)| Header {
        key: key.into(),
        value: value.into(),
    })
    .chain([Header {
        key: "traceparent".into(),
        value: format!("00-{:016x}{:016x}-01", random.number(), random.number()),
    }])
    .collect()
}

fn start(random: &mut Random) -> Frame {
    let id: bytes::Bytes = random.bytes(24).into();
    let state_map = ["basket", "address", "status"]
        .into_iter()
        .map(|key| StateEntry {
            key: key.into(),
            value: json(random, 60),
        })
        .collect();
    Frame::new(
        0x0000,
        &StartMessage {
            debug_id: format!("inv_{:032x}", random.number()),
            id,
            known_entries: 400,
            state_map,
            partial_state: true,
            key: "customer-1042".into(),
            random_seed: random.number(),
            ..StartMessage::default()
        },
    )
}

fn input(random: &mut Random) -> Frame {
    Frame::new(
        0x0400,
        &InputCommandMessage {
            headers: headers(random),
            name: String::new(),
            value: Some(Value {
                content: json(random, 200),
            }),
        },
    )
}

fn get_state(random: &mut Random, id: u32) -> [Frame; 2] {
    use get_lazy_state_completion_notification_message::Result;
    let content = json(random, 120);
    [
        Frame::new(
            0x0402,
            &GetLazyStateCommandMessage {
                key: "basket".into(),
                result_completion_id: id,
                name: String::new(),
            },
        ),
        Frame::new(
            0x8002,
            &GetLazyStateCompletionNotificationMessage {
                completion_id: id,
                result: Some(Result::Value(Value { content })),
            },
        ),
    ]
}

fn set_state(random: &mut Random) -> Frame {
    Frame::new(
        0x0403,
        &SetStateCommandMessage {
            key: "basket".into(),
            value: Some(Value {
                content: json(random, 150),
            }),
            name: String::new(),
        },
    )
}

fn call(random: &mut Random, id: u32) -> [Frame; 3] {
    use call_completion_notification_message::Result;
    let started = 1000 + id;
    [
        Frame::new(
            0x040D,
            &CallCommandMessage {
                service_name: "PaymentService".into(),
                handler_name: "authorize".into(),
                parameter: json(random, 180),
                headers: headers(random),
                key: format!("payment-{id}"),
                idempotency_key: Some(format!("{:016x}", random.number())),
                invocation_id_notification_idx: started,
                result_completion_id: id,
                ..CallCommandMessage::default()
            },
        ),
        Frame::new(
            0x800E,
            &CallInvocationIdCompletionNotificationMessage {
                completion_id: started,
                invocation_id: format!("inv_{:032x}", random.number()),
            },
        ),
        Frame::new(
            0x800D,
            &CallCompletionNotificationMessage {
                completion_id: id,
                result: Some(Result::Value(Value {
                    content: json(random, 90),
                })),
            },
        ),
    ]
}

fn sleep(random: &mut Random, id: u32) -> [Frame; 2] {
    [
        Frame::new(
            0x040C,
            &SleepCommandMessage {
                wake_up_time: 1_700_000_000_000 + random.number() % 1_000_000_000,
                result_completion_id: id,
                name: "wait for the courier".into(),
            },
        ),
        Frame::new(
            0x800C,
            &SleepCompletionNotificationMessage {
                completion_id: id,
                void: Some(Void {}),
            },
        ),
    ]
}

fn run(random: &mut Random, id: u32) -> [Frame; 2] {
    use run_completion_notification_message::Result;
    let result = if id % 3 == 0 {
        Result::Failure(Failure {
            code: 500,
            message: "the service did not answer in time".into(),
            metadata: Vec::new(),
        })
    } else {
        Result::Value(Value {
            content: json(random, 70),
        })
    };
    [
        Frame::new(
            0x0411,
            &RunCommandMessage {
                result_completion_id: id,
                name: "charge the card".into(),
            },
        ),
        Frame::new(
            0x8011,
            &RunCompletionNotificationMessage {
                completion_id: id,
                result: Some(result),
            },
        ),
    ]
}
