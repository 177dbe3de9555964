//! Calls from several threads at once, and types that go from one to another.

use std::env;
use std::error;
use std::fmt::Debug;
use std::hash::Hash;
use std::process::Command;
use std::thread;

use pendratsoa::messages::{AnyMessage, Future, Record};
use pendratsoa::{
    canonical, to_json, Argument, ChangedField, Decoder, Error, FieldError, FieldReason, Ignored,
    Incomplete, Item, Items, JsonError, JsonReason, Message, MessagePayload, MessageTooLong,
    MessageType, Mismatch, Next, Notification, NotificationId, NotificationResult, Numbering,
    NumberingError, NumberingReason, OwnedItem, ReadItems, Replay, Schema, Skipped, UnknownCode,
    Verdict, VerdictKind, Version,
};

const INPUT: &[u8] = b"\x04\0\0\0\0\0\0\x09\x72\x07\x0A\x05input";

fn shared<T: Send + Sync + Debug>() {}

fn plain<T: Send + Sync + Debug + Clone + Eq + Hash + 'static>() {}

/// An error that a function may return in a box, from any thread.
fn reported<T: error::Error + Clone + Eq + Hash + Send + Sync + 'static>() {}

#[test]
fn every_type_may_be_sent_and_shared() {
    shared::<Decoder>();
    shared::<Items<'_>>();
    shared::<Item<'_>>();
    shared::<Next<'_>>();
    shared::<Message<'_>>();
    shared::<Skipped<'_>>();
    shared::<Replay<'_>>();
    shared::<ReadItems<'_, &[u8]>>();
    shared::<Numbering>();
    shared::<AnyMessage<'_>>();
    plain::<AnyMessage<'static>>();
    plain::<OwnedItem>();
    plain::<Ignored>();
    plain::<Mismatch>();
    plain::<ChangedField>();
    plain::<UnknownCode>();
    plain::<Version>();
    plain::<MessageType>();
    plain::<Schema>();
    plain::<Notification>();
    plain::<NotificationId>();
    plain::<NotificationResult>();
    plain::<Verdict>();
    plain::<VerdictKind>();
    plain::<Argument>();
    plain::<Error>();
    reported::<Error>();
    reported::<FieldError>();
    reported::<Incomplete>();
    reported::<JsonError>();
    reported::<MessageTooLong>();
    reported::<Mismatch>();
    reported::<NumberingError>();
    plain::<MessagePayload>();
    plain::<FieldReason>();
    plain::<JsonReason>();
    plain::<NumberingReason>();
}

#[test]
fn calls_at_once() {
    thread::scope(|scope| {
        for number in 0..4_u8 {
            scope.spawn(move || {
                let mut payload = [0x0A, 1, b'x'];
                payload[payload.len() - 1] = b'a' + number;
                for _ in 0..2000 {
                    let schema = Schema::Value.number();
                    assert_eq!(canonical(schema, &payload).unwrap(), payload);
                    let json = format!(
                        r#"{{"content":"{}"}}"#,
                        ["YQ==", "Yg==", "Yw==", "ZA=="][number as usize]
                    );
                    assert_eq!(to_json(schema, &payload).unwrap(), json);
                }
            });
        }
    });
}

#[test]
fn a_decoder_and_its_items_in_other_threads() {
    let mut decoder = Decoder::new(Version::V8);
    decoder.feed(&INPUT[..9]).unwrap();
    let mut decoder = thread::spawn(move || {
        decoder.feed(&INPUT[9..]).unwrap();
        decoder
    })
    .join()
    .unwrap();
    let item = decoder.items().next().unwrap().unwrap();
    thread::scope(|scope| {
        for _ in 0..2 {
            scope.spawn(move || match item {
                Item::Message(message) => assert_eq!(message.payload(), &INPUT[8..]),
                other => panic!("{other:?}"),
            });
        }
    });
}

/// The variable with the size of the stack in bytes, in the process that is to have it.
const STACK: &str = "PENDRATSOA_TEST_STACK";

#[test]
fn deepest_payloads_in_a_small_stack() {
    if let Ok(size) = env::var(STACK) {
        return read_the_deepest_payload(size.parse().unwrap());
    }
    // a stack that overflows ends its process
    let ended = Command::new(env::current_exe().unwrap())
        .args(["--exact", "deepest_payloads_in_a_small_stack"])
        .env(STACK, "262144")
        .output()
        .unwrap();
    assert!(
        ended.status.success(),
        "256 KiB of stack are enough for an optimised library: {}",
        String::from_utf8_lossy(&ended.stderr)
    );
}

fn read_the_deepest_payload(stack: usize) {
    // futures that are nested to the hundredth level
    let mut future = Future::default();
    for _ in 0..98 {
        future = Future {
            nested_futures: vec![future],
            ..Default::default()
        };
    }
    let future = future.encode().unwrap();
    let call = move || to_json(Schema::Future.number(), &future).unwrap().len();
    let thread = thread::Builder::new().stack_size(stack).spawn(call);
    assert!(thread.unwrap().join().unwrap() > 98);
}
