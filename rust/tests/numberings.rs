//! Payloads at other field numbers, by descriptor sets that are made here.

use std::thread;

use pendratsoa::messages::{MessageRecord, Record, SetStateCommandMessage, Value};
use pendratsoa::{
    frame, Decoder, Error, Ignored, Item, MessageType, Numbering, NumberingReason, Replay, Schema,
    Version,
};

/// The types of fields in descriptors.
const UINT32: u8 = 13;
const BYTES: u8 = 12;
const STRING: u8 = 9;
const MESSAGE: u8 = 11;

/// A record of a length.
fn block(number: u8, content: &[u8]) -> Vec<u8> {
    let mut out = vec![number << 3 | 2];
    let mut length = content.len();
    while length > 127 {
        out.push(u8::try_from(length % 128).unwrap() + 128);
        length /= 128;
    }
    out.push(u8::try_from(length).unwrap());
    out.extend_from_slice(content);
    out
}

/// A field: its name, its number, its type, and the name of its message. Its name in JSON is that of protoc.
fn field(name: &str, number: u8, kind: u8, of: &str) -> Vec<u8> {
    let mut out = block(1, name.as_bytes());
    out.extend([0x18, number, 0x20, 1, 0x28, kind]);
    if kind == MESSAGE {
        out.extend(block(6, format!(".{of}").as_bytes()));
    }
    let words = name.split('_').enumerate();
    let json: String = words
        .map(|(index, word)| match index {
            0 => word.to_owned(),
            _ => word[..1].to_uppercase() + &word[1..],
        })
        .collect();
    out.extend(block(10, json.as_bytes()));
    block(2, &out)
}

fn message(name: &str, fields: &[Vec<u8>]) -> Vec<u8> {
    block(4, &[block(1, name.as_bytes()), fields.concat()].concat())
}

/// A descriptor set of one file.
fn set(messages: &[Vec<u8>]) -> Vec<u8> {
    let parts = [
        block(1, b"a.proto"),
        messages.concat(),
        block(12, b"proto3"),
    ];
    block(1, &parts.concat())
}

/// A set whose messages have other numbers, and a field that only they have.
fn theirs() -> Vec<u8> {
    set(&[
        message(
            "Value",
            &[
                field("content_type", 2, STRING, ""),
                field("content", 14, BYTES, ""),
            ],
        ),
        message(
            "SetStateCommandMessage",
            &[
                field("key", 3, BYTES, ""),
                field("name", 12, STRING, ""),
                field("value", 30, MESSAGE, "Value"),
            ],
        ),
        message("Pause", &[field("result_completion_id", 4, UINT32, "")]),
    ])
}

fn numbering() -> Numbering {
    Numbering::new(&theirs(), &[]).unwrap()
}

/// A command at the numbers of the protocol, and at those of the set.
const OURS: &[u8] = b"\n\x01a\x1a\x03\n\x011b\x01n";
const THEIRS: &[u8] = b"\x1a\x01ab\x01n\xf2\x01\x03r\x011";

/// A stream at either numbers: commands, one with flags that no encoder sets, a custom entry, an unknown code, an end,
/// and the beginning of a header.
fn stream(payload: &[u8]) -> Vec<u8> {
    let length = u8::try_from(payload.len()).unwrap();
    let first = [&[0x04, 0x03, 0, 0, 0, 0, 0, length], payload].concat();
    let second = [&[0x04, 0x03, 0x12, 0x34, 0, 0, 0, length], payload].concat();
    let others = b"\xfc\x01\xff\xff\0\0\0\x02\x0a\x01\0\x08\xa5\xa5\0\0\0\0\0\x03\0\0\0\0\0\0";
    [&first[..], others, &second, &[0x04, 0x03, 0]].concat()
}

#[test]
fn payloads_are_read_and_written() {
    let numbering = numbering();
    let schema = Schema::SetStateCommandMessage.number();
    assert_eq!(numbering.read_payload(schema, THEIRS).unwrap(), OURS);
    assert_eq!(numbering.write_payload(schema, OURS).unwrap(), THEIRS);
    // a field that only the set has, one that only the protocol has, and one of neither
    let value = Schema::Value.number();
    assert_eq!(
        numbering.read_payload(value, b"\x12\x01tr\x01x").unwrap(),
        b"\n\x01x"
    );
    assert_eq!(numbering.read_payload(value, b"\n\x01x").unwrap(), b"");
    let sleep = Schema::SleepCommandMessage.number();
    assert_eq!(numbering.write_payload(sleep, b"\x08\x05").unwrap(), b"");
    for payload in [
        &b"\x1a"[..],
        b"\x1a\x02a",
        b"\xf2\x01\x01r",
        b"\xf0\x01\x01",
        b"\x00",
    ] {
        match numbering.read_payload(schema, payload) {
            Err(Error::Malformed(_)) => {}
            other => panic!("{other:?}"),
        }
    }
    let unknown = u32::try_from(Schema::ALL.len()).unwrap();
    for schema in [unknown, u32::MAX] {
        for read in [Numbering::read_payload, Numbering::write_payload] {
            assert!(matches!(
                read(&numbering, schema, b""),
                Err(Error::Unknown(_))
            ));
        }
    }
}

#[test]
fn streams_are_read_and_written() {
    let numbering = numbering();
    assert_eq!(
        numbering.read_stream(Version::V8, &stream(THEIRS)).unwrap(),
        stream(OURS)
    );
    assert_eq!(
        numbering.write_stream(Version::V8, &stream(OURS)).unwrap(),
        stream(THEIRS)
    );
    let skipped = b"\0\x08\0\0\0\0\0\x02\x0a\x01";
    assert_eq!(
        numbering.read_stream(Version::V9, skipped).unwrap(),
        skipped
    );
    assert_eq!(numbering.read_stream(Version::V8, b"").unwrap(), b"");
    let error = numbering
        .read_stream(Version::V8, &stream(b"\x1a"))
        .unwrap_err();
    assert_eq!((error.code(), error.offset()), (Some(0x0403), Some(0)));
    assert_eq!(
        error.to_string(),
        "SetStateCommand at offset 0: payload of 1 byte is malformed"
    );
}

#[test]
fn a_stream_is_dumped_with_all_fields_of_the_set() {
    let (set, payload) = (theirs(), b"\xf2\x01\x06\x12\x01tr\x011");
    let stream = [&[0x04, 0x03, 0, 0, 0, 0, 0, 9], &payload[..], &[0x04]].concat();
    let lines = Numbering::new(&set, &[])
        .unwrap()
        .dump(Version::V8, &stream)
        .unwrap();
    let lines: Vec<&str> = lines.lines().collect();
    assert_eq!(lines.len(), 2);
    assert!(lines[0].contains(r#""message":{"value":{"contentType":"t","content":"MQ=="}}"#));
    assert!(lines[1].contains(r#""rest":1"#));
    let numbering = numbering();
    // what is malformed by the set is said of its item
    let lines = numbering
        .dump(Version::V8, &[0x04, 0x03, 0, 0, 0, 0, 0, 1, 0x1a])
        .unwrap();
    assert!(lines.contains(r#""malformed":true"#));
}

#[test]
fn frames_are_written() {
    let numbering = numbering();
    let code = MessageType::SetStateCommand.code();
    let wanted = [&[0x04, 0x03, 0, 0, 0, 0, 0, 12], THEIRS].concat();
    // neither payload is canonical
    for payload in [
        b"b\x01n\n\x01a\x1a\x03\n\x011",
        b"\x1a\x03\n\x011b\x01n\n\x01a",
    ] {
        assert_eq!(numbering.frame(Version::V8, code, payload).unwrap(), wanted);
    }
    let command = SetStateCommandMessage {
        key: b"a"[..].into(),
        value: Some(Value {
            content: b"1"[..].into(),
        }),
        name: "n".into(),
    };
    let own = command.frame(Version::V8).unwrap();
    assert_eq!(numbering.write_stream(Version::V8, &own).unwrap(), wanted);
    let mut out = vec![7];
    let encoded = command.encode().unwrap();
    assert_eq!(
        numbering.append_frame(Version::V8, code, &encoded, &mut out),
        Ok(20)
    );
    assert_eq!(out, [&[7], &wanted[..]].concat());
    for (code, payload) in [(0xFC01, &b""[..]), (0x0403, b"\n")] {
        assert_eq!(
            numbering.append_frame(Version::V8, code, payload, &mut out),
            frame(Version::V8, code, payload).map(|_| 0)
        );
        assert_eq!(out.len(), 21);
    }
}

#[test]
fn a_decoder_reads_by_a_numbering() {
    let (ours, theirs) = (stream(OURS), stream(THEIRS));
    let numbering = numbering();
    let mut own = Decoder::new(Version::V8);
    own.feed(&ours).unwrap();
    let own: Vec<Item<'_>> = own.items().map(Result::unwrap).collect();
    for size in 1..=theirs.len() {
        let mut decoder = Decoder::new(Version::V8).with_numbering(&numbering);
        let mut passed_on = Vec::new();
        let mut found = Vec::new();
        for chunk in theirs.chunks(size) {
            decoder.feed(chunk).unwrap();
            // all items of a loop are there at once
            let items: Vec<Item<'_>> = decoder.items().map(Result::unwrap).collect();
            for item in items {
                assert_eq!(item.offset(), Some(passed_on.len() as u64));
                item.append_to(&mut passed_on).unwrap();
                assert_eq!(
                    item.to_bytes().unwrap(),
                    passed_on[passed_on.len() - item.to_bytes().unwrap().len()..]
                );
                found.push(item.into_owned().unwrap());
            }
        }
        passed_on.extend_from_slice(decoder.trailing());
        assert_eq!(passed_on, theirs);
        assert_eq!(found.len(), own.len());
        for (found, own) in found.iter().zip(&own) {
            match (found.item(), own) {
                (Item::Message(found), Item::Message(own)) => {
                    assert_eq!((found.code(), found.payload()), (own.code(), own.payload()));
                    assert_eq!(found.message().unwrap(), own.message().unwrap());
                    assert_eq!(found.requested_ack(), own.requested_ack());
                }
                (found, own) => assert_eq!(found.to_string(), own.to_string()),
            }
        }
        assert_eq!(found[0].to_string(), "SetStateCommand 11");
    }
}

#[test]
fn an_owned_item_has_both_payloads() {
    let theirs = stream(THEIRS);
    let mut decoder = Decoder::new(Version::V8).with_numbering(&numbering());
    let mut copied = Vec::new();
    for item in decoder.read(&theirs[..theirs.len() - 3]) {
        let item = item.unwrap().clone();
        let twice = item.item().into_owned().unwrap();
        assert_eq!(item, twice);
        item.item().write_to(&mut copied).unwrap();
        if let Some(command) = twice.item().record::<SetStateCommandMessage>().unwrap() {
            assert_eq!(command.name, "n");
        }
    }
    assert_eq!(copied, theirs[..theirs.len() - 3]);
    // one at a time, with bytes of the next one there
    let mut decoder = decoder.clone();
    decoder.feed(&theirs).unwrap();
    let mut count = 0;
    while let Some(item) = decoder.next_owned() {
        assert!(matches!(
            item.unwrap().item(),
            Item::UnknownCode(_) | Item::Message(_)
        ));
        count += 1;
    }
    assert_eq!((count, decoder.trailing()), (5, &[0x04, 0x03, 0][..]));
}

#[test]
fn a_loop_goes_on_after_a_payload_that_cannot_be_read() {
    let end = [0, 3, 0, 0, 0, 0, 0, 0];
    let bad = b"\x04\x03\0\0\0\0\0\x01\x1a";
    let mut decoder = Decoder::new(Version::V8).with_numbering(&numbering());
    decoder.feed(&[&end[..], bad, &end].concat()).unwrap();
    let mut items = decoder.items();
    assert!(items.next().unwrap().is_ok());
    let error = items.next().unwrap().unwrap_err();
    assert!(items.next().is_none());
    assert!(matches!(error, Error::Malformed(_)));
    assert_eq!((error.code(), error.offset()), (Some(0x0403), Some(8)));
    assert_eq!(decoder.trailing(), end);
    let offsets = decoder.items().map(|item| item.unwrap().offset());
    assert_eq!(offsets.collect::<Vec<_>>(), [Some(17)]);
    assert_eq!((decoder.trailing(), decoder.finish()), (&[][..], Ok(())));
    decoder.feed(&[bad, &end[..]].concat()).unwrap();
    assert!(matches!(
        decoder.next_owned(),
        Some(Err(Error::Malformed(_)))
    ));
    assert!(matches!(decoder.next_owned(), Some(Ok(_))));
}

#[test]
fn a_limit_is_one_on_what_is_received() {
    let stream = [&[0x04, 0x03, 0, 0, 0, 0, 0, 12], THEIRS].concat();
    for (limit, is_taken) in [(11, false), (12, true)] {
        let decoder = Decoder::with_max_message_size(Version::V8, limit);
        let mut decoder = decoder.with_numbering(&numbering());
        decoder.feed(&stream).unwrap();
        assert_eq!(decoder.items().next().unwrap().is_ok(), is_taken);
    }
}

#[test]
fn a_replay_has_the_offsets_of_what_is_received() {
    let numbering = numbering();
    let other: &[u8] = b"\x1a\x01b";
    let one = [&[0x04, 0x03, 0, 0, 0, 0, 0, 12], THEIRS].concat();
    let two = [&[0x04, 0x03, 0, 0, 0, 0, 0, 3], other].concat();
    let recorded = numbering.read_stream(Version::V8, &one.repeat(3)).unwrap();
    let mut replay = Replay::new(Version::V8, &recorded, Ignored::default());
    let mut decoder = Decoder::new(Version::V8).with_numbering(&numbering);
    decoder.feed(&[&one[..], &two, &one].concat()).unwrap();
    let mut found = Vec::new();
    for item in decoder.items() {
        found.extend(replay.check(&item.unwrap()).unwrap());
    }
    assert_eq!(found.len(), 1);
    assert_eq!(
        (found[0].index, found[0].replayed_offset),
        (1, one.len() as u64)
    );
    assert_eq!(found[0].fields[0].name, "key");
    let mut replay = Replay::new(Version::V8, &recorded, Ignored::default());
    let mut decoder = Decoder::new(Version::V8).with_numbering(&numbering);
    decoder.feed(&one.repeat(2)).unwrap();
    for item in decoder.items() {
        assert_eq!(replay.check(&item.unwrap()).unwrap(), None);
    }
    let left = replay.finish().unwrap().unwrap();
    assert_eq!(
        (left.index, left.replayed_offset),
        (2, 2 * one.len() as u64)
    );
}

#[test]
fn renames_and_rejected_sets() {
    let sleep = Schema::SleepCommandMessage.number();
    assert_eq!(numbering().read_payload(sleep, b"\x20\x07").unwrap(), b"");
    let renames = [("Pause", "SleepCommandMessage")];
    let numbering = Numbering::new(&theirs(), &renames).unwrap();
    assert_eq!(
        numbering.read_payload(sleep, b"\x20\x07").unwrap(),
        b"\x58\x07"
    );
    assert_eq!(
        numbering.write_payload(sleep, b"\x58\x07").unwrap(),
        b"\x20\x07"
    );
    let list = numbering.to_string();
    assert!(
        list.contains("renumbered") && list.contains("the same"),
        "{list}"
    );
    assert_eq!(format!("{numbering:?}"), "Numbering { .. }");

    let twice = [field("key", 3, BYTES, ""), field("name", 3, STRING, "")];
    let rejected = set(&[message("SetStateCommandMessage", &twice)]);
    let (no_set, no_rename) = (NumberingReason::NoSet, NumberingReason::NoRename);
    for (set, renames, reason) in [
        (rejected, vec![], no_set),
        (b"\n\x02a".to_vec(), vec![], no_set),
        (b"syntax = \"proto3\";".to_vec(), vec![], no_set),
        (theirs(), vec![("Paus", "SleepCommandMessage")], no_rename),
        (theirs(), vec![("Pause", "SlepCommandMessage")], no_rename),
        (theirs(), vec![("Pause", "")], no_rename),
        (theirs(), vec![("", "")], no_rename),
        (
            theirs(),
            vec![("Pause", "SleepCommandMessage\n")],
            no_rename,
        ),
        (
            theirs(),
            vec![("Pause=SleepCommandMessage\nPause", "SleepCommandMessage")],
            no_rename,
        ),
    ] {
        match Numbering::new(&set, &renames) {
            Err(Error::Numbering(error)) => {
                assert_eq!(error.reason, reason);
                assert!(!error.text.is_empty());
                assert!(Error::Numbering(error.clone())
                    .to_string()
                    .contains(&error.text));
            }
            other => panic!("{other:?}"),
        }
    }
}

#[test]
fn an_empty_set_has_no_field() {
    match Numbering::new(b"", &[]) {
        Err(Error::Numbering(error)) => {
            assert_eq!(error.reason, NumberingReason::NoSet);
            assert_eq!(error.text, "no field of the protocol's messages");
        }
        other => panic!("{other:?}"),
    }
}

#[test]
fn any_bytes_as_a_set_or_as_a_payload() {
    let (mut state, set) = (1_u32, theirs());
    let mut random = move || {
        state ^= state << 13;
        state ^= state >> 17;
        state ^= state << 5;
        state as usize
    };
    let schemas = u32::try_from(Schema::ALL.len()).unwrap();
    for _ in 0..300 {
        let mut bytes = set.clone();
        for _ in 0..1 + random() % 3 {
            let index = random() % bytes.len();
            bytes[index] = random().to_le_bytes()[0];
        }
        bytes.truncate(1 + random() % bytes.len());
        match Numbering::new(&bytes, &[]) {
            Ok(numbering) => {
                for schema in 0..schemas {
                    let _ = numbering.read_payload(schema, &bytes);
                    let _ = numbering.write_payload(schema, &bytes);
                }
                let _ = numbering.read_stream(Version::V9, &bytes);
            }
            Err(Error::Numbering(error)) => assert_eq!(error.reason, NumberingReason::NoSet),
            Err(error) => panic!("{error}"),
        }
    }
}

#[test]
fn threads_share_a_numbering() {
    let numbering = numbering();
    let threads: Vec<_> = (0..4)
        .map(|_| {
            let numbering = numbering.clone();
            thread::spawn(move || {
                for _ in 0..100 {
                    let read = numbering.read_stream(Version::V8, &stream(THEIRS)).unwrap();
                    assert_eq!(read, stream(OURS));
                }
            })
        })
        .collect();
    for thread in threads {
        thread.join().unwrap();
    }
}
