//! Items as received, frames with a destination, and the end of a stream.

use std::io;

use pendratsoa::{
    append_frame, next_item, Decoder, Error, Item, Message, MessageType, Next, Schema, Version,
};

/// Flags that no encoder sets, long lengths of fields, a custom entry, and what is of no type.
const FAITHFUL: [(Version, &[u8]); 2] = [
    (
        Version::V8,
        b"\x04\x00\x12\x34\x00\x00\x00\x09r\x07\n\x05input\
          \x04\x03\x00\x00\x00\x00\x00\x0b\n\x81\x00a\x1a\x05\n\x82\x00xy\
          \xFC\x01\xFF\xFF\x00\x00\x00\x01\xFF\
          \x00\x08\xA5\xA5\x00\x00\x00\x00\
          \x00\x03\x00\x00\x00\x00\x00\x00",
    ),
    (
        Version::V9,
        b"\x00\x08\xA5\xA5\x00\x00\x00\x02\x00\x03\xFC\x01\x00\x00\x00\x00\x00\x00",
    ),
];

#[test]
fn items_are_copied_as_they_came() {
    for (version, stream) in FAITHFUL {
        for size in [1, 7, stream.len()] {
            let (mut appended, mut written, mut together) = (Vec::new(), Vec::new(), Vec::new());
            let mut decoder = Decoder::new(version);
            for chunk in stream.chunks(size) {
                decoder.feed(chunk).unwrap();
                for item in decoder.items() {
                    let item = item.unwrap();
                    item.append_to(&mut appended).unwrap();
                    item.write_to(&mut written).unwrap();
                    together.extend(item.to_bytes().unwrap());
                }
            }
            assert_eq!(appended, stream);
            assert_eq!(written, stream);
            assert_eq!(together, stream);
            assert_eq!(decoder.finish(), Ok(()));
        }
    }
}

#[test]
fn a_message_that_is_made_is_copied_with_the_header_of_its_type() {
    let code = MessageType::ProposeRunCompletion.code();
    let message = Message::new(Version::V8, code, &[8, 0x81, 0]).unwrap();
    let bytes = Item::from(message).to_bytes().unwrap();
    assert_eq!(bytes, b"\x00\x05\x80\x00\x00\x00\x00\x03\x08\x81\x00");
    let (item, size) = (Item::Message(message), bytes.len());
    assert_eq!(
        next_item(Version::V8, &bytes),
        Ok(Next::Item { item, size })
    );
}

/// Suspensions received at a version, and their frames at another, or the error that it has none.
#[test]
fn suspensions_of_each_version() {
    use Version::*;
    let v6 = &b"\x08\x01\n\x02\x02\x03\x08\x04"[..];
    let v7 = &b"\x22\x12\n\x01\x01\x22\x08\n\x01\x02\x22\x03\n\x01\x01\x22\x03\n\x01\x03"[..];
    let flat = Ok(b"\x00\x01\x00\x00\x00\x00\x00\x06\n\x04\x01\x02\x03\x04".to_vec());
    let flattened = Ok(b"\x00\x01\x00\x00\x00\x00\x00\x06\n\x04\x01\x02\x01\x03".to_vec());
    let whole = Ok([&b"\x00\x01\x00\x00\x00\x00\x00\x14"[..], v7].concat());
    let none = |version| Err(Error::NoFrame(version, Schema::SuspensionMessageV6));
    for (came, payload, version, wanted) in [
        (V6, v6, V6, flat.clone()),
        (V6, v6, V5, flat.clone()),
        (V5, v6, V6, flat),
        (V6, v6, V7, none(V7)),
        (V5, v6, V9, none(V9)),
        (V7, v7, V7, whole.clone()),
        (V9, v7, V8, whole),
        (V9, v7, V6, flattened.clone()),
        (V7, v7, V5, flattened),
    ] {
        let message = Message::new(came, MessageType::Suspension.code(), payload).unwrap();
        assert_eq!(message.frame_at(version), wanted);
        if came == version {
            let (mut out, length) = (vec![7], wanted.clone().map(|frame| frame.len()));
            assert_eq!(message.append_frame(&mut out), length);
            assert_eq!(out[1..], wanted.unwrap_or_default());
        }
    }
    let malformed = Message::new(Version::V6, MessageType::Suspension.code(), b"\n\x04").unwrap();
    let (mut out, error) = (vec![7], malformed.frame().unwrap_err());
    assert_eq!(
        error.to_string(),
        "Suspension: payload of 2 bytes is malformed"
    );
    assert_eq!(malformed.append_frame(&mut out), Err(error));
    assert_eq!(out, [7]);
}

#[test]
fn items_print_as_a_listing() {
    let (_, stream) = FAITHFUL[0];
    let mut decoder = Decoder::new(Version::V8);
    decoder.feed(stream).unwrap();
    decoder.feed(&[0, 5, 0x80, 0, 0, 0, 0, 0]).unwrap();
    let items: Vec<Item> = decoder.items().map(Result::unwrap).collect();
    let lines: Vec<String> = items.iter().map(Item::to_string).collect();
    let length = |at: usize| items[at].to_bytes().unwrap().len() - 8;
    assert_eq!(
        lines,
        [
            &format!("InputCommand {}", length(0)),
            &format!("SetStateCommand {}", length(1)),
            "CustomEntry(64513) 1",
            "unknown 0x8",
            "End 0",
            "ProposeRunCompletion 0 ack"
        ]
    );
}

#[test]
fn frames_are_appended() {
    let payload = b"r\x07\n\x05input";
    let message = Message::new(Version::V8, MessageType::InputCommand.code(), payload).unwrap();
    for room in [0, 1, 17, 100] {
        let mut out = Vec::with_capacity(1 + room);
        out.push(7);
        assert_eq!(message.append_frame(&mut out), Ok(8 + payload.len()));
        assert_eq!(out[1..], message.frame().unwrap());
        assert_eq!(out[0], 7);
        let before = out.clone();
        for (code, payload) in [(0x400, &payload[..3]), (8, payload)] {
            assert!(append_frame(Version::V8, code, payload, &mut out).is_err());
            assert_eq!(out, before);
        }
    }
    let mut written = Vec::new();
    message.write_frame(&mut written).unwrap();
    assert_eq!(written, message.frame().unwrap());
    let malformed = Message::new(Version::V8, 0x400, &payload[..3]).unwrap();
    let error = malformed.write_frame(&mut written).unwrap_err();
    assert_eq!(error.kind(), io::ErrorKind::InvalidData);
    let inner = error.into_inner().unwrap();
    assert!(matches!(inner.downcast_ref(), Some(Error::Malformed(_))));
    assert_eq!(written.len(), 8 + payload.len());
}

#[test]
fn a_decoder_has_room_for_what_comes_in_another_way() {
    let (version, stream) = FAITHFUL[0];
    for size in 1..=stream.len() {
        let mut decoder = Decoder::new(version);
        let mut copied = Vec::new();
        for chunk in stream.chunks(size) {
            // room that is not used, and room of which a part is
            decoder.room(3).unwrap().fill(0xFF);
            let room = decoder.room(size + 5).unwrap();
            assert_eq!(room.len(), size + 5);
            room.fill(0xEE);
            room[..chunk.len()].copy_from_slice(chunk);
            let rest = decoder.trailing().to_vec();
            decoder.advance(chunk.len());
            assert_eq!(decoder.trailing(), [&rest[..], chunk].concat());
            for item in decoder.items() {
                item.unwrap().append_to(&mut copied).unwrap();
            }
        }
        assert_eq!(copied, stream);
        assert_eq!(decoder.trailing(), []);
    }
    let mut decoder = Decoder::new(Version::V8);
    decoder.advance(9);
    assert_eq!(decoder.rest(), 0);
    decoder.room(2).unwrap();
    decoder.advance(9);
    match decoder.finish() {
        Err(Error::Incomplete(error)) => assert_eq!(error.rest, 2),
        other => panic!("{other:?}"),
    }
    assert_eq!(decoder.room(usize::MAX / 2), Err(Error::OutOfMemory));
    assert_eq!(decoder.rest(), 2);
    decoder.advance(1);
    assert_eq!(decoder.rest(), 2);
}

#[test]
fn a_stream_that_ends_within_an_item_is_passed_on_with_its_trailing_bytes() {
    for (version, stream) in FAITHFUL {
        for end in 0..=stream.len() {
            let mut decoder = Decoder::new(version);
            let mut copied = Vec::new();
            for chunk in stream[..end].chunks(3) {
                decoder.feed(chunk).unwrap();
                // what is in whole items counts until they are taken
                assert!(decoder.trailing().ends_with(chunk));
                for item in decoder.items() {
                    item.unwrap().append_to(&mut copied).unwrap();
                }
            }
            let finished = decoder.finish();
            assert_eq!(decoder.trailing().len(), decoder.rest());
            assert_eq!(finished.is_ok(), decoder.trailing().is_empty());
            copied.extend_from_slice(decoder.trailing());
            assert_eq!(copied, stream[..end]);
        }
    }
}

#[test]
fn a_message_that_is_longer_than_the_limit_ends_the_stream() {
    let stream = [0, 0, 0, 0, 0, 0, 0, 0, 4, 0, 0, 0, 0, 0, 0, 10, 0xFF];
    for takes in 0..3 {
        let mut decoder = Decoder::with_max_message_size(Version::V8, 9);
        decoder.room(20).unwrap()[..17].copy_from_slice(&stream);
        decoder.advance(17);
        let mut found: Vec<_> = decoder.items().collect();
        assert_eq!(found.len(), 2);
        assert!(found[0].is_ok());
        let error = found.remove(1).unwrap_err();
        match &error {
            Error::MessageTooLong(found) => {
                assert_eq!((found.code, found.length), (0x0400, 10));
                assert_eq!((found.limit, found.offset), (9, 8));
            }
            other => panic!("{other}"),
        }
        assert_eq!(
            error.to_string(),
            "a message of type InputCommand (0x0400) at offset 8 has 10 bytes, more than the limit of 9"
        );
        assert_eq!((decoder.offset(), decoder.rest()), (8, 9));
        assert_eq!(decoder.trailing(), &stream[8..]);
        match takes {
            0 => assert_eq!(decoder.feed(&[0]), Err(error.clone())),
            1 => assert_eq!(decoder.room(1), Err(error.clone())),
            _ => {
                // the same error, as that of a reader
                let found = decoder.read_from(&[0][..]).unwrap_err();
                assert_eq!(found.kind(), io::ErrorKind::InvalidData);
            }
        }
        assert_eq!(decoder.trailing(), &stream[8..]);
        decoder.advance(1);
        assert_eq!(decoder.trailing(), &stream[8..]);
        assert_eq!(decoder.finish(), Err(error.clone()));
        assert_eq!(decoder.items().next(), Some(Err(error.clone())));
    }
}
