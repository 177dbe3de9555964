//! Records, which are read from payloads and written as such.

use std::borrow::Cow;

use pendratsoa::messages::{
    AnyMessage, CallCompletionNotificationMessage, ErrorBehavior, ErrorMessage, Failure, Future,
    Header, InputCommandMessage, MessageRecord, OutputCommandMessage, OutputCommandResult, Record,
    SetStateCommandMessage, SignalNotificationMessage, SignalNotificationSignalId, StateKeys,
    SuspensionMessage, SuspensionMessageV6, Value, Void,
};
use pendratsoa::{
    header, Argument, Decoder, Error, FieldReason, Item, Message, MessageType, Schema, Version,
};

const RECORDED: &[u8] = include_bytes!("../../examples/streams/recorded");

#[test]
fn the_messages_of_a_stream() {
    let mut decoder = Decoder::new(Version::V8);
    decoder.feed(RECORDED).unwrap();
    let mut states = 0;
    for item in decoder.items() {
        let item = item.unwrap();
        let message = match item {
            Item::Message(message) => message,
            other => panic!("{other}"),
        };
        let record = message.message().unwrap().unwrap();
        assert_eq!(record.frame(Version::V8).unwrap(), item.to_bytes().unwrap());
        if let AnyMessage::SetStateCommand(command) = record {
            assert!(matches!(command.key, Cow::Borrowed(b"counter")));
            let changed = SetStateCommandMessage {
                value: Some(Value {
                    content: b"22"[..].into(),
                }),
                ..command.clone()
            };
            let payload = changed.encode().unwrap();
            assert_eq!(payload, b"\n\x07counter\x1a\x04\n\x0222");
            assert_eq!(SetStateCommandMessage::decode(&payload).unwrap(), changed);
            states += 1;
        }
    }
    assert_eq!(states, 1);
}

#[test]
fn a_custom_entry_has_no_record() {
    // a state that is set, a custom entry whose payload is not a record, and the state again
    let state = b"\x04\x03\x00\x00\x00\x00\x00\x03\n\x01a";
    let custom = b"\xFC\x01\x00\x00\x00\x00\x00\x02\xFF\xFF";
    let stream = [&state[..], custom, state].concat();
    for &version in Version::ALL {
        let mut decoder = Decoder::new(version);
        decoder.feed(&stream).unwrap();
        let (mut states, mut custom) = (0, 0);
        for item in decoder.items() {
            match item {
                Ok(Item::Message(message)) => match message.message() {
                    Ok(Some(AnyMessage::SetStateCommand(_))) => states += 1,
                    Ok(None) => custom += 1,
                    other => panic!("{other:?}"),
                },
                other => panic!("{other:?}"),
            }
        }
        assert_eq!((states, custom), (2, 1));
        assert_eq!(decoder.finish(), Ok(()));
    }
}

#[test]
fn the_record_of_one_type() {
    let code = MessageType::SetStateCommand.code();
    let message = Message::new(Version::V8, code, b"\n\x01a").unwrap();
    let command: Option<SetStateCommandMessage<'_>> = message.record().unwrap();
    assert_eq!(*command.unwrap().key, *b"a");
    // the payload of another type is not looked at
    let malformed = Message::new(Version::V8, code, &[10]).unwrap();
    assert_eq!(malformed.record::<ErrorMessage<'_>>(), Ok(None));
    let error = malformed
        .record::<SetStateCommandMessage<'_>>()
        .unwrap_err();
    assert!(matches!(
        error,
        Error::Malformed(Argument::MessagePayload(_))
    ));
    assert_eq!((error.code(), error.offset()), (Some(code), None));
    let entry = Message::new(Version::V8, 0xFC01, &[10]).unwrap();
    assert_eq!(entry.record::<SetStateCommandMessage<'_>>(), Ok(None));
    // a suspension has the record of its version
    let code = MessageType::Suspension.code();
    for (version, is_earlier) in [(Version::V6, true), (Version::V7, false)] {
        let message = Message::new(version, code, &[]).unwrap();
        let earlier = message.record::<SuspensionMessageV6<'_>>().unwrap();
        let later = message.record::<SuspensionMessage<'_>>().unwrap();
        assert_eq!(
            (earlier.is_some(), later.is_some()),
            (is_earlier, !is_earlier)
        );
    }
}

#[test]
fn what_is_absent_is_none() {
    let record = ErrorMessage {
        related_command_index: Some(0),
        related_command_name: Some("".into()),
        behavior: ErrorBehavior(-5),
        ..Default::default()
    };
    assert_eq!(
        ErrorMessage::decode(&record.encode().unwrap()).unwrap(),
        record
    );
    assert_eq!(ErrorMessage::default().encode().unwrap(), b"");
    for signal_id in [
        None,
        Some(SignalNotificationSignalId::Idx(0)),
        Some(SignalNotificationSignalId::Name("".into())),
    ] {
        let record = SignalNotificationMessage {
            signal_id,
            result: None,
        };
        let payload = record.encode().unwrap();
        assert_eq!(SignalNotificationMessage::decode(&payload).unwrap(), record);
    }
    assert_eq!(Void::decode(&[]), Ok(Void {}));
}

#[test]
fn another_encoding_is_copied() {
    let payload = b"\n\x81\x00a\x1a\x05\n\x82\x00xy";
    let command = SetStateCommandMessage::decode(payload).unwrap();
    assert!(matches!(&command.key, Cow::Owned(key) if key == b"a"));
    assert_eq!(*command.value.unwrap().content, *b"xy");
    let suspension = SuspensionMessageV6::decode(&[8, 1, 10, 2, 2, 3, 8, 4]).unwrap();
    assert_eq!(suspension.waiting_completions, [1, 2, 3, 4]);
    let failure = Failure::decode(b"\x12\x82\x00\xc3\xa4").unwrap();
    assert!(matches!(&failure.message, Cow::Owned(message) if message == "\u{e4}"));
}

#[test]
fn more_fields_than_the_first_room() {
    for count in [0, 63, 64, 65, 1000] {
        let keys = StateKeys {
            keys: vec![b"key"[..].into(); count],
        };
        let mut out = vec![7];
        let length = keys.append_to(&mut out).unwrap();
        assert_eq!(out.len(), 1 + length);
        assert_eq!(StateKeys::decode(&out[1..]).unwrap(), keys);
        // the same, with lengths of two bytes
        let number_and_length =
            &out[1..][..length.checked_div(count).unwrap_or(0).saturating_sub(3)];
        let (_, number) = number_and_length.split_last().unwrap_or((&0, &[]));
        let longer = [number, b"\x83\x00key"].concat().repeat(count);
        assert_eq!(StateKeys::decode(&longer).unwrap(), keys);
    }
}

#[test]
fn more_than_a_table_on_the_stack_has_room_for() {
    for length in [0, 1, 1012, 1013, 1024, 1025, 70_000] {
        for name in ["", "input"] {
            for count in [0, 1, 9, 10, 11, 40] {
                let headers = vec![
                    Header {
                        key: "a".into(),
                        value: "".into(),
                    };
                    count
                ];
                let input = InputCommandMessage {
                    headers,
                    name: name.into(),
                    value: Some(Value {
                        content: vec![b'x'; length].into(),
                    }),
                };
                let payload = input.encode().unwrap();
                assert_eq!(InputCommandMessage::decode(&payload).unwrap(), input);
                let frame = input.frame(Version::V8).unwrap();
                let begin =
                    header(Version::V8, MessageType::InputCommand.code(), payload.len()).unwrap();
                assert_eq!(frame, [&begin[..], &payload].concat());
                let mut out = b"before".to_vec();
                assert_eq!(input.append_to(&mut out), Ok(payload.len()));
                assert_eq!(out, [b"before", &payload[..]].concat());
            }
        }
    }
}

#[test]
fn a_field_that_cannot_be_encoded_is_named() {
    let mut deep = Future::default();
    for _ in 0..100 {
        deep = Future {
            nested_futures: vec![Future::default(), deep],
            ..Default::default()
        };
    }
    let mut out = vec![7];
    match deep.append_to(&mut out) {
        Ok(_) => assert_eq!(Future::decode(&out[1..]).unwrap(), deep),
        Err(error) => panic!("{error}"),
    }
    let deeper = Future {
        nested_futures: vec![deep],
        ..Default::default()
    };
    let error = deeper.encode().unwrap_err();
    match &error {
        Error::Field(error) => {
            assert_eq!(error.reason, FieldReason::TooDeep);
            assert!(error
                .path
                .starts_with("nested_futures[0].nested_futures[1].nested_futures[1]."));
        }
        other => panic!("{other}"),
    }
    assert!(error.to_string().ends_with(": too deep"), "{error}");
}

/// The path to the field of a record that is too deep.
fn too_deep(record: &Future<'_>) -> String {
    match record.encode() {
        Err(Error::Field(error)) if error.reason == FieldReason::TooDeep => error.path,
        other => panic!("{other:?}"),
    }
}

#[test]
fn a_record_of_any_depth_is_an_error() {
    let mut deep = Future::default();
    for _ in 0..100_000 {
        deep = Future {
            nested_futures: vec![deep],
            ..Default::default()
        };
    }
    assert_eq!(too_deep(&deep).matches("nested_futures[0]").count(), 101);
    // one by one: dropped as it is, it would take as much stack as it is deep
    while let Some(nested) = deep.nested_futures.pop() {
        deep = nested;
    }
}

#[test]
fn the_path_to_one_of_many_elements() {
    let mut deep = Future::default();
    for _ in 0..100 {
        deep = Future {
            nested_futures: vec![deep],
            ..Default::default()
        };
    }
    let mut nested_futures = vec![Future::default(); 300_000];
    nested_futures.push(deep);
    let wide = Future {
        nested_futures,
        ..Default::default()
    };
    assert!(too_deep(&wide).starts_with("nested_futures[300000].nested_futures[0]."));
}

#[test]
fn what_is_no_record() {
    assert_eq!(
        Value::decode(&[10]),
        Err(Error::Malformed(Argument::Payload(1)))
    );
    for &version in Version::ALL {
        let custom = Message::new(version, 0xFC01, &[10]).unwrap();
        assert_eq!(custom.message(), Ok(None));
    }
    let suspension = SuspensionMessageV6 {
        waiting_completions: vec![1],
        ..Default::default()
    };
    assert_eq!(
        suspension.frame(Version::V6).unwrap(),
        [0, 1, 0, 0, 0, 0, 0, 3, 10, 1, 1]
    );
    let mut buffer = vec![7];
    for version in [Version::V7, Version::V9] {
        let none = Error::NoFrame(version, Schema::SuspensionMessageV6);
        assert_eq!(suspension.frame(version), Err(none.clone()));
        let made = Message::from_record(version, &suspension, &mut buffer);
        assert_eq!(made, Err(none));
        assert_eq!(buffer, [7]);
    }
}

#[test]
fn records_of_messages_have_their_types() {
    assert_eq!(InputCommandMessage::TYPE, MessageType::InputCommand);
    let headers = vec![Header {
        key: "a".into(),
        value: "b".into(),
    }];
    let input = InputCommandMessage {
        headers,
        ..Default::default()
    };
    assert_eq!(
        InputCommandMessage::decode(&input.encode().unwrap()).unwrap(),
        input
    );
    let result = Some(OutputCommandResult::Failure(Failure {
        code: 500,
        ..Default::default()
    }));
    let output = OutputCommandMessage {
        result,
        ..Default::default()
    };
    assert_eq!(
        OutputCommandMessage::decode(&output.encode().unwrap()).unwrap(),
        output
    );
    assert!(CallCompletionNotificationMessage::default()
        .encode()
        .unwrap()
        .is_empty());
}
