//! What the library returns, as types: its version, and each kind of item, of a notification's id and result, and of a
//! verdict.

use pendratsoa::{
    compare_journals, header, library_version, next_item, notification, Argument, Error, Item,
    Message, MessageType, Next, NotificationId, NotificationResult, Verdict, VerdictKind, Version,
};

/// A frame at version 8 with any payload.
fn frame(message_type: MessageType, payload: &[u8]) -> Vec<u8> {
    let header = header(Version::V8, message_type.code(), payload.len()).unwrap();
    [&header, payload].concat()
}

fn item(version: Version, bytes: &[u8]) -> Item<'_> {
    match next_item(version, bytes).unwrap() {
        Next::Item { item, size } => {
            assert_eq!(size, bytes.len());
            item
        }
        Next::Missing(missing) => panic!("{missing} bytes are missing"),
    }
}

#[test]
fn version() {
    assert_eq!(library_version().unwrap(), env!("CARGO_PKG_VERSION"));
}

#[test]
fn items() {
    // a proposed result of a run, with the bit that requests an acknowledgement
    let bytes = [0, 5, 0x80, 0, 0, 0, 0, 2, 0x08, 1];
    match item(Version::V8, &bytes) {
        Item::Message(message) => {
            assert_eq!((message.version(), message.code()), (Version::V8, 5));
            assert_eq!(message.word().to_be_bytes(), bytes[..8]);
            assert_eq!(message.payload(), &bytes[8..]);
            assert!(message.requested_ack());
            assert_eq!(
                message.message_type(),
                Some(MessageType::ProposeRunCompletion)
            );
            assert!(!message.is_command() && !message.is_notification());
            assert_eq!(item(Version::V8, &bytes).code(), 5);
            assert_eq!(item(Version::V8, &bytes).version(), Version::V8);
            assert_eq!(item(Version::V8, &bytes).type_name(), message.type_name());
            assert_eq!(message.canonical().unwrap(), [0x08, 1]);
            assert_eq!(message.json().unwrap(), r#"{"resultCompletionId":1}"#);
            assert_eq!(message.frame().unwrap()[8..], bytes[8..]);
        }
        other => panic!("{other:?}"),
    }
    // no type has the code 4: before version 9 its header is an item by itself
    let bytes = [0, 4, 1, 2, 3, 4, 0, 2, 0x08, 1];
    match item(Version::V8, &bytes[..8]) {
        Item::UnknownCode(unknown) => {
            assert_eq!((unknown.version(), unknown.code()), (Version::V8, 4));
            assert_eq!(unknown.word(), 0x0004_0102_0304_0002);
        }
        other => panic!("{other:?}"),
    }
    let bytes = [0, 4, 1, 2, 0, 0, 0, 2, 0x08, 1];
    match item(Version::V9, &bytes) {
        Item::Skipped(skipped) => {
            assert_eq!((skipped.version(), skipped.code()), (Version::V9, 4));
            assert_eq!(skipped.word(), 0x0004_0102_0000_0002);
            assert_eq!(skipped.payload(), &bytes[8..]);
        }
        other => panic!("{other:?}"),
    }
    for version in [Version::V8, Version::V9] {
        let item = item(version, &[0, 4, 1, 2, 0, 0, 0, 0]);
        assert_eq!((item.version(), item.code()), (version, 4));
        assert_eq!(item.type_name(), Err(Error::Unknown(Argument::Code(4))));
        assert!(!item.is_command() && !item.is_notification());
    }
}

#[test]
fn commands_and_notifications() {
    for code in (0..=u16::MAX).filter(|code| MessageType::from_code(*code).is_some()) {
        let message = Message::new(Version::V8, code, &[]).unwrap();
        let item = Item::from(message);
        let is_command = (0x0400..0x8000).contains(&code);
        assert_eq!(
            (item.is_command(), message.is_command()),
            (is_command, is_command)
        );
        assert_eq!(item.is_notification(), message.is_notification());
        assert_eq!(item.is_notification(), (0x8000..0xFC00).contains(&code));
    }
}

/// The payload of an item, which borrows the stream and not the item.
fn payload(item: Item<'_>) -> &[u8] {
    match item {
        Item::Message(message) => message.payload(),
        Item::UnknownCode(_) => &[],
        Item::Skipped(skipped) => skipped.payload(),
    }
}

#[test]
fn payloads_outlive_their_items() {
    for (version, code, length) in [
        (Version::V8, 4, 0),
        (Version::V8, 5, 2),
        (Version::V9, 4, 2),
    ] {
        let bytes = [0, code, 0, 0, 0, 0, 0, length, 0x08, 1];
        let end = 8 + usize::from(length);
        assert_eq!(payload(item(version, &bytes[..end])), &bytes[8..end]);
    }
}

#[test]
fn messages_that_are_made() {
    let payload = [0x08, 1];
    for &version in Version::ALL {
        let custom = MessageType::CustomEntry(0xFC01);
        for named in MessageType::NAMED.iter().copied().chain([custom]) {
            let made = Message::new(version, named.code(), &payload).unwrap();
            let header = header(version, named.code(), payload.len()).unwrap();
            let bytes = [&header[..], &payload].concat();
            assert_eq!(item(version, &bytes), Item::Message(made));
        }
    }
    assert_eq!(
        Message::new(Version::V8, 4, &payload),
        Err(Error::Unknown(Argument::Code(4)))
    );
}

#[test]
fn frames_at_other_versions() {
    use Version::*;
    // a suspension that waits for a completion and for another future, which has a list of each before version 7
    let payload = [
        0x22, 0x10, 0x12, 1, 1, 0x22, 0x0B, 0x0A, 1, 1, 0x12, 1, 0x11, 0x1A, 3, b'a', b'b', b'c',
    ];
    let bytes = frame(MessageType::Suspension, &payload);
    let found = match item(Version::V8, &bytes) {
        Item::Message(message) => {
            [V5, V6, V7, V8, V9].map(|version| message.frame_at(version).unwrap())
        }
        other => panic!("{other:?}"),
    };
    let [v5, v6, v7, v8, v9] = found;
    let lists = [0x0A, 1, 1, 0x12, 2, 1, 0x11, 0x1A, 3, b'a', b'b', b'c'];
    assert_eq!((&v5[8..], &v6[8..]), (&lists[..], &lists[..]));
    assert_eq!([v7, v8, v9], [(); 3].map(|()| bytes.clone()));
}

#[test]
fn ids_of_notifications() {
    for (payload, id) in [
        (&[0x08, 0, 0x22, 0][..], NotificationId::Completion(0)),
        (&[0x08, 0xAC, 2, 0x22, 0], NotificationId::Completion(300)),
        (&[0x10, 17, 0x22, 0], NotificationId::Signal(17)),
        (
            &[0x1A, 0, 0x22, 0],
            NotificationId::SignalName(String::new()),
        ),
        (
            &[0x1A, 3, b'a', 0xC3, 0xA9, 0x22, 0],
            NotificationId::SignalName("a\u{E9}".to_owned()),
        ),
    ] {
        let found = notification(MessageType::SignalNotification.code(), payload).unwrap();
        assert_eq!((found.id, found.result), (id, NotificationResult::Void));
    }
}

#[test]
fn results_of_notifications() {
    for (result, expected) in [
        (&[0x22, 0][..], NotificationResult::Void),
        (
            &[0x2A, 3, 0x0A, 1, b'x'],
            NotificationResult::Value(vec![0x0A, 1, b'x']),
        ),
        (
            &[0x32, 3, 0x08, 0x85, 0],
            NotificationResult::Failure(vec![0x08, 5]),
        ),
        (
            &[0x82, 1, 3, b'i', b'n', b'v'],
            NotificationResult::InvocationId("inv".to_owned()),
        ),
        (
            &[0x8A, 1, 3, 0x0A, 1, b'a'],
            NotificationResult::StateKeys(vec![0x0A, 1, b'a']),
        ),
    ] {
        for (name, id) in [
            ("", &[0x1A, 0][..]),
            ("stop", &[0x1A, 4, b's', b't', b'o', b'p']),
        ] {
            let payload = [id, result].concat();
            let bytes = frame(MessageType::SignalNotification, &payload);
            let found = match item(Version::V8, &bytes) {
                Item::Message(message) if message.is_notification() => message.notification(),
                other => panic!("{other:?}"),
            };
            let found = found.unwrap();
            assert_eq!(found.id, NotificationId::SignalName(name.to_owned()));
            assert_eq!(found.result, expected);
        }
    }
}

#[test]
fn verdicts() {
    let input = frame(MessageType::InputCommand, &[]);
    let clear = |key| {
        let mut payload = [0x0A, 1, b'k'];
        payload[payload.len() - 1] = key;
        frame(MessageType::ClearStateCommand, &payload)
    };
    let clear_all = frame(MessageType::ClearAllStateCommand, &[]);
    let malformed = frame(MessageType::ClearStateCommand, &[0x0A]);
    let journal = |second: &[u8]| [&input, second].concat();
    for (recorded, replayed, kind, index) in [
        (
            journal(&clear(b'a')),
            journal(&clear(b'a')),
            VerdictKind::Same,
            2,
        ),
        (
            journal(&[]),
            journal(&clear_all),
            VerdictKind::RecordedEnded,
            1,
        ),
        (
            journal(&clear_all),
            journal(&[]),
            VerdictKind::ReplayedEnded,
            1,
        ),
        (
            journal(&clear_all),
            journal(&clear(b'a')),
            VerdictKind::TypeMismatch,
            1,
        ),
        (
            journal(&clear(b'a')),
            journal(&clear(b'b')),
            VerdictKind::HeaderMismatch,
            1,
        ),
        (
            journal(&malformed),
            journal(&malformed),
            VerdictKind::BadRecorded,
            1,
        ),
        (
            journal(&clear(b'a')),
            journal(&malformed),
            VerdictKind::BadReplayed,
            1,
        ),
    ] {
        let Verdict {
            kind: found,
            index: at,
            text,
            ..
        } = compare_journals(Version::V8, &recorded, &replayed, false).unwrap();
        assert_eq!((found, at), (kind, index));
        let has_text = matches!(
            kind,
            VerdictKind::TypeMismatch | VerdictKind::HeaderMismatch
        );
        assert_eq!(!text.is_empty(), has_text, "{kind:?}: {text}");
    }
}

#[test]
fn custom_entries_are_not_compared() {
    let clear = frame(MessageType::ClearAllStateCommand, &[]);
    // the first of the two codes is in the range of commands
    for code in [0x3F3F, 0xFC01] {
        let entry = [&header(Version::V8, code, 1).unwrap()[..], &[0xFF], &clear].concat();
        let verdict = compare_journals(Version::V8, &clear, &entry, false).unwrap();
        assert_eq!((verdict.kind, verdict.index), (VerdictKind::Same, 1));
    }
}

#[test]
fn ignored_payloads() {
    let set = |value| {
        let mut payload = [0x0A, 1, b'k', 0x1A, 3, 0x0A, 1, b'1'];
        payload[payload.len() - 1] = value;
        frame(MessageType::SetStateCommand, &payload)
    };
    for (ignore_payloads, kind, index) in [
        (false, VerdictKind::HeaderMismatch, 0),
        (true, VerdictKind::Same, 1),
    ] {
        let found = compare_journals(Version::V8, &set(b'1'), &set(b'2'), ignore_payloads).unwrap();
        assert_eq!((found.kind, found.index), (kind, index));
    }
}
