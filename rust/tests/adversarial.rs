//! Adversarial arguments: each gives the error or the items that are promised, and nothing panics.

use std::io::{self, ErrorKind, Read};

use pendratsoa::{
    canonical, compare_journals, difference, frame, from_json, header, header_eq, is_well_formed,
    merge, next_item, notification, schema, to_json, type_code, type_name, Argument, Decoder,
    Error, Item, JsonReason, Message, MessageType, Next, Schema, VerdictKind, Version,
};

/// A generator of numbers that are the same in every run (splitmix64).
struct Random(u64);

impl Random {
    fn next(&mut self) -> u64 {
        self.0 = self.0.wrapping_add(0x9E37_79B9_7F4A_7C15);
        let mixed = (self.0 ^ (self.0 >> 30)).wrapping_mul(0xBF58_476D_1CE4_E5B9);
        let mixed = (mixed ^ (mixed >> 27)).wrapping_mul(0x94D0_49BB_1331_11EB);
        mixed ^ (mixed >> 31)
    }

    fn below(&mut self, bound: usize) -> usize {
        (self.next() % bound as u64) as usize
    }

    fn bytes(&mut self, most: usize) -> Vec<u8> {
        let length = self.below(most + 1);
        (0..length).map(|_| self.next() as u8).collect()
    }
}

fn code(number: u16) -> Error {
    Error::Unknown(Argument::Code(number))
}

#[test]
fn versions_that_exist() {
    let numbers = Version::ALL.iter().copied().map(u32::from);
    assert_eq!(numbers.collect::<Vec<u32>>(), [5, 6, 7, 8, 9]);
    for &version in Version::ALL {
        assert_eq!(Version::try_from(u32::from(version)), Ok(version));
        assert_eq!(version.to_string().parse(), Ok(version));
        assert_eq!(Decoder::new(version).version(), version);
        // the library knows it too
        assert!(schema(version, MessageType::End.code()).is_ok());
        assert_eq!(next_item(version, &[]), Ok(Next::Missing(8)));
    }
    assert!(Version::ALL.windows(2).all(|pair| pair[0] < pair[1]));
    assert_eq!(format!("{:>3}{:?}", Version::V8, Version::V8), "  8V8");
}

#[test]
fn versions_that_do_not_exist() {
    let unknown = |given: &str| Err(Error::Unknown(Argument::Version(given.to_owned())));
    for number in [0, 4, 10, 1 << 16, (1 << 16) + 8, u32::MAX] {
        let text = number.to_string();
        assert_eq!(Version::try_from(number), unknown(&text));
        assert_eq!(text.parse::<Version>(), unknown(&text));
        assert_eq!(
            Version::try_from(number).unwrap_err().to_string(),
            format!("unknown protocol version {text} (5 to 9)")
        );
    }
    for text in [
        "",
        " 8",
        "8 ",
        "V8",
        "v8",
        "8.0",
        "-8",
        "0x8",
        "\u{0668}",
        "4294967304",
        "8\n",
    ] {
        assert_eq!(text.parse::<Version>(), unknown(text));
    }
    // what is not a number is quoted
    for (text, quoted) in [("", r#""""#), ("v8\u{1b}[0m", r#""v8\u001b[0m""#)] {
        let error = text.parse::<Version>().unwrap_err();
        let expected = format!("unknown protocol version {quoted} (5 to 9)");
        assert_eq!(error.to_string(), expected);
    }
}

#[test]
fn every_code() {
    for number in 0..=u16::MAX {
        let known = MessageType::from_code(number);
        assert_eq!(known.map(MessageType::code), known.map(|_| number));
        assert_eq!(
            type_name(number),
            known
                .map(|known| known.to_string())
                .ok_or_else(|| code(number))
        );
        assert_eq!(header(Version::V8, number, 0).is_ok(), known.is_some());
        let named = known.filter(|known| !matches!(known, MessageType::CustomEntry(_)));
        assert_eq!(schema(Version::V8, number).is_ok(), named.is_some());
        assert_eq!(frame(Version::V8, number, &[]).is_ok(), named.is_some());
        let is_command = named.map_or(false, MessageType::is_command);
        assert_eq!(header_eq(number, &[], &[], false).is_ok(), is_command);
        assert_eq!(difference(number, &[], &[]).is_ok(), is_command);
        let found = notification(number, &[]);
        if known.map_or(false, MessageType::is_notification) {
            assert_eq!(found, Err(Error::NoId(Argument::Payload(0))));
        } else {
            assert_eq!(found, Err(code(number)));
        }
    }
}

#[test]
fn types_and_schemas_are_those_of_the_library() {
    for &named in MessageType::NAMED {
        assert_eq!(type_code(named.name()), Ok(named.code()));
        assert_eq!(MessageType::from_name(named.name()), Some(named));
        assert_eq!(MessageType::try_from(u16::from(named)), Ok(named));
        let number = schema(Version::V9, named.code()).unwrap();
        let name = Schema::try_from(number).unwrap().name();
        assert_eq!(name.strip_suffix("Message"), Some(named.name()));
    }
    for (number, &schema) in (0..).zip(Schema::ALL) {
        assert_eq!((schema.number(), u32::from(schema)), (number, number));
        assert_eq!(Schema::from_name(schema.name()), Some(schema));
        assert_eq!(is_well_formed(number, &[]), Ok(true));
    }
    assert_eq!(MessageType::try_from(4), Err(code(4)));
    assert_eq!(MessageType::from_name("CustomEntry"), None);
}

#[test]
fn schemas_that_do_not_exist() {
    for number in [Schema::ALL.len() as u32, 1 << 16, 1 << 31, u32::MAX] {
        let unknown = Error::Unknown(Argument::Schema(number));
        assert_eq!(Schema::try_from(number), Err(unknown.clone()));
        for payload in [&[][..], &[0xFF; 9]] {
            assert_eq!(is_well_formed(number, payload), Err(unknown.clone()));
            assert_eq!(canonical(number, payload), Err(unknown.clone()));
            assert_eq!(merge(number, payload, payload), Err(unknown.clone()));
            assert_eq!(to_json(number, payload), Err(unknown.clone()));
        }
        for json in ["{}", "{", ""] {
            assert_eq!(from_json(number, json), Err(unknown.clone()));
        }
    }
}

#[test]
fn names_that_do_not_exist() {
    let long = "a".repeat(1 << 20);
    for name in [
        "",
        "\0",
        "sleepCommand",
        "SleepCommand\0",
        "CustomEntry(64513)",
        "\u{1F600}",
        &long,
    ] {
        let unknown = Error::Unknown(Argument::Name(name.to_owned()));
        assert_eq!(type_code(name), Err(unknown));
        assert_eq!(Schema::from_name(name), None);
    }
}

#[test]
fn lengths_that_no_header_holds() {
    assert_eq!(
        header(Version::V8, 0x0400, 0xFFFF_FFFF),
        Ok([4, 0, 0, 0, 0xFF, 0xFF, 0xFF, 0xFF])
    );
    for length in [1 << 32, (1 << 32) + 5, usize::MAX] {
        let too_long = Error::TooLong(Argument::PayloadLength(length));
        assert_eq!(header(Version::V8, 0x0400, length), Err(too_long));
    }
}

#[test]
fn malformed_payloads_are_named() {
    let (good, bad): (&[u8], &[u8]) = (&[0x0A, 1, b'x'], &[0x0A, 9, b'x', 0]);
    let value = Schema::Value.number();
    assert_eq!(
        canonical(value, bad),
        Err(Error::Malformed(Argument::Payload(4)))
    );
    assert_eq!(
        to_json(value, bad),
        Err(Error::Malformed(Argument::Payload(4)))
    );
    let clear = MessageType::ClearStateCommand.code();
    assert_eq!(
        frame(Version::V8, clear, bad),
        Err(Error::Malformed(Argument::Payload(4)))
    );
    for (first, second, malformed) in [
        (good, bad, Argument::Second(4)),
        (bad, good, Argument::First(4)),
        (bad, bad, Argument::First(4)),
    ] {
        let malformed = Error::Malformed(malformed);
        assert_eq!(merge(value, first, second), Err(malformed.clone()));
        assert_eq!(
            header_eq(clear, first, second, true),
            Err(malformed.clone())
        );
        assert_eq!(difference(clear, first, second), Err(malformed));
    }
    let signal = MessageType::SignalNotification.code();
    let (no_id, no_result): (&[u8], &[u8]) = (&[0x22, 0], &[0x10, 1]);
    assert_eq!(
        notification(signal, bad),
        Err(Error::Malformed(Argument::Payload(4)))
    );
    assert_eq!(
        notification(signal, no_id),
        Err(Error::NoId(Argument::Payload(no_id.len())))
    );
    assert_eq!(
        notification(signal, no_result),
        Err(Error::NoResult(Argument::Payload(no_result.len())))
    );
}

#[test]
fn streams_of_noise() {
    let mut random = Random(1);
    for round in 0..2000 {
        let version = Version::ALL[round % Version::ALL.len()];
        let mut stream = Vec::new();
        for _ in 0..random.below(8) {
            // headers that promise short payloads, of known and unknown types
            let kinds = [0, 0x0004, 0x0400, 0x040D, 0x8002, 0xFC01, 0xFFFF];
            let code = kinds[random.below(kinds.len())] as u64;
            let flags = random.next() & 0xFFFF_0000_0000;
            let word = (code << 48) | flags | (random.next() % 24);
            stream.extend_from_slice(&word.to_be_bytes());
            stream.extend(random.bytes(24));
        }
        let mut decoder = Decoder::new(version);
        let mut size = 0;
        let mut rest = &stream[..];
        while !rest.is_empty() {
            let (chunk, others) = rest.split_at(1 + random.below(rest.len()));
            decoder.feed(chunk).unwrap();
            rest = others;
            for item in decoder.items() {
                let item = item.unwrap();
                assert_eq!(
                    next_item(version, &stream[size..]),
                    Ok(Next::Item {
                        item,
                        size: size_of(&item)
                    })
                );
                size += size_of(&item);
                called(&item);
            }
            assert_eq!(size + decoder.rest() + rest.len(), stream.len());
        }
        assert!(matches!(
            next_item(version, &stream[size..]),
            Ok(Next::Missing(1..))
        ));
    }
}

/// A reader that is interrupted before each byte, fails before the one at an index, and returns one byte at a time.
struct Reader<'a> {
    bytes: &'a [u8],
    index: usize,
    fails_at: usize,
    is_interrupted: bool,
}

impl Read for Reader<'_> {
    fn read(&mut self, out: &mut [u8]) -> io::Result<usize> {
        self.is_interrupted = !self.is_interrupted;
        if self.is_interrupted {
            return Err(ErrorKind::Interrupted.into());
        }
        if self.index == self.fails_at {
            self.fails_at = usize::MAX;
            return Err(ErrorKind::TimedOut.into());
        }
        let byte = match self.bytes.get(self.index) {
            Some(byte) => byte,
            None => return Ok(0),
        };
        out[0] = *byte;
        self.index += 1;
        Ok(1)
    }
}

#[test]
fn readers_that_fail() {
    let stream = [
        &[0, 3, 0, 0, 0, 0, 0, 0, 0xFC, 1, 0, 0, 0, 0, 0, 2, 0x62, 0][..],
        &[0; 5],
    ]
    .concat();
    for fails_at in 0..=stream.len() {
        let mut decoder = Decoder::new(Version::V8);
        let mut reader = Reader {
            bytes: &stream,
            index: 0,
            fails_at,
            is_interrupted: false,
        };
        let (mut sizes, mut errors) = (Vec::new(), 0);
        loop {
            match decoder.read_from(&mut reader) {
                Ok(0) => break,
                Ok(count) => assert_eq!(count, 1),
                Err(error) => {
                    assert_eq!(error.kind(), ErrorKind::TimedOut);
                    errors += 1;
                }
            }
            sizes.extend(decoder.items().map(|item| size_of(&item.unwrap())));
        }
        assert_eq!((sizes, errors, decoder.rest()), (vec![8, 10], 1, 5));
    }
}

#[test]
fn streams_longer_than_a_chunk() {
    let message = b"\x04\0\0\0\0\0\0\x09\x72\x07\x0A\x05input";
    let stream = message.repeat(10_000);
    let mut reader = &stream[..];
    let mut decoder = Decoder::new(Version::V8);
    let mut count = 0;
    while decoder.read_from(&mut reader).unwrap() > 0 {
        count += decoder
            .items()
            .map(|item| assert_eq!(size_of(&item.unwrap()), message.len()))
            .count();
    }
    assert_eq!((count, decoder.rest()), (10_000, 0));
}

/// A reader that returns more than it was given room for.
struct Boaster;

impl Read for Boaster {
    fn read(&mut self, _: &mut [u8]) -> io::Result<usize> {
        Ok(usize::MAX)
    }
}

#[test]
fn a_reader_that_returns_too_much() {
    let mut decoder = Decoder::new(Version::V8);
    assert_eq!(decoder.read_from(Boaster).unwrap(), decoder.rest());
}

/// The size of an item in bytes.
fn size_of(item: &Item<'_>) -> usize {
    match item {
        Item::Message(message) => 8 + message.payload().len(),
        Item::UnknownCode(_) => 8,
        Item::Skipped(skipped) => 8 + skipped.payload().len(),
    }
}

/// Makes each call of a message, which succeeds or fails as is promised of its payload.
fn called(item: &Item<'_>) {
    let message = match item {
        Item::Message(message) => message,
        Item::UnknownCode(_) | Item::Skipped(_) => return,
    };
    let schema = message.schema();
    match message.message_type().unwrap() {
        MessageType::CustomEntry(number) => {
            assert_eq!(schema, Err(code(number)));
            assert_eq!(message.json(), Err(code(number)));
            assert_eq!(message.canonical(), Err(code(number)));
            assert_eq!(message.frame(), Err(code(number)));
        }
        named => {
            assert_eq!(message.is_command(), named.is_command());
            let is_well_formed = is_well_formed(schema.unwrap(), message.payload()).unwrap();
            assert_eq!(message.json().is_ok(), is_well_formed);
            assert_eq!(message.canonical().is_ok(), is_well_formed);
            for &version in Version::ALL {
                // a suspension is read by its schema from version 7 on
                if message.version() >= Version::V7 || named != MessageType::Suspension {
                    assert_eq!(message.frame_at(version).is_ok(), is_well_formed);
                }
            }
            if !message.is_notification() {
                assert_eq!(message.notification(), Err(code(message.code())));
            }
        }
    }
}

#[test]
fn payloads_of_noise() {
    let mut random = Random(2);
    for round in 0..5000 {
        let schema = round % Schema::ALL.len() as u32;
        let (first, second) = (random.bytes(12), random.bytes(12));
        let well_formed = [&first, &second].map(|payload| is_well_formed(schema, payload).unwrap());
        assert_eq!(canonical(schema, &first).is_ok(), well_formed[0]);
        assert_eq!(to_json(schema, &first).is_ok(), well_formed[0]);
        let merged = merge(schema, &first, &second);
        match well_formed {
            [true, true] => assert_eq!(is_well_formed(schema, &merged.unwrap()), Ok(true)),
            [true, false] => {
                assert_eq!(
                    merged,
                    Err(Error::Malformed(Argument::Second(second.len())))
                );
            }
            [false, _] => assert_eq!(merged, Err(Error::Malformed(Argument::First(first.len())))),
        }
    }
}

/// The reason for which a text is rejected, where it stops being JSON, and the path to the rejected value.
fn refused(schema: Schema, json: &[u8]) -> (JsonReason, Option<usize>, String) {
    match from_json(schema.number(), json) {
        Err(Error::Json(error)) => (error.reason, error.offset, error.path),
        other => panic!("{other:?}"),
    }
}

#[test]
fn texts_that_are_not_taken() {
    use JsonReason::*;
    for (schema, json, reason, offset, path) in [
        (Schema::Value, &b""[..], NotJson, Some(0), ""),
        (
            Schema::Value,
            b"{\"content\":\"\xFF\"}",
            NotJson,
            Some(12),
            "",
        ),
        (Schema::Value, b"{} {}", NotJson, Some(3), ""),
        (Schema::Value, b"{\"a\":1}", UnknownMember, None, "a"),
        (
            Schema::Value,
            b"{\"content\":null,\"content\":null}",
            RepeatedMember,
            None,
            "content",
        ),
        (
            Schema::ProposeRunCompletionMessage,
            b"{\"value\":\"\",\"failure\":{}}",
            SeveralMembers,
            None,
            "failure",
        ),
        (Schema::Value, b"[]", WrongKind, None, ""),
        (
            Schema::InputCommandMessage,
            b"{\"headers\":[{},{\"key\":1}]}",
            WrongKind,
            None,
            "headers[1].key",
        ),
        (
            Schema::SleepCommandMessage,
            b"{\"wakeUpTime\":-1}",
            OutOfRange,
            None,
            "wakeUpTime",
        ),
        (
            Schema::Value,
            b"{\"content\":\"a\"}",
            NotBase64,
            None,
            "content",
        ),
    ] {
        assert_eq!(refused(schema, json), (reason, offset, path.to_owned()));
    }
    let deep = ["{\"nestedFutures\":[".repeat(102), "]}".repeat(102)].concat();
    let (reason, offset, _) = refused(Schema::Future, deep.as_bytes());
    assert_eq!((reason, offset), (TooDeep, None));
}

#[test]
fn texts_of_noise() {
    let mut random = Random(4);
    for round in 0..5000 {
        let schema = round % Schema::ALL.len() as u32;
        let json = match to_json(schema, &random.bytes(12)) {
            Ok(json) => json,
            Err(_) => "{\"name\":\"x\"}".to_owned(),
        };
        let mut json = json.into_bytes();
        for _ in 0..random.below(3) {
            let place = random.below(json.len());
            json[place] = b"{}[]:,\"\\0-.eE \xFF"[random.below(15)];
        }
        match from_json(schema, &json) {
            Ok(found) => assert_eq!(canonical(schema, &found), Ok(found)),
            Err(Error::Json(error)) => {
                assert_eq!(error.offset.is_some(), error.reason == JsonReason::NotJson);
                assert!(error.offset.unwrap_or(0) <= json.len());
            }
            Err(other) => panic!("{other:?}"),
        }
    }
}

#[test]
fn messages_of_json() {
    let mut buffer = vec![7; 9];
    for (code, json) in [(0xFC01, "{}"), (4, "{}"), (0x0400, "{\"value\":1}")] {
        assert!(Message::from_json(Version::V8, code, json, &mut buffer).is_err());
        assert_eq!(buffer, [7; 9]);
    }
    let code = MessageType::ProposeRunCompletion.code();
    let json = r#"{"resultCompletionId":1,"value":"eA=="}"#;
    for (version, requested_ack) in [
        (Version::V6, false),
        (Version::V7, true),
        (Version::V9, true),
    ] {
        let message = Message::from_json(version, code, json, &mut buffer).unwrap();
        assert_eq!(message.payload(), [0x08, 1, 0x72, 1, b'x']);
        assert_eq!(message.requested_ack(), requested_ack);
        // the members of its JSON are in the order of the fields' numbers
        let mut other = Vec::new();
        let again = Message::from_json(version, code, message.json().unwrap(), &mut other).unwrap();
        assert_eq!(again.payload(), message.payload());
    }
}

#[test]
fn journals_of_noise() {
    let mut random = Random(3);
    for _ in 0..500 {
        let (recorded, replayed) = (random.bytes(64), random.bytes(64));
        for ignore_payloads in [false, true] {
            assert!(compare_journals(Version::V8, &recorded, &replayed, ignore_payloads).is_ok());
            let same =
                compare_journals(Version::V8, &recorded, &recorded, ignore_payloads).unwrap();
            assert_eq!((same.kind, same.text.as_str()), (VerdictKind::Same, ""));
        }
    }
}

/// A record of a payload like one of a single byte, with other bytes, fewer than 2^14.
fn field(like: &[u8], bytes: &[u8]) -> Vec<u8> {
    let key = &like[..like.len() - 2];
    let length = bytes.len();
    let length = [(length & 0x7F) as u8 | 0x80, (length >> 7) as u8];
    [key, &length, bytes].concat()
}

#[test]
fn results_longer_than_the_first_guess() {
    let error = field(&[0x12, 1, b'x'], &[1; 1000]);
    let escaped = "\\u0001".repeat(1000);
    let json = to_json(Schema::ErrorMessage.number(), &error);
    assert_eq!(json, Ok(format!(r#"{{"message":"{escaped}"}}"#)));

    let code = MessageType::ClearStateCommand.code();
    let [first, second] = [b'a', b'b'].map(|byte| field(&[0x0A, 1, b'k'], &[byte; 5000]));
    let text = difference(code, &first, &second).unwrap();
    let [a, b] = ["a", "b"].map(|letter| letter.repeat(5000));
    assert_eq!(text, format!("\n   key: '{a}' != '{b}'"));

    let [first, second] =
        [first, second].map(|payload| frame(Version::V8, code, &payload).unwrap());
    let verdict = compare_journals(Version::V8, &first, &second, false).unwrap();
    assert_eq!(
        (verdict.kind, verdict.index),
        (VerdictKind::HeaderMismatch, 0)
    );
    assert!(verdict.text.contains(&text));
}
