//! What every package promises beyond the calls: the cases of `conformance/packages.cases`, which its README specifies.

use std::cell::RefCell;
use std::collections::{BTreeSet, HashMap};
use std::fs;
use std::io::{self, Read};

use pendratsoa::messages::{
    EndMessage, InputCommandMessage, MessageRecord, SetStateCommandMessage, SleepCommandMessage,
    SuspensionMessage, SuspensionMessageV6,
};
use pendratsoa::{
    compare_journals, header, is_well_formed, type_code, type_name, Decoder, Error, Ignored, Item,
    JsonReason, Message, Mismatch, Numbering, NumberingReason, Replay, Schema, VerdictKind,
    Version,
};

mod packages_records;

use packages_records::{decode_case, encode_case, message_case};

/// The bytes of a word.
fn bytes(word: &str) -> Vec<u8> {
    let digits = word.strip_prefix('-').unwrap_or(word);
    (0..digits.len())
        .step_by(2)
        .map(|at| u8::from_str_radix(&digits[at..at + 2], 16).unwrap())
        .collect()
}

/// Bytes as a word.
fn word(bytes: &[u8]) -> String {
    if bytes.is_empty() {
        return "-".to_owned();
    }
    bytes.iter().map(|byte| format!("{byte:02x}")).collect()
}

/// The name of a type, or - where no type has the code.
fn name(code: Option<u16>) -> String {
    code.and_then(|code| type_name(code).ok())
        .unwrap_or_else(|| "-".to_owned())
}

thread_local! {
    /// The texts of the errors with which a case ended, in whatever chunks its stream came.
    static NOTED: RefCell<BTreeSet<String>> = RefCell::default();
}

/// The result of a case that ends with an error, whose text is noted.
pub(crate) fn noted(error: &Error, result: impl Into<String>) -> String {
    NOTED.with(|noted| noted.borrow_mut().insert(error.to_string()));
    result.into()
}

/// The text of the errors with which a case ended.
fn noted_text() -> String {
    let texts = NOTED.with(RefCell::take);
    Vec::from_iter(texts).join(", and ")
}

/// How a stream ends.
fn end(finished: Result<(), Error>) -> String {
    let error = match finished {
        Ok(()) => return "whole".to_owned(),
        Err(error) => error,
    };
    let result = match &error {
        Error::Incomplete(found) => {
            let name = name(found.code);
            format!("incomplete {} {} {name}", found.offset, found.rest)
        }
        Error::MessageTooLong(found) => {
            let name = name(Some(found.code));
            format!("too_long {} {name} {}", found.offset, found.length)
        }
        error => return error.to_string(),
    };
    noted(&error, result)
}

/// Lines of items, and how their stream ends.
fn listing(lines: &[String], end: &str) -> String {
    match lines {
        [] => end.to_owned(),
        lines => format!("{}; {end}", lines.join(", ")),
    }
}

fn line(item: &Item<'_>) -> String {
    format!("{} {item}", item.offset().unwrap())
}

fn decoder(version: Version, limit: Option<u32>) -> Decoder {
    match limit {
        Some(limit) => Decoder::with_max_message_size(version, limit),
        None => Decoder::new(version),
    }
}

/// The result of a stream in chunks that are fed. The items and the trailing bytes are what was fed.
fn fed(mut decoder: Decoder, chunks: &[&[u8]]) -> String {
    let (mut lines, mut came, mut given) = (Vec::new(), Vec::new(), Vec::new());
    let mut take = |decoder: &mut Decoder| -> Result<(), Error> {
        for item in decoder.items() {
            let item = item?;
            lines.push(line(&item));
            item.append_to(&mut came)?;
        }
        Ok(())
    };
    let fed = chunks.iter().try_for_each(|chunk| {
        decoder.feed(chunk)?;
        given.extend_from_slice(chunk);
        take(&mut decoder)
    });
    if let Err(error) = &fed {
        // each later call is the same error
        assert_eq!(decoder.items().next(), Some(Err(error.clone())));
        assert_eq!(decoder.feed(&[0]), Err(error.clone()));
        assert_eq!(decoder.finish(), Err(error.clone()));
    }
    let finished = fed.and_then(|()| decoder.finish());
    came.extend_from_slice(decoder.trailing());
    assert_eq!(came, given);
    listing(&lines, &end(finished))
}

/// The lines of a stream that is read, and how that ends. The items and the trailing bytes are what was read.
fn read(decoder: &mut Decoder, reader: impl Read) -> (Vec<String>, Result<(), Error>) {
    let (mut lines, mut came, mut given) = (Vec::new(), Vec::new(), Given(reader, Vec::new()));
    let mut finished = Ok(());
    let mut items = decoder.read(&mut given);
    for item in &mut items {
        match item {
            Ok(item) => {
                lines.push(line(&item.item()));
                item.item().append_to(&mut came).unwrap();
            }
            Err(error) => finished = Err(of(&error)),
        }
    }
    assert!(items.next().is_none());
    came.extend_from_slice(decoder.trailing());
    assert_eq!(came, given.1);
    (lines, finished)
}

/// The result of a stream that is read.
fn read_result(mut decoder: Decoder, reader: impl Read) -> String {
    let (lines, finished) = read(&mut decoder, reader);
    listing(&lines, &end(finished))
}

/// The result of a loop that is not strict.
fn not_strict(decoder: Decoder, reader: impl Read) -> String {
    let mut decoder = decoder.with_strict(false);
    let (lines, finished) = read(&mut decoder, reader);
    // the setting is of the loop only
    assert_eq!(decoder.finish().is_ok(), decoder.rest() == 0);
    let ended = match finished {
        Ok(()) => format!("ended {}", decoder.rest()),
        Err(error) => end(Err(error)),
    };
    listing(&lines, &ended)
}

/// The error that an error of a reader holds.
fn of(error: &io::Error) -> Error {
    let held = error.get_ref().unwrap().downcast_ref::<Error>().unwrap();
    let kind = match held {
        Error::Incomplete(_) => io::ErrorKind::UnexpectedEof,
        _ => io::ErrorKind::InvalidData,
    };
    assert_eq!(error.kind(), kind);
    held.clone()
}

/// A reader, and what it has given.
struct Given<R>(R, Vec<u8>);

impl<R: Read> Read for Given<R> {
    fn read(&mut self, room: &mut [u8]) -> io::Result<usize> {
        let count = self.0.read(room)?;
        self.1.extend_from_slice(&room[..count]);
        Ok(count)
    }
}

/// A reader that gives a byte at a time.
struct Bytewise<'a>(&'a [u8]);

impl Read for Bytewise<'_> {
    fn read(&mut self, room: &mut [u8]) -> io::Result<usize> {
        let least = room.len().min(1);
        self.0.read(&mut room[..least])
    }
}

fn items_case(words: &[&str]) -> String {
    let version = words[0].parse().unwrap();
    let limit = words[1].parse().ok();
    let chunks: Vec<Vec<u8>> = words[2..].iter().map(|word| bytes(word)).collect();
    let chunks: Vec<&[u8]> = chunks.iter().map(Vec::as_slice).collect();
    let stream = chunks.concat();
    let found = fed(decoder(version, limit), &chunks);
    let bytewise: Vec<&[u8]> = stream.chunks(1).collect();
    for other in [&[&stream[..]][..], &bytewise] {
        assert_eq!(fed(decoder(version, limit), other), found);
    }
    assert_eq!(read_result(decoder(version, limit), &stream[..]), found);
    assert_eq!(
        read_result(decoder(version, limit), Bytewise(&stream)),
        found
    );
    found
}

fn not_strict_case(words: &[&str]) -> String {
    let version = words[0].parse().unwrap();
    let limit = words[1].parse().ok();
    let stream: Vec<u8> = words[2..].iter().flat_map(|word| bytes(word)).collect();
    let found = not_strict(decoder(version, limit), &stream[..]);
    assert_eq!(
        not_strict(decoder(version, limit), Bytewise(&stream)),
        found
    );
    found
}

/// What is made of each item of a stream that is there as a whole.
fn each(version: &str, stream: &str, result: impl Fn(&Item<'_>) -> String) -> String {
    let mut decoder = decoder(version.parse().unwrap(), None);
    decoder.feed(&bytes(stream)).unwrap();
    let results: Vec<String> = decoder.items().map(|item| result(&item.unwrap())).collect();
    decoder.finish().unwrap();
    results.join(", ")
}

fn failure(error: &Error, message: Message<'_>) -> String {
    let kind = match error {
        Error::Unknown(_) => return noted(error, "unknown"),
        Error::Malformed(_) => "malformed",
        Error::NoId(_) => "no_id",
        Error::NoResult(_) => "no_result",
        error => return error.to_string(),
    };
    assert_eq!(error.code(), Some(message.code()));
    let (name, offset) = (name(error.code()), error.offset().unwrap());
    noted(error, format!("{kind} {name} {offset}"))
}

fn read_case(words: &[&str]) -> String {
    each(words[1], words[2], |item| {
        let message = match item {
            Item::Message(message) => *message,
            _ => return "none".to_owned(),
        };
        let outcome = match words[0] {
            "json" => message.json().map(|_| true),
            "canonical" => message.canonical().map(|_| true),
            "frame" => message.frame().map(|_| true),
            "record" => message.message().map(|record| record.is_some()),
            "notification" => message.notification().map(|_| true),
            call => panic!("{call}"),
        };
        match outcome {
            Ok(true) => "ok".to_owned(),
            Ok(false) => "none".to_owned(),
            Err(error) => failure(&error, message),
        }
    })
}

/// The canonical payload of the record of one type.
fn payload_of<'a, R: MessageRecord<'a>>(item: &Item<'a>) -> Result<Option<Vec<u8>>, Error> {
    item.record::<R>()?
        .map(|record| record.encode())
        .transpose()
}

fn as_case(words: &[&str]) -> String {
    each(words[1], words[2], |item| {
        let payload = match words[0] {
            "EndMessage" => payload_of::<EndMessage>(item),
            "InputCommandMessage" => payload_of::<InputCommandMessage>(item),
            "SetStateCommandMessage" => payload_of::<SetStateCommandMessage>(item),
            "SleepCommandMessage" => payload_of::<SleepCommandMessage>(item),
            "SuspensionMessage" => payload_of::<SuspensionMessage>(item),
            "SuspensionMessageV6" => payload_of::<SuspensionMessageV6>(item),
            name => panic!("{name}"),
        };
        match (payload, item) {
            (Ok(payload), _) => payload.map_or_else(|| "none".to_owned(), |bytes| word(&bytes)),
            (Err(error), Item::Message(message)) => failure(&error, *message),
            (Err(error), _) => panic!("{error}"),
        }
    })
}

fn compare_case(words: &[&str]) -> String {
    let (recorded, replayed) = (bytes(words[2]), bytes(words[3]));
    let version = words[0].parse().unwrap();
    let verdict = compare_journals(version, &recorded, &replayed, words[1] == "yes").unwrap();
    format!("{} {}", kind_of(verdict.kind), verdict.index)
}

fn kind_of(kind: VerdictKind) -> &'static str {
    match kind {
        VerdictKind::Same => "same",
        VerdictKind::RecordedEnded => "recorded_ended",
        VerdictKind::ReplayedEnded => "replayed_ended",
        VerdictKind::TypeMismatch => "type_mismatch",
        VerdictKind::HeaderMismatch => "header_mismatch",
        VerdictKind::BadRecorded => "bad_recorded",
        VerdictKind::BadReplayed => "bad_replayed",
        kind => panic!("{kind:?}"),
    }
}

fn mismatch_case(words: &[&str]) -> String {
    let recorded = bytes(words[2]);
    let version = words[0].parse().unwrap();
    let ignored = Ignored {
        payloads: words[1] == "yes",
        ids: words[1] == "ids",
    };
    let mut replay = Replay::new(version, &recorded, ignored);
    let mut decoder = decoder(version, None);
    decoder.feed(&bytes(words[3])).unwrap();
    let mut found: Vec<Mismatch> = decoder
        .items()
        .filter_map(|item| replay.check(&item.unwrap()).unwrap())
        .collect();
    found.extend(replay.finish().unwrap());
    let said = match found.pop() {
        Some(mismatch) => mismatch,
        None => return "none".to_owned(),
    };
    assert_eq!(found, []);
    let offset = said
        .recorded_offset
        .map_or_else(|| "-".to_owned(), |offset| offset.to_string());
    let mut line = vec![
        kind_of(said.kind).to_owned(),
        said.index.to_string(),
        offset,
        said.replayed_offset.to_string(),
        word(said.text.as_bytes()),
    ];
    for field in said.fields {
        line.extend([
            field.name,
            word(field.recorded.as_bytes()),
            word(field.replayed.as_bytes()),
        ]);
    }
    line.join(" ")
}

fn replay_case(words: &[&str]) -> String {
    let recorded = bytes(words[2]);
    let version = words[0].parse().unwrap();
    let ignored = Ignored {
        payloads: words[1] == "yes",
        ids: words[1] == "ids",
    };
    let mut replay = Replay::new(version, &recorded, ignored);
    let mut decoder = decoder(version, None);
    decoder.feed(&bytes(words[3])).unwrap();
    let mut steps = vec![step(&replay, None)];
    for item in decoder.items() {
        let said = replay.check(&item.unwrap()).unwrap();
        steps.push(step(&replay, said));
    }
    let end = match replay.finish().unwrap() {
        Some(left) => format!("{} {}", kind_of(left.kind), left.index),
        None => "none".to_owned(),
    };
    format!("{}; {end}", steps.join(", "))
}

fn rest_case(words: &[&str]) -> String {
    let (version, recorded) = (words[0].parse().unwrap(), bytes(words[1]));
    let mut replay = Replay::new(version, &recorded, Ignored::default());
    let rest = replay.recorded_rest().unwrap();
    let mut decoder = decoder(version, None);
    decoder.feed(&recorded).unwrap();
    for item in decoder.items() {
        replay.check(&item.unwrap()).unwrap();
        // it is the same wherever the replay is
        assert_eq!(replay.recorded_rest(), Ok(rest));
    }
    assert_eq!(decoder.rest(), rest);
    rest.to_string()
}

/// What is said of an item, and what comes next.
fn step(replay: &Replay<'_>, said: Option<Mismatch>) -> String {
    let kind = said.map_or("none", |mismatch| kind_of(mismatch.kind));
    let index = replay.index();
    match replay.expected().unwrap() {
        Some(expected) => {
            let offset = expected.offset().unwrap();
            format!("{kind} {index} {offset} {}", name(Some(expected.code())))
        }
        None => format!("{kind} {index}"),
    }
}

fn new_case(words: &[&str]) -> String {
    let payload = bytes(words[2]);
    let (version, code) = match (words[0].parse(), words[1].parse()) {
        (Ok(version), Ok(code)) => (version, code),
        (Err(error), _) => return unknown(&error),
        // the code is none of 16 bits
        _ => return "unknown".to_owned(),
    };
    let message = match Message::new(version, code, &payload) {
        Ok(message) => message,
        Err(error) => return unknown(&error),
    };
    assert_eq!((message.version(), message.code()), (version, code));
    assert_eq!(message.payload(), payload);
    let item = Item::from(message);
    let all = item.to_bytes().unwrap();
    let mut decoder = decoder(version, None);
    decoder.feed(&all).unwrap();
    let came: Vec<_> = decoder.items().map(Result::unwrap).collect();
    assert_eq!(came, [item]);
    format!("{item}, {}", word(&all))
}

/// The result of a case that ends with the error of what is unknown.
pub(crate) fn unknown(error: &Error) -> String {
    match error {
        Error::Unknown(_) => noted(error, "unknown"),
        error => error.to_string(),
    }
}

fn json_case(words: &[&str]) -> String {
    let mut payload = Vec::new();
    let message = words[0].parse().and_then(|version| {
        let code = type_code(words[1])?;
        Message::from_json(version, code, bytes(words[2]), &mut payload)
    });
    match message {
        Ok(message) => {
            assert_eq!(
                (message.version().to_string(), name(Some(message.code()))),
                (words[0].to_owned(), words[1].to_owned())
            );
            word(message.payload())
        }
        Err(error) => match &error {
            Error::Json(found) => {
                let offset = found.offset.map(|offset| offset.to_string());
                let place = offset.unwrap_or_else(|| found.path.clone());
                noted(
                    &error,
                    format!("{} {place}", reason(found.reason)).trim_end(),
                )
            }
            error => unknown(error),
        },
    }
}

fn reason(reason: JsonReason) -> &'static str {
    match reason {
        JsonReason::NotJson => "not_json",
        JsonReason::UnknownMember => "unknown_member",
        JsonReason::RepeatedMember => "repeated_member",
        JsonReason::SeveralMembers => "several_members",
        JsonReason::WrongKind => "wrong_kind",
        JsonReason::OutOfRange => "out_of_range",
        JsonReason::NotBase64 => "not_base64",
        JsonReason::TooDeep => "too_deep",
        reason => panic!("{reason:?}"),
    }
}

fn limit_case(words: &[&str]) -> String {
    match words[0].parse::<u32>() {
        Ok(limit) => {
            // a payload as long as the limit is taken, and a longer one is not
            for length in [Some(limit), limit.checked_add(1)].into_iter().flatten() {
                let mut decoder = decoder(Version::V8, Some(limit));
                let begin = header(Version::V8, 0x0400, length as usize).unwrap();
                decoder.feed(&begin).unwrap();
                assert_eq!(decoder.items().next().transpose().is_ok(), length == limit);
            }
            "ok".to_owned()
        }
        Err(_) => "out_of_range".to_owned(),
    }
}

fn number_case(words: &[&str]) -> String {
    let known = match (words[0], words[1].parse::<u32>(), words[1].parse::<u16>()) {
        ("version", number, _) => {
            let version: Result<Version, Error> = words[1].parse();
            // its number is the same, or the same error
            if let Ok(number) = number {
                assert_eq!(Version::try_from(number), version);
            }
            version.map(|_| ())
        }
        ("schema", Ok(schema), _) => is_well_formed(schema, &[]).map(|_| ()),
        ("code", _, Ok(code)) => type_name(code).map(|_| ()),
        _ => return "unknown".to_owned(),
    };
    match known {
        Ok(()) => "known".to_owned(),
        Err(error) => unknown(&error),
    }
}

fn name_case(words: &[&str]) -> String {
    let name = words[1];
    let error = match (words[0], type_code(name)) {
        ("schema", _) if Schema::from_name(name).is_none() => return "unknown".to_owned(),
        ("schema", _) | (_, Ok(_)) => return "known".to_owned(),
        (_, Err(error)) => error,
    };
    let result = unknown(&error);
    match error.to_string().split_once("; did you mean \"") {
        Some((_, meant)) => format!("{result} {}", meant.strip_suffix("\"?").unwrap()),
        None => result,
    }
}

/// The result of a case.
fn result_of(words: &[&str]) -> String {
    let (kind, words) = (words[0], &words[1..]);
    match kind {
        "items" => items_case(words),
        "not_strict" => not_strict_case(words),
        "read" => read_case(words),
        "as" => as_case(words),
        "compare" => compare_case(words),
        "mismatch" => mismatch_case(words),
        "replay" => replay_case(words),
        "rest" => rest_case(words),
        "encode" => encode_case(words),
        "message" => message_case(words),
        "new" => new_case(words),
        "decode" => decode_case(words),
        "json" => json_case(words),
        "number" => number_case(words),
        "name" => name_case(words),
        "limit" => limit_case(words),
        "text" => {
            NOTED.with(RefCell::take);
            result_of(words);
            noted_text()
        }
        kind => panic!("{kind}"),
    }
}

#[test]
fn each_case_has_its_result() {
    let text = fs::read_to_string("../conformance/packages.cases").unwrap();
    let mut count = 0;
    for line in text
        .lines()
        .filter(|line| !line.is_empty() && !line.starts_with('#'))
    {
        let (question, expected) = line.split_once(" = ").unwrap();
        let words: Vec<&str> = question.split(' ').collect();
        let expected = match words[..] {
            // an `Option` asks for no other name, and has no error
            ["name", "schema", ..] => expected.split(' ').next().unwrap(),
            ["text", "name", "schema", ..] => "",
            // a text is UTF-8
            ["text", "encode", ..] if expected.ends_with("not UTF-8") => "",
            _ => expected,
        };
        assert_eq!(result_of(&words), expected, "{line}");
        count += 1;
    }
    assert!(count > 100, "{count} cases");
}

/// The names of lines; `None` if they are not UTF-8, or a line is not a pair of them.
fn renames(bytes: &[u8]) -> Option<Vec<(&str, &str)>> {
    let text = std::str::from_utf8(bytes).ok()?;
    text.lines().map(|line| line.split_once('=')).collect()
}

/// What a call at other field numbers returns, as a word.
fn renumbered(found: Result<Vec<u8>, Error>) -> String {
    match found {
        Ok(found) => word(&found),
        Err(Error::Malformed(_)) => "malformed".to_owned(),
        Err(Error::Unknown(_)) => "unknown".to_owned(),
        Err(error) => error.to_string(),
    }
}

fn set_case(made: &Result<Numbering, Error>) -> String {
    match made {
        Ok(_) => "ok".to_owned(),
        Err(Error::Numbering(error)) => {
            let (reason, argument) = match error.reason {
                NumberingReason::NoSet => ("no_set", "descriptor set"),
                _ => ("no_rename", "renames"),
            };
            assert_eq!(error.to_string(), format!("{argument}: {}", error.text));
            format!("{reason} {}", word(error.text.as_bytes()))
        }
        Err(error) => error.to_string(),
    }
}

/// A decoder with a numbering has the messages of the stream that was read by it, or the same error.
fn same_items(
    numbering: &Numbering,
    version: Version,
    stream: &[u8],
    read: &Result<Vec<u8>, Error>,
) {
    let mut decoder = Decoder::new(version).with_numbering(numbering);
    decoder.feed(stream).unwrap();
    let mut own = Decoder::new(version);
    own.feed(read.as_deref().unwrap_or_default()).unwrap();
    let (mut copied, mut error) = (Vec::new(), None);
    let mut others = own.items();
    for item in decoder.items() {
        match item {
            Ok(item) => {
                item.append_to(&mut copied).unwrap();
                let other = others.next().unwrap().unwrap();
                assert_eq!(item.to_string(), other.to_string());
                if let (Item::Message(message), Item::Message(other)) = (item, other) {
                    assert_eq!(message.payload(), other.payload());
                }
            }
            Err(found) => error = Some(found),
        }
    }
    assert_eq!(error.as_ref(), read.as_ref().err());
    copied.extend_from_slice(decoder.trailing());
    // the message that cannot be read is taken
    assert!(error.is_some() || copied == stream);
}

/// The cases of `conformance/numberings.cases`. A rename that is not a pair of texts is left out.
#[test]
fn the_cases_of_numberings() {
    let cases = fs::read_to_string("../conformance/numberings.cases").unwrap();
    let (mut numberings, mut count) = (HashMap::new(), 0);
    for line in cases.lines() {
        if line.is_empty() || line.starts_with('#') {
            continue;
        }
        let (question, expected) = line.split_once(" = ").unwrap();
        let words: Vec<&str> = question.split(' ').collect();
        let schema = |name| Schema::from_name(name).unwrap().number();
        let result = match *words {
            ["set", name, lines, set] => {
                let lines = bytes(lines);
                let made = match renames(&lines) {
                    Some(renames) => Numbering::new(&bytes(set), &renames),
                    None => continue,
                };
                let result = set_case(&made);
                numberings.extend(made.ok().map(|made| (name, made)));
                result
            }
            ["read", name, of, payload] => {
                renumbered(numberings[name].read_payload(schema(of), &bytes(payload)))
            }
            ["write", name, of, payload] => {
                renumbered(numberings[name].write_payload(schema(of), &bytes(payload)))
            }
            ["stream", "read", name, version, stream] => {
                let stream = bytes(stream);
                renumbered(version.parse().and_then(|version| {
                    let read = numberings[name].read_stream(version, &stream);
                    same_items(&numberings[name], version, &stream, &read);
                    read
                }))
            }
            ["stream", "write", name, version, stream] => {
                let written = version
                    .parse()
                    .and_then(|version| numberings[name].write_stream(version, &bytes(stream)));
                renumbered(written)
            }
            _ => panic!("{line}"),
        };
        assert_eq!(result, expected, "{line}");
        count += 1;
    }
    assert!(count > 600, "{count} cases");
}

#[test]
fn where_an_item_begins_is_not_compared() {
    let message = Message::new(Version::V8, 0x0403, &[0x0A, 5, b'a']).unwrap();
    assert_eq!(message.offset(), None);
    let item = Item::from(message);
    let (first, second) = (item.with_offset(0), item.with_offset(8));
    assert_eq!((first.offset(), second.offset()), (Some(0), Some(8)));
    assert_eq!(first, second);
    assert_eq!(first, item);
    let error = message.json().unwrap_err();
    assert_eq!((error.code(), error.offset()), (Some(0x0403), None));
    assert_eq!(
        error.to_string(),
        "SetStateCommand: payload of 3 bytes is malformed"
    );
    let owned = second.into_owned().unwrap();
    assert_eq!((owned.item(), owned.item().offset()), (second, Some(8)));
    assert_eq!(owned.to_string(), "SetStateCommand 3");
}

/// A reader that fails once, after its first bytes.
struct Failing(Vec<io::Result<Vec<u8>>>);

impl Read for Failing {
    fn read(&mut self, room: &mut [u8]) -> io::Result<usize> {
        match self.0.pop() {
            None => Ok(0),
            Some(given) => {
                let bytes = given?;
                room[..bytes.len()].copy_from_slice(&bytes);
                Ok(bytes.len())
            }
        }
    }
}

#[test]
fn a_reader_that_fails_is_read_on() {
    let fails = || Err(io::Error::from(io::ErrorKind::WouldBlock));
    // the last is read first
    let reader = Failing(vec![
        Ok(vec![0, 0, 0]),
        fails(),
        Ok(vec![0, 3, 0, 0, 0, 0, 0, 0, 0, 3, 0, 0, 0]),
    ]);
    let mut decoder = Decoder::new(Version::V8);
    let mut items = decoder.read(reader);
    let offset = |item: io::Result<pendratsoa::OwnedItem>| item.unwrap().item().offset();
    assert_eq!(items.next().and_then(offset), Some(0));
    let error = items.next().unwrap().unwrap_err();
    assert_eq!(error.kind(), io::ErrorKind::WouldBlock);
    assert_eq!(items.next().and_then(offset), Some(8));
    assert!(items.next().is_none());
    assert!(items.next().is_none());
}
