//! Replays that are checked item by item: the lines of `conformance/replays`, which its README specifies. What is said
//! of each is the verdict of both journals as a whole.

use std::fs;

use pendratsoa::{
    compare_journals, difference, type_name, Decoder, Ignored, Item, Message, Mismatch, OwnedItem,
    Replay, VerdictKind, Version,
};

/// The bytes of a word.
fn bytes(word: &str) -> Vec<u8> {
    let digits = word.strip_prefix('-').unwrap_or(word);
    (0..digits.len())
        .step_by(2)
        .map(|at| u8::from_str_radix(&digits[at..at + 2], 16).unwrap())
        .collect()
}

/// The whole items of a stream.
fn items(version: Version, stream: &[u8]) -> Vec<OwnedItem> {
    let mut decoder = Decoder::new(version);
    decoder.feed(stream).unwrap();
    std::iter::from_fn(|| decoder.next_owned())
        .map(Result::unwrap)
        .collect()
}

/// The message that an item is, if it is a command that is compared.
fn command<'a>(item: &'a OwnedItem) -> Option<Message<'a>> {
    match item.item() {
        Item::Message(message)
            if message.is_command()
                && !type_name(message.code())
                    .unwrap()
                    .starts_with("CustomEntry") =>
        {
            Some(message)
        }
        _ => None,
    }
}

/// What is said of a replay, in the words of the vectors.
fn said(version: Version, recorded: &[u8], replayed: &[u8], payloads: bool) -> String {
    let (recording, replay_items) = (items(version, recorded), items(version, replayed));
    let mut commands = recording.iter().filter_map(command).peekable();
    let ignored = Ignored {
        payloads,
        ..Ignored::default()
    };
    let mut replay = Replay::new(version, recorded, ignored);
    let mut found = None;
    let mut count = 0;
    for item in &replay_items {
        let expected = replay.expected().unwrap();
        assert_eq!(expected.as_ref(), commands.peek());
        assert_eq!(
            expected.and_then(|command| command.offset()),
            commands.peek().and_then(Message::offset)
        );
        found = replay.check(&item.item()).unwrap();
        if found.is_some() {
            assert_eq!(replay.expected().unwrap(), expected);
            break;
        }
        if command(item).is_some() {
            commands.next();
        }
        count += 1;
    }
    if found.is_some() {
        // it is said once
        for item in &replay_items {
            assert_eq!(replay.check(&item.item()), Ok(None));
        }
        assert_eq!(replay.finish(), Ok(None));
    } else {
        found = replay.finish().unwrap();
    }
    let verdict = compare_journals(version, recorded, replayed, payloads).unwrap();
    assert_eq!(replay.index(), verdict.index);
    let mismatch = match found {
        Some(mismatch) => mismatch,
        None => {
            assert_eq!(verdict.kind, VerdictKind::Same);
            return format!("same {}", verdict.index);
        }
    };
    assert_eq!(
        (mismatch.kind, mismatch.index, &mismatch.text),
        (verdict.kind, verdict.index, &verdict.text)
    );
    if mismatch.kind == VerdictKind::HeaderMismatch {
        check_fields(&mismatch, commands.peek().unwrap(), &replay_items[count]);
    } else {
        assert_eq!(mismatch.fields, []);
    }
    words(&mismatch, count)
}

/// Checks that the fields of a mismatch are the lines of the difference of both commands.
fn check_fields(mismatch: &Mismatch, recorded: &Message<'_>, replayed: &OwnedItem) {
    let second = command(replayed).unwrap();
    let lines: String = mismatch
        .fields
        .iter()
        .map(|field| {
            format!(
                "\n   {}: {} != {}",
                field.name, field.recorded, field.replayed
            )
        })
        .collect();
    let text = difference(recorded.code(), recorded.payload(), second.payload()).unwrap();
    assert_eq!(lines, text);
    assert_eq!(
        (mismatch.recorded_offset, Some(mismatch.replayed_offset)),
        (recorded.offset(), second.offset())
    );
}

/// A mismatch after this many items, in the words of the vectors.
fn words(mismatch: &Mismatch, items: usize) -> String {
    let index = mismatch.index;
    let recorded = mismatch
        .recorded_offset
        .map_or_else(|| "-".to_owned(), |offset| offset.to_string());
    let places = format!("{index} {items} {recorded} {}", mismatch.replayed_offset);
    match mismatch.kind {
        VerdictKind::RecordedEnded => format!("recorded_ended {places}"),
        VerdictKind::ReplayedEnded => format!("replayed_ended {index}"),
        VerdictKind::TypeMismatch => format!("other_type {places}"),
        VerdictKind::HeaderMismatch => format!("other_command {places}"),
        VerdictKind::BadRecorded => format!("malformed recorded {index} {items}"),
        VerdictKind::BadReplayed => format!("malformed replayed {index} {items}"),
        kind => format!("{kind:?}"),
    }
}

#[test]
fn the_vectors() {
    let lines = fs::read_to_string("../conformance/replays/worked.txt").unwrap();
    let mut count = 0;
    for line in lines.lines() {
        let (question, expected) = match line.split_once(" = ") {
            Some(parts) => parts,
            None => continue,
        };
        let given: Vec<&str> = question.split(' ').collect();
        let version = given[1].parse().unwrap();
        let replayed: Vec<u8> = given[4..].iter().copied().flat_map(bytes).collect();
        let found = said(version, &bytes(given[3]), &replayed, given[2] == "ignored");
        assert_eq!(found, expected, "{line}");
        count += 1;
    }
    assert!(count > 20, "{count} lines");
}

#[test]
fn journals_cut_short() {
    let recorded = fs::read("../examples/streams/recorded").unwrap();
    let other = fs::read("../examples/streams/replayed_other_payload").unwrap();
    for ignore_payloads in [false, true] {
        for end in 0..=other.len() {
            said(Version::V8, &recorded, &other[..end], ignore_payloads);
        }
        for end in 0..=recorded.len() {
            said(Version::V8, &recorded[..end], &other, ignore_payloads);
        }
    }
}

#[test]
fn bytes_after_the_last_whole_item() {
    let recorded = fs::read("../examples/streams/recorded").unwrap();
    let recording = items(Version::V8, &recorded);
    let ends: Vec<usize> = recording
        .iter()
        .map(|item| item.item().offset().unwrap() as usize)
        .chain([recorded.len()])
        .collect();
    for end in 0..=recorded.len() {
        let whole = ends.iter().rev().find(|whole| **whole <= end).unwrap();
        let mut replay = Replay::new(Version::V8, &recorded[..end], Ignored::default());
        for item in &recording {
            assert_eq!(replay.recorded_rest(), Ok(end - whole));
            replay.check(&item.item()).unwrap();
        }
        // also after the mismatch that the recording ended
        assert_eq!(replay.recorded_rest(), Ok(end - whole));
    }
}

#[test]
fn each_version_has_a_replay() {
    for &version in Version::ALL {
        let replay = Replay::new(version, &[], Ignored::default());
        assert_eq!(replay.version(), version);
        assert_eq!((replay.expected(), replay.finish()), (Ok(None), Ok(None)));
    }
}

#[test]
fn a_clone_goes_on_by_itself() {
    let recorded = [0x04, 0x0C, 0, 0, 0, 0, 0, 0];
    let recording = items(Version::V8, &recorded);
    let mut replay = Replay::new(Version::V8, &recorded, Ignored::default());
    let before = replay.clone();
    assert_eq!(replay.check(&recording[0].item()), Ok(None));
    assert_eq!(replay.finish(), Ok(None));
    assert_eq!(before.finish().unwrap().unwrap().index, 0);
}
