//! Checks the replay that comes on the standard input by a recording: replay RECORDING [5..9]
//!
//! It prints each command that is the same. Where the replay leaves the recording it prints how, where both are, which
//! command the recording has next, the text that the SDKs report, and the fields that differ. The status is 0 if both
//! are the same, 1 if they differ, and 2 if either cannot be read: a file, a message of more than a mebibyte, a stream
//! that ends within an item, a command that is malformed. A recording that ends within an item is read up to that: the
//! status is 1 if the replay differs from its whole items, and otherwise 2.

use std::env;
use std::error::Error;
use std::ffi::OsString;
use std::fs;
use std::io::{self, Read, Write};
use std::process::ExitCode;

use pendratsoa::{Decoder, Ignored, Item, Mismatch, Replay, VerdictKind, Version};

const LIMIT: u32 = 1 << 20;

fn main() -> ExitCode {
    // the name of a file need not be UTF-8
    let words: Vec<OsString> = env::args_os().skip(1).collect();
    run(&words).unwrap_or_else(|error| {
        eprintln!("replay: {error}");
        ExitCode::from(2)
    })
}

/// Checks a replay by the recording that the words say.
fn run(words: &[OsString]) -> Result<ExitCode, Box<dyn Error>> {
    let (name, version) = match words {
        [name] => (name, Version::V8),
        [name, version] => (name, version.to_string_lossy().parse()?),
        _ => return Err("usage: replay RECORDING [5..9]".into()),
    };
    let recorded = fs::read(name)?;
    let mut replay = Replay::new(version, &recorded, Ignored::default());
    let mut output = io::stdout().lock();
    let mismatch = match check(&mut replay, io::stdin().lock(), &mut output)? {
        Some(mismatch) => mismatch,
        None => {
            check_end(&replay)?;
            writeln!(output, "same, {} commands", replay.index())?;
            return Ok(ExitCode::SUCCESS);
        }
    };
    show(&mismatch, &replay, &mut output)?;
    let is_malformed = matches!(
        mismatch.kind,
        VerdictKind::BadRecorded | VerdictKind::BadReplayed
    );
    Ok(ExitCode::from(1 + u8::from(is_malformed)))
}

/// Prints each command that is the same, and returns the first mismatch.
fn check(
    replay: &mut Replay<'_>,
    mut input: impl Read,
    output: &mut impl Write,
) -> Result<Option<Mismatch>, Box<dyn Error>> {
    let mut decoder = Decoder::with_max_message_size(replay.version(), LIMIT);
    while decoder.read_from(&mut input)? > 0 {
        for item in decoder.items() {
            let item = item?;
            let index = replay.index();
            let mismatch = replay.check(&item)?;
            if mismatch.is_some() {
                return Ok(mismatch);
            }
            match item {
                Item::Message(command) if replay.index() > index => {
                    let offset = command.offset().unwrap_or_default();
                    writeln!(output, "same {} at offset {offset}", command.type_name()?)?;
                }
                _ => {}
            }
        }
    }
    decoder.finish()?;
    Ok(replay.finish()?)
}

/// An error if the recording ends within an item: it may have had more commands.
fn check_end(replay: &Replay<'_>) -> Result<(), Box<dyn Error>> {
    match replay.recorded_rest()? {
        0 => Ok(()),
        rest => Err(format!("the recording ends within an item, after {rest} of its bytes").into()),
    }
}

/// Prints a mismatch.
fn show(
    found: &Mismatch,
    replay: &Replay<'_>,
    output: &mut impl Write,
) -> Result<(), Box<dyn Error>> {
    let recorded = found
        .recorded_offset
        .map_or_else(|| "-".into(), |offset| offset.to_string());
    writeln!(
        output,
        "{}, command {}, recorded at offset {recorded}, replayed at offset {}",
        word(found.kind),
        found.index,
        found.replayed_offset
    )?;
    if let Some(next) = replay.expected()? {
        let offset = next.offset().unwrap_or_default();
        writeln!(output, "next {} at offset {offset}", next.type_name()?)?;
    }
    if !found.text.is_empty() {
        writeln!(output, "{}", found.text)?;
    }
    for field in &found.fields {
        let (name, recorded, replayed) = (&field.name, &field.recorded, &field.replayed);
        writeln!(
            output,
            "field {name}: recorded {recorded}, replayed {replayed}"
        )?;
    }
    Ok(())
}

/// The word for the kind of a mismatch.
fn word(kind: VerdictKind) -> &'static str {
    match kind {
        VerdictKind::RecordedEnded => "recorded_ended",
        VerdictKind::ReplayedEnded => "replayed_ended",
        VerdictKind::TypeMismatch => "type_mismatch",
        VerdictKind::HeaderMismatch => "header_mismatch",
        VerdictKind::BadRecorded => "bad_recorded",
        VerdictKind::BadReplayed => "bad_replayed",
        _ => "another verdict",
    }
}
