//! The test vectors of conformance/, by the calls of the crate. The last line is 'N passed, M failed'.
//!
//! Lines of the kind `record` have no call. What else follows from a line is tested with it: a stream is the same byte
//! by byte, a canonical payload is its own result and has the same JSON, which is read as this payload, a frame is a
//! header and the canonical payload, and a command is the same as itself.

use std::error::Error as StdError;
use std::fs;
use std::path::Path;
use std::process::ExitCode;

use pendratsoa::{
    canonical, difference, frame, from_json, header, header_eq, is_well_formed, merge, schema,
    to_json, type_code, Decoder, Error, Item, Schema, Version,
};

#[rustfmt::skip]
mod all_records;

use all_records::encoded_again;

type Outcome = Result<String, Box<dyn StdError>>;

fn main() -> ExitCode {
    let folder = Path::new(env!("CARGO_MANIFEST_DIR")).join("../conformance");
    let (mut passed, mut failed) = (0, 0);
    for line in lines(&folder).expect("the files of conformance/ can be read") {
        let (input, expected) = line.split_once(" = ").expect("a line has a result");
        match result(input) {
            None => {}
            Some(Ok(found)) if found == expected => passed += 1,
            Some(found) => {
                failed += 1;
                let start: String = line.chars().take(300).collect();
                println!("failed: {start}\n  returned: {found:?}");
            }
        }
    }
    println!("{passed} passed, {failed} failed");
    ExitCode::from(u8::from(failed > 0 || passed == 0))
}

/// The test vectors of all files, those of JSON too.
fn lines(folder: &Path) -> std::io::Result<Vec<String>> {
    let mut found = Vec::new();
    for folder in [folder, &folder.join("json")] {
        for entry in fs::read_dir(folder)? {
            let path = entry?.path();
            if path
                .extension()
                .map_or(false, |extension| extension == "txt")
            {
                let text = fs::read_to_string(path)?;
                let lines = text
                    .lines()
                    .filter(|line| !line.is_empty() && !line.starts_with('#'));
                found.extend(lines.map(str::to_owned));
            }
        }
    }
    Ok(found)
}

/// The result for the input of a line, or `None` if the line is of a kind that has no call.
fn result(input: &str) -> Option<Outcome> {
    let words: Vec<&str> = input.split(' ').collect();
    let outcome = match words.as_slice() {
        ["payload", name, payload] => on_payload(name, payload),
        ["merge", name, payloads @ ..] => on_merge(name, payloads),
        ["frame", name, version, payload] => on_frame(name, version, payload),
        ["stream", version, chunks @ ..] => on_stream(version, chunks),
        ["compare", name, first, second] => on_compare(name, first, second),
        ["json", name, payload] => on_json(name, payload),
        ["read", name, text] => on_read(name, text),
        ["record" | "fields", ..] => return None,
        _ => Err(format!("no such kind of line: {input}").into()),
    };
    Some(match outcome {
        Err(error) if is_malformed(error.as_ref()) => Ok("malformed".to_owned()),
        outcome => outcome,
    })
}

fn is_malformed(error: &(dyn StdError + 'static)) -> bool {
    matches!(error.downcast_ref(), Some(Error::Malformed(_)))
}

/// An error, unless a law of the protocol holds.
fn law(name: &str, holds: bool) -> Result<(), String> {
    holds
        .then_some(())
        .ok_or_else(|| format!("the law is broken: {name}"))
}

fn number(name: &str) -> Result<u32, String> {
    let schema = Schema::from_name(name).ok_or_else(|| format!("no schema is named {name}"))?;
    Ok(schema.number())
}

fn bytes(hex: &str) -> Result<Vec<u8>, Box<dyn StdError>> {
    if hex == "-" {
        return Ok(Vec::new());
    }
    let pairs = hex.as_bytes().chunks(2).map(std::str::from_utf8);
    pairs
        .map(|pair| Ok(u8::from_str_radix(pair?, 16)?))
        .collect()
}

fn hex(bytes: &[u8]) -> String {
    if bytes.is_empty() {
        return "-".to_owned();
    }
    bytes.iter().map(|byte| format!("{byte:02x}")).collect()
}

fn on_payload(name: &str, input: &str) -> Outcome {
    let (schema, input) = (number(name)?, bytes(input)?);
    let found = canonical(schema, &input);
    law(
        "what has a canonical encoding is well-formed",
        is_well_formed(schema, &input)? == found.is_ok(),
    )?;
    let found = found?;
    law(
        "a canonical payload is its own",
        canonical(schema, &found)? == found,
    )?;
    let record = Schema::from_number(schema).ok_or("a schema of no record")?;
    law(
        "its record is encoded so",
        encoded_again(record, &input)? == found,
    )?;
    let json = to_json(schema, &input)?;
    law("its JSON is the same", to_json(schema, &found)? == json)?;
    law(
        "its JSON is read back",
        from_json(schema, &json).as_ref() == Ok(&found),
    )?;
    Ok(hex(&found))
}

fn on_merge(name: &str, payloads: &[&str]) -> Outcome {
    let schema = number(name)?;
    let mut merged = canonical(schema, &bytes(payloads[0])?)?;
    for payload in &payloads[1..] {
        merged = merge(schema, &merged, &bytes(payload)?)?;
    }
    Ok(hex(&merged))
}

fn on_frame(name: &str, version: &str, payload: &str) -> Outcome {
    let (code, version) = (type_code(name)?, version.parse()?);
    let found = frame(version, code, &bytes(payload)?)?;
    let (head, payload) = found.split_at(8);
    law(
        "a frame begins with its header",
        head == header(version, code, payload.len())?,
    )?;
    let schema = schema(version, code)?;
    law(
        "its payload is canonical",
        canonical(schema, payload)? == payload,
    )?;
    Ok(hex(&found))
}

fn on_stream(version: &str, chunks: &[&str]) -> Outcome {
    let version = version.parse()?;
    let chunks = chunks
        .iter()
        .map(|chunk| bytes(chunk))
        .collect::<Result<Vec<_>, _>>()?;
    let listed = listing(version, chunks.iter().map(Vec::as_slice))?;
    let joined = chunks.concat();
    law(
        "a stream is the same byte by byte",
        listing(version, joined.chunks(1))? == listed,
    )?;
    law(
        "a stream is the same in one chunk",
        listing(version, [&joined[..]])? == listed,
    )?;
    Ok(listed)
}

/// The items of a stream and the number of bytes that are in none, as the lines have them.
fn listing<'a>(version: Version, chunks: impl IntoIterator<Item = &'a [u8]>) -> Outcome {
    let mut decoder = Decoder::new(version);
    let mut listed = Vec::new();
    for chunk in chunks {
        decoder.feed(chunk)?;
        for item in decoder.items() {
            listed.push(match item? {
                Item::Message(message) => {
                    let ack = if message.requested_ack() { " ack" } else { "" };
                    let law_of_names = message.message_type().map(|named| named.to_string());
                    law("names", law_of_names == Some(message.type_name()?))?;
                    format!("{} {}{ack}", message.type_name()?, message.payload().len())
                }
                Item::UnknownCode(unknown) => format!("unknown {:#x}", unknown.code()),
                Item::Skipped(skipped) => {
                    format!("skipped {:#x} {}", skipped.code(), skipped.payload().len())
                }
            });
        }
    }
    listed.push(format!("rest {}", decoder.rest()));
    Ok(listed.join(", "))
}

fn on_compare(name: &str, first: &str, second: &str) -> Outcome {
    let (code, first, second) = (type_code(name)?, bytes(first)?, bytes(second)?);
    let mut words = Vec::new();
    for ignore_payloads in [false, true] {
        let same = header_eq(code, &first, &second, ignore_payloads)?;
        words.push(if same { "same" } else { "other" }.to_owned());
        for command in [&first, &second] {
            law(
                "a command is the same as itself",
                header_eq(code, command, command, ignore_payloads)?,
            )?;
        }
    }
    for command in [&first, &second] {
        let text = difference(code, command, command)?;
        law("a command does not differ from itself", text.is_empty())?;
    }
    words.push(hex(difference(code, &first, &second)?.as_bytes()));
    Ok(words.join(" "))
}

fn on_json(name: &str, input: &str) -> Outcome {
    let (schema, input) = (number(name)?, bytes(input)?);
    let json = to_json(schema, &input)?;
    law(
        "JSON is read as the canonical payload",
        from_json(schema, &json) == canonical(schema, &input),
    )?;
    Ok(json)
}

/// The payload that a JSON text is read as, or why it is not, and where.
fn on_read(name: &str, text: &str) -> Outcome {
    match from_json(number(name)?, bytes(text)?) {
        Ok(payload) => Ok(hex(&payload)),
        Err(Error::Json(error)) => {
            let mut words = String::new();
            for letter in format!("{:?}", error.reason).chars() {
                if letter.is_uppercase() && !words.is_empty() {
                    words.push('_');
                }
                words.push(letter.to_ascii_lowercase());
            }
            let place = error.offset.map_or(error.path, |offset| offset.to_string());
            Ok(format!("{words} {place}").trim_end().to_owned())
        }
        Err(error) => Err(error.into()),
    }
}
