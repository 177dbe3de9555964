//! The results of the library for random cases.

use pendratsoa::{next_item, Item, Next, Version};
use pendratsoa_bench::cases::{any, any_chunk};
use pendratsoa_bench::conformance::{hex, Case, Listing, MALFORMED};
use pendratsoa_bench::ours::{self, FrameCall, Refusal};
use pendratsoa_bench::peer;
use pendratsoa_bench::random::Random;
use pendratsoa_bench::rules::{self, Meaning};
use pendratsoa_bench::schema::type_of_code;
use pendratsoa_bench::table::SCHEMAS;
use pendratsoa_bench::tally::Tally;

/// The version from which on an unknown code is skipped with its payload.
const SKIPS: u32 = 9;

/// Compares random cases by the words SEED, COUNT and FIRST, if there are no others. Returns whether all agree.
pub fn compare(words: &[String]) -> Option<bool> {
    let [seed, count, first] = options(words)?;
    let mut tally = Tally::default();
    compare_refusals(&mut tally);
    for number in first..first.saturating_add(count) {
        let failed = tally.failed();
        let random = &mut Random::new(seed, number);
        compare_case(&mut tally, random);
        if tally.failed() > failed {
            tally.again(format_args!("agree {seed} 1 {number}"));
        }
    }
    Some(tally.print())
}

/// The numbers among the words, with others where there are fewer.
fn options(words: &[String]) -> Option<[u64; 3]> {
    let mut options = [1, 20_000, 0];
    for (place, word) in words.iter().enumerate() {
        *options.get_mut(place)? = word.parse().ok()?;
    }
    Some(options)
}

fn compare_case(tally: &mut Tally, random: &mut Random) {
    let case = any(random);
    let kind = match &case {
        Case::Payload { .. } | Case::Record { .. } => "payloads",
        Case::Merge { .. } => "merges",
        Case::Frame { .. } => "frames",
        Case::Stream { .. } => "streams",
    };
    let verdict = match case.judge() {
        Ok(verdict) => verdict,
        Err(results) => return tally.fails(kind, case, results),
    };
    if verdict.departs {
        tally.departs();
    }
    match &case {
        Case::Payload { schema, payload } | Case::Record { schema, payload } => {
            let ours = ours::canonical(*schema, payload);
            equal(tally, kind, &case, &written(&ours), &verdict.result);
            let is_well_formed = usize::from(verdict.result != MALFORMED).to_string();
            let ours_is = number(ours::is_well_formed(*schema, payload));
            equal(
                tally,
                "well-formed payloads",
                &case,
                &ours_is,
                &is_well_formed,
            );
            if let Ok(canonical) = ours {
                let again = ours::canonical(*schema, &canonical);
                let canonical = hex(&canonical);
                equal(
                    tally,
                    "canonical payloads",
                    &case,
                    &written(&again),
                    &canonical,
                );
            }
        }
        Case::Merge { schema, payloads } => {
            let ours = merge(*schema, payloads);
            equal(tally, kind, &case, &written(&ours), &verdict.result);
        }
        Case::Frame {
            message_type,
            version,
            payload,
        } => {
            let rounds = random.below(3);
            let code = message_type.code;
            let ours = ours::frame_once(*version, code, payload);
            equal(tally, kind, &case, &written(&ours), &verdict.result);
            let calls: [FrameCall; 5] = [
                ours::frame_to,
                ours::frame_vec,
                ours::frame_into,
                ours::frame_spare,
                ours::frame_shared,
            ];
            for call in calls {
                let ours = ours::frame(call, *version, code, payload, rounds);
                equal(tally, kind, &case, &written(&ours), &verdict.result);
            }
        }
        Case::Stream { version, chunks } => {
            let stream = chunks.concat();
            let chunk = any_chunk(random, stream.len());
            let rounds = random.below(3);
            let ours = list(*version, &stream, chunk, rounds);
            equal(tally, kind, &case, &ours, &verdict.result);
            let next = list_by_next(*version, &stream);
            equal(tally, "items of streams", &case, &next, &verdict.result);
            compare_messages(tally, &case, *version, &stream, chunk, rounds);
        }
    }
}

/// Merges payloads, one after the other.
fn merge(schema: usize, payloads: &[Vec<u8>]) -> Result<Vec<u8>, Refusal> {
    payloads.iter().try_fold(Vec::new(), |merged, payload| {
        ours::merge(schema, &merged, payload)
    })
}

/// The listing of the items that the library finds in a stream.
fn list(version: u32, stream: &[u8], chunk: usize, rounds: usize) -> String {
    let mut words = vec![0; stream.len() / 8 + 1];
    let count = match ours::items(version, stream, chunk, rounds, &mut words) {
        Ok(count) => count,
        Err(refusal) => return refusal.to_string(),
    };
    let mut listing = Listing::default();
    let mut rest = stream.len();
    for word in &words[..count] {
        let code = (word >> 48) as u16;
        let length = *word as u32 as usize;
        rest = rest.saturating_sub(8 + length);
        if type_of_code(code).is_some() || code >> 10 != 0 {
            listing.message(code, word & 1 << 47 != 0, length);
        } else if version < SKIPS {
            listing.unknown(code);
        } else {
            listing.skipped(code, length);
        }
    }
    listing.rest(rest)
}

/// The same listing by a call for each item.
fn list_by_next(version: u32, stream: &[u8]) -> String {
    let version = match Version::try_from(version) {
        Ok(version) => version,
        Err(error) => return error.to_string(),
    };
    let mut listing = Listing::default();
    let mut rest = stream;
    loop {
        let (item, size) = match next_item(version, rest) {
            Ok(Next::Item { item, size }) => (item, size),
            Ok(Next::Missing(_)) => return listing.rest(rest.len()),
            Err(error) => return error.to_string(),
        };
        match item {
            Item::Message(message) => listing.message(
                message.code(),
                message.requested_ack(),
                message.payload().len(),
            ),
            Item::UnknownCode(unknown) => listing.unknown(unknown.code()),
            Item::Skipped(skipped) => listing.skipped(skipped.code(), skipped.payload().len()),
        }
        rest = &rest[size..];
    }
}

/// How many messages of named types a stream has, where all of their payloads are well-formed.
fn compare_messages(
    tally: &mut Tally,
    case: &Case,
    version: u32,
    stream: &[u8],
    chunk: usize,
    rounds: usize,
) {
    const KIND: &str = "messages of streams";
    let ours = number(ours::messages(version, stream, chunk, rounds));
    let (expected, departs) = messages_by_rules(version, stream);
    let peer = peer::messages(version, stream, chunk, rounds).ok();
    if peer != expected && !departs {
        let results = format!("  prost:     {peer:?}\n  the rules: {expected:?}");
        return tally.fails(KIND, case, results);
    }
    let expected = expected.map_or_else(|| MALFORMED.into(), |count| count.to_string());
    equal(tally, KIND, case, &ours, &expected);
}

/// How many messages of named types there are, and whether prost departs from the rules at one of them.
fn messages_by_rules(version: u32, stream: &[u8]) -> (Option<usize>, bool) {
    let (items, _) = rules::items(version, stream);
    let mut count = Some(0);
    let mut departs = false;
    for item in items {
        let rules::Item::Message { code, payload, .. } = item else {
            continue;
        };
        if let Some(message_type) = type_of_code(code) {
            let meaning = Meaning::of(message_type.schema, [payload.as_slice()]);
            departs |= matches!(&meaning, Some(meaning) if meaning.skips_on_last_level);
            count = count.filter(|_| meaning.is_some()).map(|count| count + 1);
        }
    }
    (count, departs)
}

/// Bytes or an error, as a line has them.
fn written(result: &Result<Vec<u8>, Refusal>) -> String {
    match result {
        Ok(bytes) => hex(bytes),
        Err(refusal) => refusal.to_string(),
    }
}

/// A number or an error.
fn number(result: Result<usize, Refusal>) -> String {
    match result {
        Ok(number) => number.to_string(),
        Err(refusal) => refusal.to_string(),
    }
}

/// Compares two results.
fn equal(tally: &mut Tally, kind: &'static str, case: &Case, ours: &str, expected: &str) {
    if ours == expected {
        tally.passes(kind);
    } else {
        let results = format!("  ours:     {ours}\n  expected: {expected}");
        tally.fails(kind, format_args!("{kind}, {case}"), results);
    }
}

/// Numbers that are rejected, and room that is one too short, which is an error for words and not for bytes.
fn compare_refusals(tally: &mut Tally) {
    use Refusal::{NoRoom, Unknown};
    // an end, and then an unassigned code
    const STREAM: [u8; 16] = [0, 3, 0, 0, 0, 0, 0, 0, 0, 8, 0, 0, 0, 0, 0, 0];
    const END: u16 = 0x0003;
    const CUSTOM: u16 = 0xFC01;
    const KIND: &str = "refusals of numbers and room";
    let mut words = [0; 2];
    let mut out = [0; 8];
    let results = [
        (ours::items(4, &STREAM, 0, 1, &mut words), Err(Unknown)),
        (ours::items(10, &STREAM, 0, 1, &mut words), Err(Unknown)),
        (ours::items(5, &STREAM, 0, 1, &mut words[..1]), Err(NoRoom)),
        (ours::items(5, &STREAM, 0, 1, &mut words), Ok(2)),
        (ours::messages(4, &STREAM, 0, 1), Err(Unknown)),
        (ours::messages(10, &STREAM, 0, 1), Err(Unknown)),
        (ours::messages(8, &STREAM, 0, 1), Ok(1)),
        (
            ours::canonical(SCHEMAS.len(), &[]).map(|payload| payload.len()),
            Err(Unknown),
        ),
        (
            ours::merge(SCHEMAS.len(), &[], &[]).map(|payload| payload.len()),
            Err(Unknown),
        ),
        (ours::frame_to(4, END, &[], 1, &mut out), Err(Unknown)),
        (ours::frame_to(10, END, &[], 1, &mut out), Err(Unknown)),
        (ours::frame_to(8, CUSTOM, &[], 1, &mut out), Err(Unknown)),
        (ours::frame_to(8, END, &[], 1, &mut out[..7]), Ok(8)),
        (ours::frame_to(8, END, &[], 1, &mut out), Ok(8)),
        (ours::frame_into(10, END, &[], 1, &mut out), Err(Unknown)),
        (ours::frame_into(8, CUSTOM, &[], 1, &mut out), Err(Unknown)),
        (ours::frame_into(8, END, &[], 1, &mut out[..7]), Ok(8)),
        (ours::frame_into(8, END, &[], 1, &mut out), Ok(8)),
    ];
    for (place, (ours, expected)) in results.into_iter().enumerate() {
        if ours == expected {
            tally.passes(KIND);
        } else {
            let results = format!("  ours:     {ours:?}\n  expected: {expected:?}");
            tally.fails(
                KIND,
                format_args!("{KIND}, the one at place {place}"),
                results,
            );
        }
    }
}
