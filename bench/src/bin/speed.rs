//! Measures the library and the baseline side by side, and prints a table in Markdown: speed [--check] [--only
//! WORKLOAD] [--side ours|peer] [--what
//! items|item_refs|messages|encode|encode_to_vec|encode_into|encode_spare|encode_shared|
//! encode_held|encode_chunks|payloads|headers] [--chunk N] [--row NAME] [--size N] [--rounds N] [--protocol 5..9]
//!
//! With --side nothing is compared or printed: only that side runs the workload that many times, for a profiler. Before
//! a table is printed, and without one by `speed --check`, the allocations show that the rounds are made and the chunks
//! used that are requested. The workload `calls` has no peer: it is what a call from C costs over the same work inside
//! the library.

use std::env;
use std::fmt;
use std::hint::black_box;
use std::process::ExitCode;
use std::time::{Duration, Instant};

use bytes::BytesMut;
use pendratsoa::{next_item, Next};
use pendratsoa_bench::hostile::{self, Hostile};
use pendratsoa_bench::random::Random;
use pendratsoa_bench::schema;
use pendratsoa_bench::streams::{self, Frame};
use pendratsoa_bench::{ours, peer};

/// The version of the protocol, if none is said.
const VERSION: u32 = 8;

/// The length of the chunks in which a stream comes, if not whole.
const CHUNK: usize = 4096;

/// How often each side is measured; the best counts.
const MEASUREMENTS: usize = 15;

/// How long a measurement takes at least.
const LENGTH: Duration = Duration::from_millis(40);

/// Of an adversarial message there are more and shorter measurements, so that some are undisturbed also where the
/// machine does other work.
const HOSTILE_MEASUREMENTS: usize = 150;
const HOSTILE_LENGTH: Duration = Duration::from_millis(1);

/// The elements of an adversarial message, at first, and how many times as many it has then.
const SIZE: usize = 1000;
const TIMES: [usize; 3] = [1, 4, 16];

/// The name of the workload of adversarial messages.
const HOSTILE: &str = "hostile";

/// The name of the workload of calls from C.
const CALLS: &str = "calls";

/// Times, at least, that a call is made from C for each measurement of it.
const CROSSINGS: usize = 65_536;

/// Times, at least, that a frame is encoded for each time that its message is decoded.
const ENCODINGS: usize = 64;

/// The same where long bytes are shared: to decode and to join a frame takes far longer than to encode it.
const SHARINGS: usize = 4096;

/// Times, at least, that two commands are compared for each time that they are decoded.
const COMPARISONS: usize = 4096;

/// Suspensions, each at its own version: before the seventh they are written as lists.
const SUSPENSIONS: [(&str, u32, fn() -> Frame); 4] = [
    ("deep_v6", 6, streams::deep),
    ("deep_v8", 8, streams::deep),
    ("wide_v6", 6, streams::wide),
    ("wide_v8", 8, streams::wide),
];

extern "C" {
    fn requests_for_memory() -> u64;
}

/// What is done to a workload.
#[derive(Clone, Copy, Debug, PartialEq, Eq)]
enum What {
    Items,
    /// Items that are borrowed from a complete stream. The baseline has no such form, and takes its items.
    ItemRefs,
    Messages,
    /// Each frame is a `Bytes` of its own.
    Encode,
    /// Each frame is a `Vec` of its own; the baseline's too.
    EncodeVec,
    /// Frames are made in one buffer that is used again.
    EncodeInto,
    EncodeSpare,
    /// Frames share the blocks of one buffer, on both sides.
    EncodeShared,
    /// The library's frames share the blocks of one buffer; each of the baseline's has one of its own.
    EncodeHeld,
    /// The library's frames are chunks that share long bytes; the baseline's are made in one buffer.
    EncodeChunks,
    /// Commands are compared, with their payloads.
    Payloads,
    /// Commands are compared, except for their payloads. The baseline's derived `==` knows no such thing, and compares
    /// all.
    Headers,
}

impl What {
    /// What is done to a stream of messages.
    const STREAM: [What; 10] = [
        What::Items,
        What::ItemRefs,
        What::Messages,
        What::Encode,
        What::EncodeVec,
        What::EncodeInto,
        What::EncodeSpare,
        What::EncodeShared,
        What::EncodeHeld,
        What::EncodeChunks,
    ];

    /// What is done to messages that are only written.
    const FRAMES: [What; 7] = [
        What::Encode,
        What::EncodeVec,
        What::EncodeInto,
        What::EncodeSpare,
        What::EncodeShared,
        What::EncodeHeld,
        What::EncodeChunks,
    ];

    /// What is done to commands.
    const COMMANDS: [What; 2] = [What::Payloads, What::Headers];

    /// Whether it takes the stream in chunks.
    fn takes_chunks(self) -> bool {
        matches!(self, What::Items | What::Messages)
    }

    /// How many rounds a measurement has at least.
    fn least_rounds(self) -> usize {
        match self {
            What::Items | What::ItemRefs | What::Messages => 1,
            What::Encode
            | What::EncodeVec
            | What::EncodeInto
            | What::EncodeSpare
            | What::EncodeShared
            | What::EncodeHeld => ENCODINGS,
            What::EncodeChunks => SHARINGS,
            What::Payloads | What::Headers => COMPARISONS,
        }
    }

    fn name(self) -> &'static str {
        match self {
            What::Items => "items",
            What::ItemRefs => "item_refs",
            What::Messages => "messages",
            What::Encode => "encode",
            What::EncodeVec => "encode_to_vec",
            What::EncodeInto => "encode_into",
            What::EncodeSpare => "encode_spare",
            What::EncodeShared => "encode_shared",
            What::EncodeHeld => "encode_held",
            What::EncodeChunks => "encode_chunks",
            What::Payloads => "payloads",
            What::Headers => "headers",
        }
    }
}

#[derive(Clone, Copy, Debug, PartialEq, Eq)]
enum Side {
    Ours,
    Peer,
}

/// What is measured: messages, and the stream that they make.
struct Workload {
    version: u32,
    name: &'static str,
    frames: Vec<Frame>,
    stream: Vec<u8>,
    whats: &'static [What],
}

impl Workload {
    fn new(
        version: u32,
        name: &'static str,
        frames: Vec<Frame>,
        whats: &'static [What],
    ) -> Workload {
        let stream = streams::stream(&frames);
        Workload {
            version,
            name,
            frames,
            stream,
            whats,
        }
    }

    /// Whether there is a suspension that is written as lists, which have to be made.
    fn has_lists(&self) -> bool {
        self.version < 7 && self.frames.iter().any(|frame| frame.code == 0x0001)
    }

    /// How many payloads lie across chunks of a length.
    fn straddling(&self, chunk: usize) -> u64 {
        let mut end = 0;
        let mut count = 0;
        for frame in &self.frames {
            let start = end + 8;
            end = start + frame.payload.len();
            count += u64::from(end > start && start / chunk != (end - 1) / chunk);
        }
        count
    }

    fn all(version: u32) -> Vec<Workload> {
        let mut random = Random::new(1, 0);
        let mut all = vec![
            Workload::new(
                version,
                "replay",
                streams::replay(&mut random),
                &What::STREAM,
            ),
            Workload::new(version, "mixed", streams::mixed(&mut random), &What::STREAM),
            Workload::new(version, "large", streams::large(&mut random), &What::STREAM),
            // the commands of the first
            Workload::new(
                version,
                "compare",
                streams::commands(&mut Random::new(1, 0)),
                &What::COMMANDS,
            ),
        ];
        all.extend(SUSPENSIONS.map(|(name, version, frame)| {
            Workload::new(version, name, vec![frame()], &What::FRAMES)
        }));
        all
    }
}

/// A call that failed, which makes a measurement worth nothing.
#[derive(Debug)]
struct Failed(String);

impl From<ours::Refusal> for Failed {
    fn from(refusal: ours::Refusal) -> Failed {
        Failed(format!("the library refuses: {refusal}"))
    }
}

impl From<pendratsoa::Error> for Failed {
    fn from(error: pendratsoa::Error) -> Failed {
        Failed::from(ours::Refusal::from(error))
    }
}

impl From<peer::Refusal> for Failed {
    fn from(refusal: peer::Refusal) -> Failed {
        Failed(format!("the peer refuses: {refusal:?}"))
    }
}

impl fmt::Display for Failed {
    fn fmt(&self, f: &mut fmt::Formatter<'_>) -> fmt::Result {
        f.write_str(&self.0)
    }
}

/// One thing to be measured, and the room that it needs.
struct Bench<'a> {
    workload: &'a Workload,
    what: What,
    chunk: usize,
    words: Vec<u64>,
    out: Vec<u8>,
    buffer: BytesMut,
}

impl<'a> Bench<'a> {
    fn new(workload: &'a Workload, what: What, chunk: usize) -> Bench<'a> {
        let lengths = workload.frames.iter().map(|frame| frame.payload.len());
        let longest = 8 + lengths.max().unwrap_or(0);
        Bench {
            workload,
            what,
            chunk,
            words: vec![0; workload.frames.len()],
            out: vec![0; longest],
            buffer: BytesMut::with_capacity(longest),
        }
    }

    /// Goes over the workload this many times.
    fn go(&mut self, side: Side, rounds: usize) -> Result<(), Failed> {
        let stream = &self.workload.stream;
        let version = self.workload.version;
        let count = match (self.what, side) {
            (What::Items, Side::Ours) => {
                ours::items(version, stream, self.chunk, rounds, &mut self.words)?
            }
            (What::ItemRefs, Side::Ours) => {
                ours::item_refs(version, stream, rounds, &mut self.words)?
            }
            (What::Items | What::ItemRefs, Side::Peer) => {
                peer::items(version, stream, self.chunk, rounds, &mut self.words);
                self.words.len()
            }
            (What::Messages, Side::Ours) => ours::messages(version, stream, self.chunk, rounds)?,
            (What::Messages, Side::Peer) => peer::messages(version, stream, self.chunk, rounds)?,
            (What::Payloads, Side::Ours) => ours::compare(version, stream, false, rounds)?,
            (What::Headers, Side::Ours) => ours::compare(version, stream, true, rounds)?,
            (What::Payloads | What::Headers, Side::Peer) => peer::compare(version, stream, rounds)?,
            (_, side) => self.encode(side, rounds)?,
        };
        if black_box(count) != self.expected(rounds) {
            return Err(Failed(format!("{count} is not what was to be counted")));
        }
        Ok(())
    }

    /// What this many rounds count: the items that are seen, or the comparisons that hold.
    fn expected(&self, rounds: usize) -> usize {
        let frames = self.workload.frames.len();
        if What::COMMANDS.contains(&self.what) {
            frames * rounds
        } else {
            frames
        }
    }

    /// Encodes each frame this many times.
    fn encode(&mut self, side: Side, rounds: usize) -> Result<usize, Failed> {
        let version = self.workload.version;
        for Frame { code, payload } in &self.workload.frames {
            match (side, self.what) {
                (Side::Ours, What::EncodeVec) => {
                    ours::frame_vec(version, *code, payload, rounds, &mut self.out)?;
                }
                (Side::Ours, What::EncodeInto) => {
                    ours::frame_into(version, *code, payload, rounds, &mut self.out)?;
                }
                (Side::Ours, What::EncodeSpare) => {
                    ours::frame_spare(version, *code, payload, rounds, &mut self.out)?;
                }
                (Side::Ours, What::EncodeShared | What::EncodeHeld) => {
                    ours::frame_shared(version, *code, payload, rounds, &mut self.out)?;
                }
                (Side::Ours, What::EncodeChunks) => {
                    ours::frame_chunks(version, *code, payload, rounds, &mut self.out)?;
                }
                (Side::Ours, _) => {
                    ours::frame_to(version, *code, payload, rounds, &mut self.out)?;
                }
                (Side::Peer, What::EncodeVec) => {
                    let frame = peer::frame_vec(version, *code, payload, rounds)?;
                    self.out[..frame.len()].copy_from_slice(&frame);
                }
                (Side::Peer, What::EncodeShared) => {
                    let frame = peer::frame_shared(version, *code, payload, rounds)?;
                    self.out[..frame.len()].copy_from_slice(&frame);
                }
                (Side::Peer, What::EncodeHeld) => {
                    let frame = peer::frame_held(version, *code, payload, rounds)?;
                    self.out[..frame.len()].copy_from_slice(&frame);
                }
                (Side::Peer, What::EncodeInto | What::EncodeSpare | What::EncodeChunks) => {
                    peer::frame_into(version, *code, payload, rounds, &mut self.buffer)?;
                    self.out[..self.buffer.len()].copy_from_slice(&self.buffer);
                }
                (Side::Peer, _) => {
                    let frame = peer::frame(version, *code, payload, rounds)?;
                    self.out[..frame.len()].copy_from_slice(&frame);
                }
            }
        }
        Ok(self.workload.frames.len())
    }

    fn time(&mut self, side: Side, rounds: usize) -> Result<Duration, Failed> {
        let start = Instant::now();
        self.go(side, rounds)?;
        Ok(start.elapsed())
    }

    /// How many rounds make a measurement: twice as many, until it is long enough for what is done once only to count
    /// little.
    fn rounds(&mut self, length: Duration) -> Result<usize, Failed> {
        let mut rounds = self.what.least_rounds();
        while self.time(Side::Peer, rounds)? < length {
            rounds *= 2;
        }
        Ok(rounds)
    }

    /// The best times of a round, of both sides in turn, in this many measurements of a length.
    fn best(
        &mut self,
        measurements: usize,
        length: Duration,
    ) -> Result<(Duration, Duration), Failed> {
        let rounds = self.rounds(length)?;
        let (mut ours, mut peer) = (Duration::MAX, Duration::MAX);
        for _ in 0..measurements {
            ours = ours.min(self.time(Side::Ours, rounds)?);
            peer = peer.min(self.time(Side::Peer, rounds)?);
        }
        Ok((ours / rounds as u32, peer / rounds as u32))
    }

    /// Allocations for a frame.
    fn requests(&mut self, side: Side) -> Result<f64, Failed> {
        Ok(self.of_a_round(side)? as f64 / self.workload.frames.len() as f64)
    }

    /// Allocations of a round: those of a further round. What is done only once does not count.
    fn of_a_round(&mut self, side: Side) -> Result<u64, Failed> {
        let once = self.counted(side, 1)?;
        Ok(self.counted(side, 2)?.saturating_sub(once))
    }

    fn counted(&mut self, side: Side, rounds: usize) -> Result<u64, Failed> {
        // SAFETY: count.c reads a counter
        let before = unsafe { requests_for_memory() };
        self.go(side, rounds)?;
        // SAFETY: as above
        Ok(unsafe { requests_for_memory() } - before)
    }

    /// A row of the table.
    fn row(&mut self) -> Result<(), Failed> {
        let (ours, peer) = self.best(MEASUREMENTS, LENGTH)?;
        let frames = self.workload.frames.len();
        println!(
            "| {} | {} | {} | {} | {} | {:.2} | {:.2} | {:.2} |",
            self.workload.name,
            self.what.name(),
            chunks(self.what, self.chunk),
            a_second(frames, ours),
            a_second(frames, peer),
            peer.as_secs_f64() / ours.as_secs_f64(),
            self.requests(Side::Ours)?,
            self.requests(Side::Peer)?,
        );
        Ok(())
    }
}

/// An adversarial message at each of its sizes.
struct Growing {
    hostile: &'static Hostile,
    size: usize,
    workloads: [Workload; 3],
}

impl Growing {
    fn new(hostile: &'static Hostile, size: usize) -> Growing {
        let sized = |times| {
            let frame = hostile.frame(times * size);
            Workload::new(VERSION, hostile.name, vec![frame], &[What::Messages])
        };
        Growing {
            hostile,
            size,
            workloads: TIMES.map(sized),
        }
    }

    fn benches(&self) -> impl Iterator<Item = Bench<'_>> {
        self.workloads
            .iter()
            .map(|workload| Bench::new(workload, What::Messages, self.hostile.chunk))
    }

    /// A row of the table.
    fn row(&self) -> Result<(), Failed> {
        let mut ours = Vec::new();
        let mut peer = Vec::new();
        let mut requests = (0.0, 0.0);
        for mut bench in self.benches() {
            let times = bench.best(HOSTILE_MEASUREMENTS, HOSTILE_LENGTH)?;
            ours.push(times.0.as_secs_f64());
            peer.push(times.1.as_secs_f64());
            requests = (bench.requests(Side::Ours)?, bench.requests(Side::Peer)?);
        }
        let sizes = TIMES.map(|times| (times * self.size) as f64);
        let each = |times: &[f64]| -> Vec<f64> {
            let pairs = times.iter().zip(sizes);
            pairs.map(|(time, size)| time * 1e9 / size).collect()
        };
        let grows = |times: &[f64]| -> Vec<f64> {
            times.windows(2).map(|pair| pair[1] / pair[0]).collect()
        };
        let ratios: Vec<f64> = ours
            .iter()
            .zip(&peer)
            .map(|(ours, peer)| ours / peer)
            .collect();
        println!(
            "| {} | {} | {} | {} | {} | {} | {:.2} | {:.2} |",
            self.hostile.name,
            joined(&each(&ours), 1),
            joined(&each(&peer), 1),
            joined(&ratios, 2),
            joined(&grows(&ours), 1),
            joined(&grows(&peer), 1),
            requests.0 / sizes[2],
            requests.1 / sizes[2],
        );
        Ok(())
    }

    /// That both sides read the message as the same, that a further round allocates as much as the one before, and that
    /// what is allocated does not grow faster than the message.
    fn check(&self) -> Result<(), Failed> {
        let name = self.hostile.name;
        let frame = &self.workloads[0].frames[0];
        let schema = schema::type_of_code(frame.code).map_or(0, |found| found.schema);
        if ours::canonical(schema, &frame.payload)? != peer::canonical(schema, &frame.payload)? {
            return Err(Failed(format!(
                "{name}: it is read as two different messages"
            )));
        }
        for side in [Side::Ours, Side::Peer] {
            let mut most = f64::MAX;
            for mut bench in self.benches() {
                let of_a_round = bench.of_a_round(side)?;
                let further = bench.counted(side, 5)? - bench.counted(side, 2)?;
                let length = bench.workload.stream.len() as f64;
                if further != 3 * of_a_round || of_a_round as f64 > most * length {
                    return Err(Failed(format!(
                        "{name}, {side:?}: {of_a_round} allocations in a round, {further} in three, \
                         at most {most:.3} for a byte"
                    )));
                }
                // a list of elements that grows by doubling allocates some times more
                most = (of_a_round + 8) as f64 / length;
            }
        }
        Ok(())
    }
}

/// Work that is done once with one call for each round, and once within one call: the difference is what a call from C
/// costs.
struct Crossing {
    name: &'static str,
    work: Work,
}

enum Work {
    /// Whether a payload is well-formed for a schema.
    WellFormed(usize, &'static [u8]),
    /// This many items of a stream: a call for each from here, and inside a decoder, which hands out each payload.
    Items(Workload),
}

impl Crossing {
    fn all() -> Vec<Crossing> {
        let crossing = |name, work| Crossing { name, work };
        // a StateKeys without a key, an InputCommandMessage with the value "input"
        const INPUT: [u8; 9] = [0x72, 7, 0x0A, 5, b'i', b'n', b'p', b'u', b't'];
        let replay = streams::replay(&mut Random::new(1, 0));
        vec![
            crossing("journal_is_well_formed, no bytes", Work::WellFormed(5, &[])),
            crossing(
                "journal_is_well_formed, nine bytes",
                Work::WellFormed(20, &INPUT),
            ),
            crossing(
                "journal_next, an item of `replay`",
                Work::Items(Workload::new(VERSION, "replay", replay, &[What::Items])),
            ),
        ]
    }

    /// How many calls a round is.
    fn calls(&self) -> usize {
        match &self.work {
            Work::WellFormed(..) => 1,
            Work::Items(workload) => workload.frames.len(),
        }
    }

    /// Makes the calls of this many rounds.
    fn outside(&self, rounds: usize) -> Result<(), Failed> {
        for _round in 0..rounds {
            let calls = match &self.work {
                Work::WellFormed(schema, payload) => {
                    ours::is_well_formed(black_box(*schema), black_box(payload))?
                }
                Work::Items(workload) => items_by_next(workload)?,
            };
            if calls != self.calls() {
                return Err(Failed(format!(
                    "{}: {calls} of {}",
                    self.name,
                    self.calls()
                )));
            }
        }
        Ok(())
    }

    /// The same inside the library.
    fn inside(&self, rounds: usize) -> Result<(), Failed> {
        let calls = match &self.work {
            Work::WellFormed(schema, payload) => {
                ours::is_well_formed_in_rounds(*schema, payload, rounds)?
            }
            Work::Items(workload) => {
                let mut words = vec![0; workload.frames.len()];
                ours::items(workload.version, &workload.stream, 0, rounds, &mut words)?
            }
        };
        if calls != self.calls() {
            return Err(Failed(format!(
                "{}: {calls} of {}",
                self.name,
                self.calls()
            )));
        }
        Ok(())
    }

    /// That both allocate the same for a payload, and that journal_next does not allocate.
    fn check(&self) -> Result<(), Failed> {
        let requests = |rounds| -> Result<(u64, u64), Failed> {
            // SAFETY: count.c reads a counter, here and below
            let start = unsafe { requests_for_memory() };
            self.outside(rounds)?;
            let middle = unsafe { requests_for_memory() };
            self.inside(rounds)?;
            Ok((middle - start, unsafe { requests_for_memory() } - middle))
        };
        let once = requests(1)?;
        let more = requests(4)?;
        let (outside, inside) = (more.0 - once.0, more.1 - once.1);
        let is_right = match self.work {
            Work::WellFormed(..) => outside == inside,
            Work::Items(..) => more.0 == 0,
        };
        if is_right {
            Ok(())
        } else {
            Err(Failed(format!(
                "{}: {outside} allocations from here, {inside} inside",
                self.name
            )))
        }
    }

    /// A row of the table.
    fn row(&self) -> Result<(), Failed> {
        let rounds = CROSSINGS / self.calls() + 1;
        let (mut outside, mut inside) = (Duration::MAX, Duration::MAX);
        for _ in 0..MEASUREMENTS {
            let start = Instant::now();
            self.outside(rounds)?;
            let middle = Instant::now();
            self.inside(rounds)?;
            outside = outside.min(middle - start);
            inside = inside.min(middle.elapsed());
        }
        let each = |time: Duration| time.as_secs_f64() * 1e9 / (rounds * self.calls()) as f64;
        println!(
            "| {} | {:.1} | {:.1} | {:.1} |",
            self.name,
            each(outside),
            each(inside),
            each(outside) - each(inside),
        );
        Ok(())
    }
}

/// How many items a stream has, by a call for each.
fn items_by_next(workload: &Workload) -> Result<usize, Failed> {
    let version = workload.version.try_into()?;
    let mut rest = workload.stream.as_slice();
    let mut count = 0;
    while let Next::Item { size, .. } = next_item(version, rest)? {
        rest = &rest[size..];
        count += 1;
    }
    Ok(count)
}

/// Numbers with this many decimal places, one after the other.
fn joined(numbers: &[f64], places: usize) -> String {
    let words = numbers.iter().map(|number| format!("{number:.places$}"));
    words.collect::<Vec<_>>().join(", ")
}

/// Checks a side.
fn check(workload: &Workload, what: What, side: Side) -> Result<(), Failed> {
    if What::COMMANDS.contains(&what) {
        check_comparisons(workload, what, side)
    } else {
        check_rounds(workload, what, side)
    }
}

/// That comparisons do not allocate. That they are made is seen by how many hold.
fn check_comparisons(workload: &Workload, what: What, side: Side) -> Result<(), Failed> {
    match Bench::new(workload, what, 0).of_a_round(side)? {
        0 => Ok(()),
        requests => Err(Failed(format!(
            "{} {}, {side:?}: {requests} allocations in a round",
            workload.name,
            what.name()
        ))),
    }
}

/// That a side makes the rounds that are requested of it, each with the same allocations, which are none where a buffer
/// is used again or items are borrowed; and that it takes the stream in the chunks that are requested of it: each
/// payload that straddles chunks has to be joined.
fn check_rounds(workload: &Workload, what: What, side: Side) -> Result<(), Failed> {
    let failed = |why| {
        Failed(format!(
            "{} {}, {side:?}: {why}",
            workload.name,
            what.name()
        ))
    };
    let chunk = if what.takes_chunks() { CHUNK } else { 0 };
    let mut bench = Bench::new(workload, what, chunk);
    let of_a_round = bench.of_a_round(side)?;
    let twice = bench.counted(side, 2)?;
    let more = bench.counted(side, 5)?;
    // of frames that share blocks, a round allocates none or several, as the blocks are used up
    let shares_blocks = match side {
        Side::Ours => matches!(what, What::EncodeShared | What::EncodeHeld | What::EncodeChunks),
        Side::Peer => what == What::EncodeShared,
    };
    if shares_blocks {
        return Ok(());
    }
    // the baseline makes the lists of a suspension before V7, and the library writes them off its tree
    let makes_lists = workload.has_lists() && matches!(side, Side::Peer);
    let is_borrowed = what == What::ItemRefs && matches!(side, Side::Ours);
    let has_buffer = matches!(
        what,
        What::EncodeInto | What::EncodeSpare | What::EncodeChunks
    );
    let asks = !(has_buffer || is_borrowed) || makes_lists;
    if (of_a_round > 0) != asks || more.saturating_sub(twice) != 3 * of_a_round {
        return Err(failed(format!(
            "{of_a_round} allocations in a round, {twice} in two and {more} in five"
        )));
    }
    if !what.takes_chunks() {
        return Ok(());
    }
    let whole = Bench::new(workload, what, 0).of_a_round(side)?;
    let straddling = workload.straddling(CHUNK);
    if of_a_round < whole + straddling {
        return Err(failed(format!(
            "{of_a_round} allocations in chunks and {whole} whole, for {straddling} payloads that straddle chunks"
        )));
    }
    Ok(())
}

fn chunks(what: What, chunk: usize) -> String {
    match (what.takes_chunks(), chunk) {
        (false, _) => "-".into(),
        (true, 0) => "whole".into(),
        (true, _) => chunk.to_string(),
    }
}

/// So many in a time, for each second, with a unit.
fn a_second(count: usize, time: Duration) -> String {
    let rate = count as f64 / time.as_secs_f64();
    if rate >= 1e6 {
        format!("{:.2} M", rate / 1e6)
    } else {
        format!("{:.1} k", rate / 1e3)
    }
}

/// A version that is spoken.
fn protocol(word: &str) -> Option<u32> {
    word.parse()
        .ok()
        .filter(|version| (5..=9).contains(version))
}

/// What the command line requests.
#[derive(Debug, Default)]
struct Options {
    only: Option<String>,
    side: Option<Side>,
    what: Option<What>,
    chunk: Option<usize>,
    row: Option<String>,
    size: Option<usize>,
    rounds: Option<usize>,
    protocol: Option<u32>,
    check: bool,
}

impl Options {
    fn read(mut words: impl Iterator<Item = String>) -> Option<Options> {
        let mut options = Options::default();
        while let Some(word) = words.next() {
            if word == "--check" {
                options.check = true;
                continue;
            }
            let value = words.next()?;
            match word.as_str() {
                "--only" => options.only = Some(value),
                "--side" => options.side = Some(side(&value)?),
                "--what" => options.what = Some(what(&value)?),
                "--chunk" => options.chunk = Some(value.parse().ok()?),
                "--row" => options.row = Some(value),
                "--size" => options.size = Some(value.parse().ok()?),
                "--rounds" => options.rounds = Some(value.parse().ok()?),
                "--protocol" => options.protocol = Some(protocol(&value)?),
                _ => return None,
            }
        }
        Some(options)
    }

    /// The measurements of a workload.
    fn benches<'a>(&self, workload: &'a Workload) -> Vec<Bench<'a>> {
        let chunks = |what: What| match self.chunk {
            Some(chunk) => vec![chunk],
            None if what.takes_chunks() => vec![CHUNK, 0],
            None => vec![0],
        };
        workload
            .whats
            .iter()
            .copied()
            .filter(|what| self.what.unwrap_or(*what) == *what)
            .flat_map(|what| chunks(what).into_iter().map(move |chunk| (what, chunk)))
            .map(|(what, chunk)| Bench::new(workload, what, chunk))
            .collect()
    }

    /// Whether a workload is requested.
    fn takes(&self, workload: &str) -> bool {
        self.only.as_ref().map_or(true, |name| name == workload)
    }

    /// The other workloads that are requested. They are made only where one of them is.
    fn workloads(&self) -> Vec<Workload> {
        if self.row.is_some() || matches!(self.only.as_deref(), Some(HOSTILE | CALLS)) {
            return Vec::new();
        }
        Workload::all(self.protocol.unwrap_or(VERSION))
            .into_iter()
            .filter(|workload| self.takes(workload.name))
            .collect()
    }

    /// The adversarial messages that are requested.
    fn hostile(&self) -> Vec<Growing> {
        let is_measured = self.what.map_or(true, |what| what == What::Messages);
        if !is_measured || !self.takes(HOSTILE) {
            return Vec::new();
        }
        hostile::ALL
            .iter()
            .filter(|hostile| self.row.as_ref().map_or(true, |row| row == hostile.name))
            .map(|hostile| Growing::new(hostile, self.size.unwrap_or(SIZE)))
            .collect()
    }

    /// The calls from C that are requested. They have no peer, and nothing of theirs can be chosen.
    fn crossings(&self) -> Vec<Crossing> {
        let is_chosen = self.side.is_some() || self.what.is_some() || self.row.is_some();
        if is_chosen || !self.takes(CALLS) {
            return Vec::new();
        }
        Crossing::all()
    }
}

fn side(word: &str) -> Option<Side> {
    match word {
        "ours" => Some(Side::Ours),
        "peer" => Some(Side::Peer),
        _ => None,
    }
}

fn what(word: &str) -> Option<What> {
    What::STREAM
        .into_iter()
        .chain(What::COMMANDS)
        .find(|what| what.name() == word)
}

fn measure(options: &Options) -> Result<(), Failed> {
    let workloads = options.workloads();
    let hostile = options.hostile();
    let crossings = options.crossings();
    if workloads.is_empty() && hostile.is_empty() && crossings.is_empty() {
        return Err(Failed("no workload or row has that name".into()));
    }
    if let Some(side) = options.side {
        let rounds = options.rounds.unwrap_or(1);
        // of an adversarial message only the first size
        let first = hostile.iter().flat_map(|growing| growing.benches().take(1));
        return workloads
            .iter()
            .flat_map(|workload| options.benches(workload))
            .chain(first)
            .try_for_each(|mut bench| bench.go(side, rounds));
    }
    for workload in &workloads {
        for &what in workload.whats {
            check(workload, what, Side::Ours)?;
            check(workload, what, Side::Peer)?;
        }
    }
    hostile.iter().try_for_each(Growing::check)?;
    crossings.iter().try_for_each(Crossing::check)?;
    if options.check {
        println!("rounds are made and chunks used");
        return Ok(());
    }
    measure_workloads(options, &workloads)?;
    measure_hostile(&hostile)?;
    measure_calls(&crossings)
}

fn measure_workloads(options: &Options, workloads: &[Workload]) -> Result<(), Failed> {
    if workloads.is_empty() {
        return Ok(());
    }
    for workload in workloads {
        let frames = workload.frames.len();
        let average = workload.stream.len() / frames - 8;
        println!(
            "{}: {frames} frames, payloads of {average} bytes on average",
            workload.name
        );
    }
    println!();
    println!(
        "| workload | what | chunks | ours a second | peer a second | ours / peer \
         | requests a frame, ours | peer |"
    );
    println!("|---|---|---|---|---|---|---|---|");
    workloads
        .iter()
        .flat_map(|workload| options.benches(workload))
        .try_for_each(|mut bench| bench.row())
}

fn measure_hostile(hostile: &[Growing]) -> Result<(), Failed> {
    let Some(first) = hostile.first() else {
        return Ok(());
    };
    let sizes = TIMES.map(|times| (times * first.size).to_string());
    println!();
    println!("hostile: messages of {} elements", sizes.join(", "));
    println!();
    println!(
        "| hostile | ns an element, ours | peer | time, ours / peer | ours grows | peer grows \
         | requests an element, ours | peer |"
    );
    println!("|---|---|---|---|---|---|---|---|");
    hostile.iter().try_for_each(Growing::row)
}

fn measure_calls(crossings: &[Crossing]) -> Result<(), Failed> {
    if crossings.is_empty() {
        return Ok(());
    }
    println!();
    println!("| call | ns from C | ns inside | ns more |");
    println!("|---|---|---|---|");
    crossings.iter().try_for_each(Crossing::row)
}

fn main() -> ExitCode {
    let Some(options) = Options::read(env::args().skip(1)) else {
        eprintln!(
            "usage: speed [--check] [--only WORKLOAD] [--side ours|peer] [--what items|item_refs|messages\
             |encode|encode_to_vec|encode_into|encode_spare|encode_shared|encode_held\
             |encode_chunks|payloads|headers] [--chunk N] [--row NAME] [--size N] [--rounds N] [--protocol 5..9]"
        );
        return ExitCode::from(2);
    };
    match measure(&options) {
        Ok(()) => ExitCode::SUCCESS,
        Err(failed) => {
            println!("failed: {failed}");
            ExitCode::FAILURE
        }
    }
}
