//! Measures the programs journal_dump, journal_list and journal_make against the baseline's, and prints a table in
//! Markdown: programs DUMP LIST MAKE FOLDER [LENGTH]
//!
//! DUMP, LIST and MAKE are this project's programs, FOLDER is where streams and lines are written, and LENGTH is how
//! many bytes one of these has at least. The folder keeps the streams that are measured, by their names. The baseline's
//! programs `dump`, `list` and `make` are next to this one. Before a row is measured, both sides have to write the same
//! bytes. What a stream is made of is the baseline's dump of it, and its length is that of the dump.

use std::env;
use std::error::Error;
use std::fs::{self, File};
use std::io::{BufWriter, Write};
use std::path::{Path, PathBuf};
use std::process::{Command, ExitCode, Stdio};

use pendratsoa_bench::random::Random;
use pendratsoa_bench::runs::{self, Cost};
use pendratsoa_bench::streams::{self, Frame};

type Result<T> = std::result::Result<T, Box<dyn Error>>;

/// The length of a stream that is measured, in bytes.
const LENGTH: usize = 50_000_000;

/// How often each side is measured; the best counts.
const MEASUREMENTS: usize = 9;

/// The version of the streams that are measured.
const VERSION: u32 = 8;

/// What makes a part of a stream.
type Make = fn(&mut Random) -> Vec<Frame>;

/// The streams that are measured, by their names.
const STREAMS: [(&str, Make); 3] = [
    ("replay", streams::replay),
    ("mixed", streams::mixed),
    ("large", streams::large),
];

/// How many streams of messages of every kind are compared at each version.
const COMPARED: u64 = 4;

/// A program of this project, and the baseline's.
struct Pair {
    name: &'static str,
    ours: PathBuf,
    /// The words with which ours reads a version, in chunks of 65,536 bytes.
    words: fn(u32) -> Option<Vec<String>>,
    peer: PathBuf,
    /// The baseline's dump, if what is read is not a stream but its lines.
    dump: Option<PathBuf>,
}

impl Pair {
    /// What it reads for a stream: that, or the lines of its dump, which are written to a file of the folder.
    fn input(&self, version: u32, stream: &Path, folder: &Path) -> Result<PathBuf> {
        let Some(dump) = &self.dump else {
            return Ok(stream.to_owned());
        };
        let lines = folder.join("lines");
        let mut command = Command::new(dump);
        command.arg(version.to_string());
        run(&mut command, stream, File::create(&lines)?)?;
        Ok(lines)
    }

    /// Ours at a version, where it reads that.
    fn ours(&self, version: u32) -> Option<Command> {
        let mut command = Command::new(&self.ours);
        command.args((self.words)(version)?);
        Some(command)
    }

    fn peer(&self, version: u32) -> Command {
        let mut command = Command::new(&self.peer);
        command.arg(version.to_string());
        command
    }

    /// Has both write what they do for an input, which has to be the same, and returns how many lines there are.
    fn compare(&self, version: u32, stream: &Path, folder: &Path) -> Result<Option<usize>> {
        let Some(mut ours) = self.ours(version) else {
            return Ok(None);
        };
        let files = ["ours", "peer"].map(|name| folder.join(name));
        run(&mut ours, stream, File::create(&files[0])?)?;
        run(&mut self.peer(version), stream, File::create(&files[1])?)?;
        let [ours, peer] = [fs::read(&files[0])?, fs::read(&files[1])?];
        if ours != peer {
            let (number, ours, peer) = first_difference(&ours, &peer);
            let name = self.name;
            return Err(format!(
                "{name} at version {version}: line {number} is\n{ours}\nand the peer's is\n{peer}"
            )
            .into());
        }
        let lines = match self.dump {
            Some(_) => fs::read(stream)?,
            None => ours,
        };
        Ok(Some(lines.iter().filter(|&&byte| byte == b'\n').count()))
    }
}

/// The number of the first line that differs, and what both have there, or the beginning of it.
fn first_difference(ours: &[u8], peer: &[u8]) -> (usize, String, String) {
    let lines = |text: &[u8]| -> Vec<String> {
        text.split(|&byte| byte == b'\n')
            .map(|line| String::from_utf8_lossy(&line[..line.len().min(2000)]).into_owned())
            .collect()
    };
    let (ours, peer) = (lines(ours), lines(peer));
    let place = (0..ours.len().max(peer.len()))
        .find(|&place| ours.get(place) != peer.get(place))
        .unwrap_or_default();
    let line = |lines: &[String]| lines.get(place).cloned().unwrap_or_default();
    (place + 1, line(&ours), line(&peer))
}

/// Runs a program on a stream.
fn run(command: &mut Command, stream: &Path, output: impl Into<Stdio>) -> Result<Cost> {
    let child = command
        .stdin(File::open(stream)?)
        .stdout(output)
        .spawn()
        .map_err(|error| format!("{command:?}: {error}"))?;
    Ok(runs::wait(child).map_err(|error| format!("{command:?}: {error}"))?)
}

/// Writes a stream of at least this many bytes, the same each time.
fn write(make: Make, length: usize, path: &Path) -> Result<()> {
    let mut file = BufWriter::new(File::create(path)?);
    let mut random = Random::new(2, 0);
    let mut written = 0;
    while written < length {
        let stream = streams::stream(&make(&mut random));
        file.write_all(&stream)?;
        written += stream.len();
    }
    Ok(file.flush()?)
}

/// Compares the lines of streams of messages of every kind, at each version.
fn compare(pairs: &[Pair], folder: &Path) -> Result<()> {
    let path = folder.join("stream");
    let mut counts = vec![0; pairs.len()];
    for version in 5..=9 {
        for case in 0..COMPARED {
            fs::write(&path, streams::varied(&mut Random::new(3, case), version))?;
            for (pair, count) in pairs.iter().zip(&mut counts) {
                let input = pair.input(version, &path, folder)?;
                *count += pair.compare(version, &input, folder)?.unwrap_or(0);
            }
        }
    }
    for (pair, count) in pairs.iter().zip(counts) {
        println!(
            "{}: {count} lines of random messages of all types are the peer's",
            pair.name
        );
    }
    Ok(())
}

/// A row of the table.
fn row(pair: &Pair, name: &str, stream: &Path, folder: &Path) -> Result<()> {
    let stream = &pair.input(VERSION, stream, folder)?;
    let bytes = fs::metadata(stream)?.len();
    let lines = pair.compare(VERSION, stream, folder)?;
    let (Some(lines), Some(mut ours)) = (lines, pair.ours(VERSION)) else {
        return Err(format!("{} does not read version {VERSION}", pair.name).into());
    };
    let mut peer = pair.peer(VERSION);
    let mut best = run(&mut ours, stream, Stdio::null())?;
    let mut best_peer = run(&mut peer, stream, Stdio::null())?;
    for _ in 1..MEASUREMENTS {
        best.time = best.time.min(run(&mut ours, stream, Stdio::null())?.time);
        best_peer.time = best_peer
            .time
            .min(run(&mut peer, stream, Stdio::null())?.time);
    }
    let rate = |cost: Cost| bytes as f64 / 1e6 / cost.time.as_secs_f64();
    println!(
        "| {} | {name} | {:.1} MB | {lines} | {:.0} MB | {:.0} MB | {:.2} |",
        pair.name,
        bytes as f64 / 1e6,
        rate(best),
        rate(best_peer),
        rate(best) / rate(best_peer),
    );
    Ok(())
}

fn measure(pairs: &[Pair], folder: &Path, length: usize) -> Result<()> {
    compare(pairs, folder)?;
    println!(
        "| program | stream | its length | lines | ours a second | peer a second | ours / peer |"
    );
    println!("|---|---|---|---|---|---|---|");
    for (name, make) in STREAMS {
        let path = folder.join(name);
        write(make, length, &path)?;
        for pair in pairs {
            row(pair, name, &path, folder)?;
        }
    }
    Ok(())
}

/// The words of journal_dump and of journal_make.
fn words_of_dump(version: u32) -> Option<Vec<String>> {
    Some(vec!["--protocol".into(), version.to_string()])
}

/// The words of journal_list, which reads two versions.
fn words_of_list(version: u32) -> Option<Vec<String>> {
    match version {
        8 => Some(vec!["65536".into()]),
        9 => Some(vec!["65536".into(), "v9".into()]),
        _ => None,
    }
}

fn main() -> ExitCode {
    let words: Vec<String> = env::args().skip(1).collect();
    let (programs, folder, length) = match &words[..] {
        [programs @ .., folder] if programs.len() == 3 => (programs, folder, Some(LENGTH)),
        [programs @ .., folder, length] if programs.len() == 3 => {
            (programs, folder, length.parse().ok())
        }
        _ => (&[][..], &String::new(), None),
    };
    let (Some(length), Ok(program)) = (length, env::current_exe()) else {
        eprintln!("usage: programs DUMP LIST MAKE FOLDER [LENGTH]");
        return ExitCode::from(2);
    };
    let pairs = [
        Pair {
            name: "journal_dump",
            ours: (&programs[0]).into(),
            words: words_of_dump,
            peer: program.with_file_name("dump"),
            dump: None,
        },
        Pair {
            name: "journal_list",
            ours: (&programs[1]).into(),
            words: words_of_list,
            peer: program.with_file_name("list"),
            dump: None,
        },
        Pair {
            name: "journal_make",
            ours: (&programs[2]).into(),
            words: words_of_dump,
            peer: program.with_file_name("make"),
            dump: Some(program.with_file_name("dump")),
        },
    ];
    match measure(&pairs, Path::new(folder), length) {
        Ok(()) => ExitCode::SUCCESS,
        Err(error) => {
            println!("failed: {error}");
            ExitCode::FAILURE
        }
    }
}
