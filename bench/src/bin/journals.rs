//! Measures the program journal_diff against the baseline's comparison, on two journals that are the same, and prints a
//! table in Markdown: journals PROGRAM FOLDER [LENGTH ..]
//!
//! PROGRAM is journal_diff, FOLDER is where the journals are written, and each LENGTH is how many bytes one has at
//! least. By default there are three lengths. All sides run as programs of their own, in turn. `journals --peer
//! RECORDED REPLAYED` is the baseline's, and `journals --bytes-first RECORDED REPLAYED` the baseline's that compares
//! the bytes of two payloads before it decodes the second.

use std::env;
use std::fs::File;
use std::io::{self, BufWriter, Write};
use std::path::{Path, PathBuf};
use std::process::{Command, ExitCode, Stdio};

use pendratsoa_bench::journals::{self, Order, Verdict};
use pendratsoa_bench::runs::{self, Cost};

/// The version of the protocol, as journal_diff has it if none is said.
const VERSION: u32 = 8;

/// The lengths of a journal, in bytes.
const LENGTHS: [usize; 3] = [1_000_000, 10_000_000, 100_000_000];

/// How often each side is measured; the best counts.
const MEASUREMENTS: usize = 9;

/// What came of a run: the line that it wrote, and what it cost.
struct Run {
    line: String,
    cost: Cost,
}

/// Runs a program, which has to end well.
fn run(command: &mut Command) -> io::Result<Run> {
    let mut child = command.stdout(Stdio::piped()).spawn()?;
    let line = io::read_to_string(child.stdout.take().ok_or(io::ErrorKind::BrokenPipe)?)?;
    let cost = runs::wait(child)
        .map_err(|error| io::Error::new(error.kind(), format!("{command:?}: {error}: {line}")))?;
    Ok(Run { line, cost })
}

/// Writes a journal of at least this many bytes, and returns how many it has.
fn write(length: usize, path: &Path) -> io::Result<u64> {
    let mut file = BufWriter::new(File::create(path)?);
    journals::write(length, &mut file)?;
    file.flush()?;
    Ok(file.get_ref().metadata()?.len())
}

/// A row of the table.
fn row(program: &str, folder: &Path, length: usize) -> io::Result<()> {
    let paths: [PathBuf; 2] = ["recorded", "replayed"].map(|name| folder.join(name));
    let mut bytes = 0;
    for path in &paths {
        bytes = write(length, path)?;
    }
    let mut ours = Command::new(program);
    ours.args(&paths);
    let mut sides = vec![ours];
    for order in ["--peer", "--bytes-first"] {
        let mut peer = Command::new(env::current_exe()?);
        peer.arg(order).args(&paths);
        sides.push(peer);
    }
    let mut best: Vec<Run> = sides.iter_mut().map(run).collect::<io::Result<_>>()?;
    if best.iter().any(|side| side.line != best[0].line) {
        let lines: String = best.iter().map(|side| side.line.as_str()).collect();
        return Err(io::Error::new(
            io::ErrorKind::Other,
            format!("different verdicts: {lines}"),
        ));
    }
    for _ in 1..MEASUREMENTS {
        for (side, best) in sides.iter_mut().zip(&mut best) {
            best.cost.time = best.cost.time.min(run(side)?.cost.time);
        }
    }
    let rate = |side: &Run| 2.0 * bytes as f64 / 1e6 / side.cost.time.as_secs_f64();
    let [ours, peer, bytes_first] = &best[..] else {
        unreachable!("there are three sides");
    };
    println!(
        "| {:.1} MB | {} | {:.0} MB | {:.0} MB | {:.2} | {:.0} MB | {:.2} | {} KiB | {} KiB |",
        bytes as f64 / 1e6,
        ours.line.trim().trim_start_matches("same, "),
        rate(ours),
        rate(peer),
        rate(ours) / rate(peer),
        rate(bytes_first),
        rate(ours) / rate(bytes_first),
        ours.cost.resident,
        peer.cost.resident,
    );
    Ok(())
}

fn measure(program: &str, folder: &Path, lengths: &[usize]) -> io::Result<()> {
    println!(
        "| each journal | commands | ours a second | peer a second | ours / peer | peer, bytes first | ours / that \
         | most resident, ours | peer |"
    );
    println!("|---|---|---|---|---|---|---|---|---|");
    lengths
        .iter()
        .try_for_each(|&length| row(program, folder, length))
}

/// The baseline's comparison of two files, whose line is that of journal_diff.
fn peer(order: Order, recorded: &str, replayed: &str) -> ExitCode {
    let compared = File::open(recorded)
        .and_then(|recorded| Ok((recorded, File::open(replayed)?)))
        .map_err(journals::Refusal::from)
        .and_then(|(recorded, replayed)| journals::compare(VERSION, order, recorded, replayed));
    match compared {
        Ok(Verdict::Same(count)) => println!("same, {count} commands"),
        other => {
            println!("{other:?}");
            return ExitCode::FAILURE;
        }
    }
    ExitCode::SUCCESS
}

fn main() -> ExitCode {
    let words: Vec<String> = env::args().skip(1).collect();
    let words: Vec<&str> = words.iter().map(String::as_str).collect();
    match words[..] {
        ["--peer", recorded, replayed] => return peer(Order::Records, recorded, replayed),
        ["--bytes-first", recorded, replayed] => return peer(Order::BytesFirst, recorded, replayed),
        _ => {}
    }
    let lengths: Option<Vec<usize>> = words.iter().skip(2).map(|word| word.parse().ok()).collect();
    let (&[program, folder, ..], Some(mut lengths)) = (&words[..], lengths) else {
        eprintln!("usage: journals PROGRAM FOLDER [LENGTH ..]");
        return ExitCode::from(2);
    };
    if lengths.is_empty() {
        lengths.extend(LENGTHS);
    }
    match measure(program, Path::new(folder), &lengths) {
        Ok(()) => ExitCode::SUCCESS,
        Err(error) => {
            println!("failed: {error}");
            ExitCode::FAILURE
        }
    }
}
