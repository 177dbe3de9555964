//! Writes test vectors: random cases with the results of the baseline and of the rules.
//!
//! - vectors [SEED [COUNT]]: to standard output, COUNT of them;
//! - vectors --write FOLDER: the files of random cases that conformance/ has, for tools/generate.py.
//!
//! Where the two readers differ, and not as is known, the case is printed on standard error and the status is 1. The
//! number of known differences is printed there too.

use std::env;
use std::fmt;
use std::fs;
use std::io::{self, BufWriter, Write};
use std::path::Path;
use std::process::ExitCode;

use pendratsoa_bench::cases::{self, any_handy, judge};
use pendratsoa_bench::random::Random;

const SEED: u64 = 1;
const COUNT: u64 = 1000;

/// Why no cases were written.
#[derive(Debug)]
enum Failed {
    Differ(cases::Failed),
    Io(io::Error),
}

impl From<cases::Failed> for Failed {
    fn from(failed: cases::Failed) -> Failed {
        Failed::Differ(failed)
    }
}

impl From<io::Error> for Failed {
    fn from(error: io::Error) -> Failed {
        Failed::Io(error)
    }
}

impl fmt::Display for Failed {
    fn fmt(&self, f: &mut fmt::Formatter<'_>) -> fmt::Result {
        match self {
            Failed::Differ(failed) => {
                write!(f, "the readers differ: {}\n{}", failed.case, failed.results)
            }
            Failed::Io(error) => write!(f, "{error}"),
        }
    }
}

/// Writes this many random cases to standard output.
fn print(seed: u64, count: u64) -> Result<(), Failed> {
    let mut out = BufWriter::new(io::stdout().lock());
    let mut departures = 0;
    for case in 0..count {
        let case = any_handy(&mut Random::new(seed, case));
        let verdict = judge(&case)?;
        departures += usize::from(verdict.departs);
        writeln!(out, "{case} = {}", verdict.result)?;
    }
    out.flush()?;
    tell(departures);
    Ok(())
}

/// Writes the files of a folder.
fn write(folder: &Path) -> Result<(), Failed> {
    let files = cases::files()?;
    for file in &files {
        fs::write(folder.join(file.name), &file.text)?;
    }
    tell(files.iter().map(|file| file.departures).sum());
    Ok(())
}

fn tell(departures: usize) {
    eprintln!("known difference, prost rejects a skipped record on the last level: {departures}");
}

/// Runs the command line, or returns `None` if it is invalid.
fn run(words: &[&str]) -> Option<Result<(), Failed>> {
    Some(match words {
        [] => print(SEED, COUNT),
        ["--write", folder] => write(Path::new(folder)),
        [seed] => print(seed.parse().ok()?, COUNT),
        [seed, count] => print(seed.parse().ok()?, count.parse().ok()?),
        _ => return None,
    })
}

fn main() -> ExitCode {
    let words: Vec<String> = env::args().skip(1).collect();
    let words: Vec<&str> = words.iter().map(String::as_str).collect();
    match run(&words) {
        None => {
            eprintln!("usage: vectors [SEED [COUNT]] | vectors --write FOLDER");
            ExitCode::from(2)
        }
        Some(Ok(())) => ExitCode::SUCCESS,
        Some(Err(failed)) => {
            eprintln!("failed: {failed}");
            ExitCode::FAILURE
        }
    }
}
