//! Compares results with those of the baseline and of the rules:
//!
//! - agree --vectors FILE..: the results that are in files of test vectors;
//! - agree [SEED [COUNT [FIRST]]]: the results of the library for random cases, where this was built with it. A case is
//!   made only of the seed and the case's number, so `agree SEED 1 FIRST` does one case again.
//!
//! The last line is 'N passed, M failed', of comparisons; the status is 1 where one failed.

#[cfg(feature = "library")]
mod library;
mod vectors;

use std::env;
use std::process::ExitCode;

#[cfg(not(feature = "library"))]
mod library {
    /// Says that there is no library to compare.
    pub fn compare(_options: &[String]) -> Option<bool> {
        eprintln!("agree: built without the library; agree.sh builds it in");
        None
    }
}

fn main() -> ExitCode {
    let words: Vec<String> = env::args().skip(1).collect();
    let agrees = match words.split_first() {
        Some((word, files)) if word == "--vectors" && !files.is_empty() => vectors::compare(files),
        _ => library::compare(&words),
    };
    match agrees {
        Some(true) => ExitCode::SUCCESS,
        Some(false) => ExitCode::FAILURE,
        None => {
            eprintln!("usage: agree --vectors FILE.. | agree [SEED [COUNT [FIRST]]]");
            ExitCode::from(2)
        }
    }
}
