//! The baseline of journal_make: writes the stream that lines of JSON on the standard input describe: make [5..9]

use std::process::ExitCode;

use pendratsoa_bench::{make, reading};

fn main() -> ExitCode {
    reading::run(make::make)
}
