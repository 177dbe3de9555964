//! The baseline of journal_dump: prints the stream on the standard input as JSON, one object per line: dump [5..9]

use std::process::ExitCode;

use pendratsoa_bench::{dump, reading};

fn main() -> ExitCode {
    reading::run(dump::dump)
}
