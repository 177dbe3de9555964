//! The baseline of journal_list: prints one line per item of the stream on the standard input: list [5..9]

use std::process::ExitCode;

use pendratsoa_bench::{list, reading};

fn main() -> ExitCode {
    reading::run(list::list)
}
