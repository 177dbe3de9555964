//! The results that are in files.

use std::fs;

use pendratsoa_bench::conformance::{lines, Line};
use pendratsoa_bench::tally::Tally;

/// Compares the result of each line of the files. Returns whether all agree.
pub fn compare(files: &[String]) -> Option<bool> {
    let mut tally = Tally::default();
    for file in files {
        match fs::read_to_string(file) {
            Ok(text) => compare_lines(&mut tally, file, &text),
            Err(error) => tally.fails("files", file, format_args!("  {error}")),
        }
    }
    Some(tally.print())
}

fn compare_lines(tally: &mut Tally, file: &str, text: &str) {
    const KIND: &str = "lines";
    for (number, text) in lines(text) {
        let case = format_args!("{file}, line {number}: {text}").to_string();
        let Some(line) = Line::read(text) else {
            tally.fails(KIND, case, "  this is no line");
            continue;
        };
        match line.case.judge() {
            Err(results) => tally.fails(KIND, case, results),
            Ok(verdict) if verdict.result != line.expected => {
                tally.fails(KIND, case, format_args!("  expected: {}", verdict.result));
            }
            Ok(verdict) => {
                tally.passes(KIND);
                if verdict.departs {
                    tally.departs();
                }
            }
        }
    }
}
