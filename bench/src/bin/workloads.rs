//! Prints the messages of the workloads of typed messages, for bench/messages.sh: the name of a workload, the number of
//! a schema and a payload in hex digits a line. They are those of languages/messages.txt, a workload each, and the
//! replay, the mixed messages and the large ones of speed.

use std::error::Error;
use std::fs;
use std::io::{self, Write};

use pendratsoa_bench::random::Random;
use pendratsoa_bench::schema::{schema_of, type_of_code};
use pendratsoa_bench::streams;

fn main() -> Result<(), Box<dyn Error>> {
    let mut out = io::BufWriter::new(io::stdout().lock());
    let path = concat!(env!("CARGO_MANIFEST_DIR"), "/languages/messages.txt");
    for line in fs::read_to_string(path)?.lines() {
        match line.split_once(' ') {
            Some((name, digits)) if name != "#" => {
                let schema = schema_of(name).ok_or("there is no such record")?;
                writeln!(out, "{name} {schema} {digits}")?;
            }
            _ => {}
        }
    }
    let mut random = Random::new(1, 0);
    for (name, frames) in [
        ("replay", streams::replay(&mut random)),
        ("mixed", streams::mixed(&mut random)),
        ("large", streams::large(&mut random)),
    ] {
        for frame in frames {
            let message_type = type_of_code(frame.code).ok_or("there is no such type")?;
            let digits: String = frame.payload.iter().map(|b| format!("{b:02x}")).collect();
            let digits = if digits.is_empty() { "-" } else { &digits };
            writeln!(out, "{name} {} {digits}", message_type.schema)?;
        }
    }
    Ok(())
}
