//! Measures the iterator of fields against prost's decode of the same payloads: a payload is checked, and all of its
//! fields are read; or it is decoded to its record, which is dropped. A line is the workload, nanoseconds a message
//! here and there, and how many times as fast the iterator is.

use std::error::Error;
use std::hint::black_box;
use std::time::Instant;

use bytes::Bytes;
use pendratsoa_bench::ours;
use pendratsoa_bench::peer;
use pendratsoa_bench::random::Random;
use pendratsoa_bench::schema::type_of_code;
use pendratsoa_bench::streams;

/// How often each side is measured, shortly, so that some are undisturbed on a busy machine too; the best counts.
const MEASUREMENTS: usize = 150;

/// How often a payload is read in a measurement.
const ROUNDS: usize = 10;

fn main() -> Result<(), Box<dyn Error>> {
    let mut random = Random::new(1, 0);
    println!("| Workload | fields, ns | prost, ns | ratio |\n|---|---|---|---|");
    for (name, frames) in [
        ("replay", streams::replay(&mut random)),
        ("mixed", streams::mixed(&mut random)),
    ] {
        let mut payloads = Vec::new();
        for frame in frames {
            let message_type = type_of_code(frame.code).ok_or("there is no such type")?;
            payloads.push((message_type.schema, Bytes::from(frame.payload)));
        }
        let (mut here, mut there) = (f64::INFINITY, f64::INFINITY);
        for _ in 0..MEASUREMENTS {
            here = here.min(per_message(&payloads, |schema, payload| {
                ours::fields(schema, payload, ROUNDS).map_err(|why| why.to_string().into())
            })?);
            there = there.min(per_message(&payloads, |schema, payload| {
                peer::decode_in_rounds(schema, payload, ROUNDS)
                    .map_err(|_| "prost rejects a payload".into())
            })?);
        }
        println!("| {name} | {here:.1} | {there:.1} | {:.2} |", there / here);
    }
    Ok(())
}

/// The nanoseconds that a message takes.
fn per_message(
    payloads: &[(usize, Bytes)],
    read: impl Fn(usize, &Bytes) -> Result<usize, Box<dyn Error>>,
) -> Result<f64, Box<dyn Error>> {
    let start = Instant::now();
    for (schema, payload) in payloads {
        black_box(read(*schema, black_box(payload))?);
    }
    Ok(start.elapsed().as_secs_f64() * 1e9 / (payloads.len() * ROUNDS) as f64)
}
