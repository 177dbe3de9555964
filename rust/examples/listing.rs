//! Lists the stream that comes on the standard input: listing [VERSION]
//!
//! A line is an item: the name of its type and the length of its payload, and ` ack` if its header requests an
//! acknowledgement. The last line counts the trailing bytes. VERSION is from 5 to 9, by default 8.

use std::env;
use std::error::Error;
use std::io::{self, Write};

use pendratsoa::{Decoder, Version};

fn main() -> Result<(), Box<dyn Error>> {
    let version = env::args_os()
        .nth(1)
        .map_or(Ok(Version::V8), |word| word.to_string_lossy().parse())?;
    let mut decoder = Decoder::new(version);
    let mut input = io::stdin().lock();
    let mut output = io::stdout().lock();
    while decoder.read_from(&mut input)? > 0 {
        for item in decoder.items() {
            writeln!(output, "{}", item?)?;
        }
    }
    writeln!(output, "rest {}", decoder.rest())?;
    Ok(())
}
