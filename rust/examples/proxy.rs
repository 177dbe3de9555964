//! Passes a journal on from one connection to another, with each state one greater: proxy VERSION HOST PORT
//!
//! It takes a connection at a port of this machine, which it prints, and opens one to HOST and PORT. All that it does
//! not change it passes on byte for byte, also the beginning of a last item that is not whole. A command that it
//! changes has only the fields of its type. Unknown fields of the payload and ignored bits of the header are lost.

use std::env;
use std::error::Error;
use std::io::{Read, Write};
use std::net::{TcpListener, TcpStream};

use pendratsoa::messages::{MessageRecord, SetStateCommandMessage};
use pendratsoa::{Decoder, Item};

fn main() -> Result<(), Box<dyn Error>> {
    let words: Vec<String> = env::args_os()
        .skip(1)
        .map(|word| word.to_string_lossy().into_owned())
        .collect();
    let (version, host, port) = match words.as_slice() {
        [version, host, port] => (version, host.as_str(), port),
        _ => return Err("usage: proxy 5..9 HOST PORT".into()),
    };
    let decoder = Decoder::new(version.parse()?);
    let listener = TcpListener::bind("127.0.0.1:0")?;
    println!("{}", listener.local_addr()?.port());
    let (source, _) = listener.accept()?;
    let target = TcpStream::connect((host, port.parse()?))?;
    pass_on(decoder, source, target)
}

/// Writes the items of a stream, as they are to be passed on.
fn pass_on(
    mut decoder: Decoder,
    mut source: impl Read,
    mut target: impl Write,
) -> Result<(), Box<dyn Error>> {
    let mut out = Vec::new();
    while decoder.read_from(&mut source)? > 0 {
        let appended = decoder
            .items()
            .try_for_each(|item| append(&item?, &mut out));
        // what came before an item that is an error is passed on too
        target.write_all(&out)?;
        out.clear();
        appended?;
    }
    target.write_all(decoder.trailing())?;
    Ok(decoder.finish()?)
}

/// Appends what takes the place of an item.
fn append(item: &Item<'_>, out: &mut Vec<u8>) -> Result<(), Box<dyn Error>> {
    match item.record::<SetStateCommandMessage>()? {
        Some(mut command) => {
            if let Some(value) = &mut command.value {
                let number: i64 = std::str::from_utf8(&value.content)?.parse()?;
                let greater = number.checked_add(1).ok_or("the state is too great")?;
                value.content = greater.to_string().into_bytes().into();
            }
            out.extend(command.frame(item.version())?);
        }
        None => item.append_to(out)?,
    }
    Ok(())
}
