//! A stream that is read chunk by chunk, and the baseline's programs, which read one.

use std::env;
use std::io::{self, Read, StdinLock, StdoutLock};
use std::process::ExitCode;

use bytes::Bytes;

use crate::peer::{Decoder, Item};

/// The version of the protocol where no word says one.
const VERSION: u32 = 8;

/// How many bytes are read at a time, as this project's programs read.
const CHUNK: usize = 65536;

/// The items of a stream that comes out of a reader.
pub struct Reading<R> {
    decoder: Decoder,
    reader: R,
    buffer: Vec<u8>,
    /// How many bytes were read.
    total: u64,
}

impl<R: Read> Reading<R> {
    pub fn new(version: u32, reader: R) -> Reading<R> {
        Reading {
            decoder: Decoder::new(version),
            reader,
            buffer: vec![0; CHUNK],
            total: 0,
        }
    }

    /// Reads a chunk, and returns whether there was one: there is none at the end.
    pub fn read_chunk(&mut self) -> io::Result<bool> {
        let count = self.reader.read(&mut self.buffer)?;
        self.total += count as u64;
        self.decoder
            .push(Bytes::copy_from_slice(&self.buffer[..count]));
        Ok(count > 0)
    }

    /// The next item of what was read, if all of it was received.
    pub fn next_item(&mut self) -> Option<Item> {
        self.decoder.next_item()
    }

    /// The word of the header of the last item.
    pub fn word(&self) -> u64 {
        self.decoder.word()
    }

    /// The bytes that were read and are in no item.
    pub fn pending_bytes(&self) -> Vec<u8> {
        self.decoder.pending_bytes()
    }

    /// How many bytes were read that are in no item yet.
    pub fn pending(&self) -> u64 {
        self.decoder.pending() as u64
    }

    /// Where the next item begins.
    pub fn offset(&self) -> u64 {
        self.total - self.pending()
    }
}

/// What a program of the baseline does: it has the stream on the standard input written out somehow, at the version
/// that its only word gives.
pub fn run(
    write: impl FnOnce(u32, StdinLock<'static>, &mut StdoutLock<'static>) -> io::Result<()>,
) -> ExitCode {
    let words: Vec<String> = env::args().skip(1).collect();
    let version = match &words[..] {
        [] => Ok(VERSION),
        [word] => word.parse().map_err(|_| "a version is from 5 to 9"),
        _ => Err("at most one word, the version, is taken"),
    };
    let written = version
        .map_err(|why| io::Error::new(io::ErrorKind::InvalidInput, why))
        .and_then(|version| write(version, io::stdin().lock(), &mut io::stdout().lock()));
    match written {
        Ok(()) => ExitCode::SUCCESS,
        Err(error) => {
            eprintln!("{error}");
            ExitCode::FAILURE
        }
    }
}
