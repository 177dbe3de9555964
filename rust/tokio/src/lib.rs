//! The items of a journal stream as a codec of `tokio_util`, over the crate `pendratsoa`.
//!
//! ```
//! use bytes::BytesMut;
//! use pendratsoa::Version;
//! use pendratsoa_tokio::ItemCodec;
//! use tokio_util::codec::Decoder;
//!
//! let mut codec = ItemCodec::new(Version::V8);
//! let mut buffer = BytesMut::from(&[0, 3, 0, 0, 0, 0, 0, 0, 0, 3][..]);
//! let item = codec.decode(&mut buffer)?.unwrap();
//! assert_eq!(item.to_string(), "End 0");
//! assert!(codec.decode(&mut buffer)?.is_none());
//! // the stream ends within an item
//! assert!(codec.decode_eof(&mut buffer).is_err());
//! # Ok::<(), std::io::Error>(())
//! ```
#![forbid(unsafe_code)]
#![warn(missing_docs, clippy::pedantic)]
// a sentence of each comment has the errors
#![allow(clippy::missing_errors_doc)]

use std::io;

use bytes::BytesMut;
use pendratsoa::{Item, Numbering, OwnedItem, Version};
use tokio_util::codec::{Decoder, Encoder};

/// The codec of a stream of one version: it decodes items, and encodes them as received.
#[derive(Clone, Debug)]
pub struct ItemCodec {
    decoder: pendratsoa::Decoder,
    strict: bool,
}

impl ItemCodec {
    /// A codec of a stream of a version, without a limit on the size of a message.
    #[must_use]
    pub fn new(version: Version) -> ItemCodec {
        ItemCodec::of(pendratsoa::Decoder::new(version))
    }

    /// A codec of a stream of a version that takes no message whose payload has more bytes than this. A longer message
    /// is [`Error::MessageTooLong`](pendratsoa::Error::MessageTooLong) as soon as its header came, and of each call
    /// from then on. The header does not count.
    #[must_use]
    pub fn with_max_message_size(version: Version, size: u32) -> ItemCodec {
        ItemCodec::of(pendratsoa::Decoder::with_max_message_size(version, size))
    }

    fn of(decoder: pendratsoa::Decoder) -> ItemCodec {
        ItemCodec {
            decoder,
            strict: true,
        }
    }

    /// The codec of a stream whose payloads are at the field numbers of a descriptor set, as
    /// [`pendratsoa::Decoder::with_numbering`]. What it encodes is written as received.
    #[must_use]
    pub fn with_numbering(self, numbering: &Numbering) -> ItemCodec {
        let decoder = self.decoder.with_numbering(numbering);
        ItemCodec { decoder, ..self }
    }

    /// The codec for which the end of a stream within an item is not an error with `false`, as
    /// [`pendratsoa::Decoder::with_strict`]. [`ItemCodec::trailing`] has the bytes of that item.
    #[must_use]
    pub fn with_strict(self, strict: bool) -> ItemCodec {
        ItemCodec { strict, ..self }
    }

    /// The bytes that the codec keeps: those taken out of the buffer that no item has yet. After the error that the
    /// stream ended within an item, they are what a proxy passes on after the last item. After
    /// [`Error::MessageTooLong`](pendratsoa::Error::MessageTooLong) they begin with the header of that message.
    #[must_use]
    pub fn trailing(&self) -> &[u8] {
        self.decoder.trailing()
    }
}

impl Decoder for ItemCodec {
    type Item = OwnedItem;
    type Error = io::Error;

    /// The next item, which has bytes of its own. What came is taken out of the buffer, and kept by the codec.
    fn decode(&mut self, source: &mut BytesMut) -> io::Result<Option<OwnedItem>> {
        let fed = self.decoder.feed(source);
        // what comes after the stream ended is dropped too
        if fed != Err(pendratsoa::Error::OutOfMemory) {
            source.clear();
        }
        fed?;
        self.decoder
            .next_owned()
            .transpose()
            .map_err(io::Error::from)
    }

    /// The next item; after the last one `None`, or [`Error::Incomplete`](pendratsoa::Error::Incomplete) where the
    /// stream ended within an item, if the codec is strict.
    fn decode_eof(&mut self, source: &mut BytesMut) -> io::Result<Option<OwnedItem>> {
        let item = self.decode(source)?;
        if item.is_none() && self.strict {
            self.decoder.finish()?;
        }
        Ok(item)
    }
}

impl Encoder<Item<'_>> for ItemCodec {
    type Error = io::Error;

    /// Appends the item as received, byte for byte.
    fn encode(&mut self, item: Item<'_>, out: &mut BytesMut) -> io::Result<()> {
        let (header, payload) = item.parts();
        out.reserve(header.len() + payload.len());
        out.extend_from_slice(&header);
        out.extend_from_slice(payload);
        Ok(())
    }
}

impl Encoder<OwnedItem> for ItemCodec {
    type Error = io::Error;

    /// Appends the item as received, byte for byte.
    fn encode(&mut self, item: OwnedItem, out: &mut BytesMut) -> io::Result<()> {
        self.encode(item.item(), out)
    }
}

#[cfg(test)]
mod tests {
    use pendratsoa::Error;

    use super::*;

    const STREAM: [u8; 19] = [0, 3, 0, 0, 0, 0, 0, 0, 4, 3, 0, 0, 0, 0, 0, 3, 10, 1, b'a'];

    /// The items of a stream in chunks of a size, up to its end.
    fn decoded(codec: &mut ItemCodec, stream: &[u8], size: usize) -> io::Result<Vec<OwnedItem>> {
        let (mut items, mut buffer) = (Vec::new(), BytesMut::new());
        for chunk in stream.chunks(size) {
            buffer.extend_from_slice(chunk);
            while let Some(item) = codec.decode(&mut buffer)? {
                items.push(item);
            }
        }
        while let Some(item) = codec.decode_eof(&mut buffer)? {
            items.push(item);
        }
        Ok(items)
    }

    /// The error that an error of a reader holds.
    fn held(error: &io::Error) -> &Error {
        error.get_ref().unwrap().downcast_ref().unwrap()
    }

    #[test]
    fn items_of_any_chunks_are_written_as_they_came() {
        for size in 1..=STREAM.len() {
            let mut codec = ItemCodec::new(Version::V8);
            let items = decoded(&mut codec, &STREAM, size).unwrap();
            let lines: Vec<String> = items.iter().map(OwnedItem::to_string).collect();
            assert_eq!(lines, ["End 0", "SetStateCommand 3"]);
            let offsets: Vec<Option<u64>> = items.iter().map(|item| item.item().offset()).collect();
            assert_eq!(offsets, [Some(0), Some(8)]);
            let mut out = BytesMut::new();
            for item in items {
                codec.encode(item, &mut out).unwrap();
            }
            assert_eq!(out, STREAM[..]);
        }
    }

    #[test]
    fn a_stream_that_ends_within_an_item() {
        for end in 9..STREAM.len() {
            let mut codec = ItemCodec::new(Version::V8);
            let error = decoded(&mut codec, &STREAM[..end], 5).unwrap_err();
            assert_eq!(error.kind(), io::ErrorKind::UnexpectedEof);
            assert_eq!(held(&error).offset(), Some(8));
            assert_eq!(codec.trailing(), &STREAM[8..end]);
            let mut codec = ItemCodec::new(Version::V8).with_strict(false);
            assert_eq!(decoded(&mut codec, &STREAM[..end], 5).unwrap().len(), 1);
            assert_eq!(codec.trailing(), &STREAM[8..end]);
        }
    }

    #[test]
    fn payloads_at_other_field_numbers() {
        // the set of a file with `message SetStateCommandMessage { bytes key = 3; }`
        let set = b"\n=\n\x07a.proto\"*\n\x16SetStateCommandMessage\
            \x12\x10\n\x03key\x18\x03 \x01(\x0cR\x03keyb\x06proto3";
        let numbering = Numbering::new(set, &[]).unwrap();
        let mut codec = ItemCodec::new(Version::V8).with_numbering(&numbering);
        let stream = numbering.write_stream(Version::V8, &STREAM).unwrap();
        let mut out = BytesMut::new();
        for item in decoded(&mut codec, &stream, 5).unwrap() {
            if let Item::Message(message) = item.item() {
                let begin = STREAM.len() - message.payload().len();
                assert!(message.code() == 3 || *message.payload() == STREAM[begin..]);
            }
            codec.encode(item, &mut out).unwrap();
        }
        assert_eq!(out, stream);
    }

    #[test]
    fn a_message_over_the_limit_is_an_error_of_each_call() {
        let mut codec = ItemCodec::with_max_message_size(Version::V8, 2);
        let mut buffer = BytesMut::from(&STREAM[..16]);
        assert!(codec.decode(&mut buffer).unwrap().is_some());
        for _ in 0..3 {
            let error = codec.decode(&mut buffer).unwrap_err();
            assert_eq!(error.kind(), io::ErrorKind::InvalidData);
            assert!(matches!(held(&error), Error::MessageTooLong(error) if error.offset == 8));
            assert!(buffer.is_empty());
            buffer.extend_from_slice(&[1]);
            assert_eq!(codec.trailing(), &STREAM[8..16]);
        }
        assert!(codec.decode_eof(&mut buffer).is_err());
    }
}
