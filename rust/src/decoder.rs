//! Streams that come in chunks.

use std::io::{self, ErrorKind, Read};
use std::iter::FusedIterator;

use crate::error::{Argument, Error, Incomplete, MessageTooLong};
use crate::ffi::{Found, Refusal};
use crate::item::{copied, item_of, message_of, Item, Message, OwnedItem, Place};
use crate::numbering::{keep, Kept, Numbering, Payload};
use crate::version::Version;

/// The most bytes that are read at once.
const CHUNK: usize = 64 << 10;

/// A decoder of a stream of one version, which comes in chunks of any size.
///
/// The items do not depend on how the stream was split into chunks.
///
/// ```
/// use pendratsoa::{Decoder, Item, Version};
///
/// let mut decoder = Decoder::new(Version::V8);
/// for chunk in [&[0xFC, 1, 0, 0, 0, 0][..], &[0, 3, b'o', b'n'], &[b'e', 0, 3]] {
///     decoder.feed(chunk)?;
///     for item in decoder.items() {
///         if let Item::Message(message) = item? {
///             assert_eq!(message.payload(), b"one");
///         }
///     }
/// }
/// assert_eq!(decoder.rest(), 2);
/// # Ok::<(), pendratsoa::Error>(())
/// ```
///
/// Items borrow the bytes that the decoder holds, so that it cannot be fed while one is used:
///
/// ```compile_fail,E0499
/// # let mut decoder = pendratsoa::Decoder::new(pendratsoa::Version::V8);
/// let item = decoder.items().next();
/// decoder.feed(&[0])?;
/// drop(item);
/// # Ok::<(), pendratsoa::Error>(())
/// ```
#[derive(Clone, Debug)]
pub struct Decoder {
    version: Version,
    max_message_size: u32,
    /// What came, and after it room.
    bytes: Vec<u8>,
    /// The index of the first byte that did not come.
    end: usize,
    cursor: Cursor,
    /// By which payloads are read, if they are at other field numbers.
    numbering: Option<Numbering>,
    /// What it made of the payloads of the last loop.
    kept: Kept,
    /// Whether the end of a reader within an item is an error of `read`.
    strict: bool,
}

/// How far the bytes of a decoder are in the items that were taken.
#[derive(Clone, Debug)]
struct Cursor {
    /// The index of the first byte that is in no item yet.
    begin: usize,
    /// The number of bytes of the stream before those that the decoder holds.
    dropped: u64,
    /// The items that those begin with which are in no item yet, as far as they were looked for.
    found: Found,
    /// The error of a message that is longer than the limit, which ended the stream.
    ended: Option<Error>,
}

impl Cursor {
    /// The offset in the stream of the first byte that is in no item yet.
    #[inline]
    fn offset(&self) -> u64 {
        self.dropped + self.begin as u64
    }

    /// Takes the next of the items that were found, which has this size.
    #[inline]
    fn take(&mut self, size: usize) {
        self.begin += size;
        self.found.take();
    }

    /// Says that the bytes in the items that were taken are held no longer.
    fn drop_taken(&mut self) {
        self.dropped += self.begin as u64;
        self.begin = 0;
    }
}

impl Decoder {
    /// A decoder of a stream of a version, without a limit on the size of a message.
    #[must_use]
    pub fn new(version: Version) -> Decoder {
        Decoder::with_max_message_size(version, u32::MAX)
    }

    /// A decoder of a stream of a version that takes no message whose payload has more bytes than this.
    ///
    /// A longer message is [`Error::MessageTooLong`] as soon as its header came, with its code, the length that the
    /// header announces, and its offset in the stream. It ends the stream: from then on each iteration, `feed`, `room`,
    /// `read_from` and `finish` return this error. [`Decoder::trailing`] is what was received of it and after it.
    ///
    /// The limit is on the payload. Its header does not count: a message that is over the limit only with these 8 bytes
    /// is taken.
    ///
    /// ```
    /// use pendratsoa::{Decoder, Error, Version};
    ///
    /// let mut decoder = Decoder::with_max_message_size(Version::V8, 1_000);
    /// decoder.feed(&[0, 3, 0, 0, 0, 0, 0, 0, 4, 0, 0, 0, 0, 0, 4, 0])?;
    /// let mut items = decoder.items();
    /// assert!(items.next().unwrap().is_ok());
    /// match items.next() {
    ///     Some(Err(Error::MessageTooLong(error))) => {
    ///         assert_eq!((error.code, error.length, error.limit, error.offset), (0x0400, 1_024, 1_000, 8));
    ///     }
    ///     other => panic!("{other:?}"),
    /// }
    /// assert_eq!(decoder.trailing(), [4, 0, 0, 0, 0, 0, 4, 0]);
    /// assert!(matches!(decoder.feed(&[0]), Err(Error::MessageTooLong(_))));
    /// assert_eq!(decoder.finish(), decoder.feed(&[0]));
    /// # Ok::<(), Error>(())
    /// ```
    #[must_use]
    pub fn with_max_message_size(version: Version, max_message_size: u32) -> Decoder {
        Decoder {
            version,
            max_message_size,
            bytes: Vec::new(),
            end: 0,
            cursor: Cursor {
                begin: 0,
                dropped: 0,
                found: Found::new(),
                ended: None,
            },
            numbering: None,
            kept: Kept::default(),
            strict: true,
        }
    }

    /// The decoder of a stream whose payloads are at the field numbers of a descriptor set. The payload of each message
    /// is read by the numbering, so that everything of the message works. Its offset, its header and its bytes are
    /// those of the stream, which the limit is on too.
    ///
    /// A payload that cannot be read is [`Error::Malformed`], with the type and the offset of its message, and ends the
    /// iteration; the next one goes on after this message.
    ///
    /// ```
    /// use pendratsoa::{Decoder, Item, Numbering, Version};
    ///
    /// // the set of a file with `message SetStateCommandMessage { bytes key = 3; }`
    /// let set = b"\n=\n\x07a.proto\"*\n\x16SetStateCommandMessage\
    ///     \x12\x10\n\x03key\x18\x03 \x01(\x0cR\x03keyb\x06proto3";
    /// let mut decoder = Decoder::new(Version::V8).with_numbering(&Numbering::new(set, &[])?);
    /// let stream = b"\x04\x03\0\0\0\0\0\x03\x1a\x01a";
    /// decoder.feed(stream)?;
    /// for item in decoder.items() {
    ///     let item = item?;
    ///     if let Item::Message(message) = item {
    ///         assert_eq!(message.json()?, r#"{"key":"YQ=="}"#);
    ///     }
    ///     assert_eq!(item.to_bytes()?, stream);
    /// }
    /// # Ok::<(), pendratsoa::Error>(())
    /// ```
    #[must_use]
    pub fn with_numbering(mut self, numbering: &Numbering) -> Decoder {
        self.numbering = Some(numbering.clone());
        self
    }

    /// The decoder whose [`Decoder::read`] has no error if its reader ends within an item: with `false` the iteration
    /// ends there after all whole items, which suits a file that is still being written. By default it is
    /// [`Error::Incomplete`]. [`Decoder::trailing`] has the bytes of that item, and [`Decoder::finish`] the error.
    ///
    /// ```
    /// use pendratsoa::{Decoder, Version};
    ///
    /// let input = &[0, 3, 0, 0, 0, 0, 0, 0, 0, 3][..];
    /// let mut decoder = Decoder::new(Version::V8).with_strict(false);
    /// for item in decoder.read(input) {
    ///     println!("{}", item?);
    /// }
    /// assert_eq!(decoder.trailing(), [0, 3]);
    /// # Ok::<(), std::io::Error>(())
    /// ```
    #[must_use]
    pub fn with_strict(mut self, strict: bool) -> Decoder {
        self.strict = strict;
        self
    }

    /// The version of the stream.
    #[must_use]
    pub fn version(&self) -> Version {
        self.version
    }

    /// The number of bytes of the stream that are in the items that were taken: the offset of the next one.
    #[must_use]
    pub fn offset(&self) -> u64 {
        self.cursor.offset()
    }

    /// Appends bytes of the stream to those received. [`Error::OutOfMemory`] leaves these unchanged.
    pub fn feed(&mut self, bytes: &[u8]) -> Result<(), Error> {
        self.make_room(bytes.len())?;
        self.bytes.extend_from_slice(bytes);
        self.end = self.bytes.len();
        Ok(())
    }

    /// Reads once, at most 64 KiB, and appends the bytes to those received. Returns how many they are, 0 at the end.
    ///
    /// An error of the reader, or a failed allocation, leaves the bytes received unchanged.
    ///
    /// An error of the reader is returned as it is. Any other is an [`io::Error`] that holds an [`Error`]:
    /// [`Error::OutOfMemory`], or the [`Error::MessageTooLong`] that ended the stream. `?` takes it in a function that
    /// returns an [`io::Result`] or a boxed error, and takes the errors of [`Decoder::items`] there too. There is no
    /// conversion from an [`io::Error`] to an [`Error`]; this finds the one that is held:
    ///
    /// ```
    /// use pendratsoa::{Decoder, Error, Version};
    ///
    /// # fn read() -> std::io::Result<()> {
    /// let mut decoder = Decoder::with_max_message_size(Version::V8, 0);
    /// let mut input = &[4, 0, 0, 0, 0, 0, 0, 1][..];
    /// decoder.read_from(&mut input)?;
    /// assert!(matches!(decoder.items().next(), Some(Err(Error::MessageTooLong(_)))));
    /// let error = decoder.read_from(&mut input).unwrap_err();
    /// let held = error.get_ref().and_then(|held| held.downcast_ref::<Error>());
    /// assert!(matches!(held, Some(Error::MessageTooLong(_))));
    /// # Ok(())
    /// # }
    /// # read().unwrap();
    /// ```
    ///
    /// A stream is read in two loops:
    ///
    /// ```
    /// use pendratsoa::{Decoder, Version};
    ///
    /// let mut input = &[0, 3, 0, 0, 0, 0, 0, 0, 0, 3][..];
    /// let mut decoder = Decoder::new(Version::V8);
    /// while decoder.read_from(&mut input)? > 0 {
    ///     for item in decoder.items() {
    ///         println!("{:?}", item?);
    ///     }
    /// }
    /// assert_eq!(decoder.rest(), 2);
    /// # Ok::<(), Box<dyn std::error::Error>>(())
    /// ```
    pub fn read_from<R: Read>(&mut self, mut reader: R) -> io::Result<usize> {
        let room = self.room(CHUNK)?;
        let count = loop {
            match reader.read(room) {
                Err(error) if error.kind() == ErrorKind::Interrupted => {}
                read => break CHUNK.min(read?),
            }
        };
        self.advance(count);
        Ok(count)
    }

    /// The items of a reader up to its end, in one loop. Each is an [`OwnedItem`], with bytes of its own. A loop over
    /// [`Decoder::read_from`] and [`Decoder::items`] copies no bytes.
    ///
    /// An item comes as soon as it is whole. An error of the reader is returned as it is, after all items before it.
    /// The next call reads on. An error of the stream, also that it ended within an item, is an [`io::Error`] with the
    /// [`Error`] in it, and ends the iteration. [`Decoder::with_strict`] makes that end none.
    ///
    /// ```
    /// use pendratsoa::{Decoder, Item, Version};
    ///
    /// let input = &[0, 3, 0, 0, 0, 0, 0, 0, 0, 3, 0, 0, 0, 0, 0, 0][..];
    /// for item in Decoder::new(Version::V8).read(input) {
    ///     let item = item?;
    ///     if let Item::Message(message) = item.item() {
    ///         assert_eq!(message.type_name()?, "End");
    ///     }
    /// }
    /// # Ok::<(), Box<dyn std::error::Error>>(())
    /// ```
    pub fn read<R: Read>(&mut self, reader: R) -> ReadItems<'_, R> {
        ReadItems {
            decoder: self,
            reader,
            has_ended: false,
        }
    }

    /// Room for more bytes of the stream, of this number, for a reader that [`Decoder::read_from`] cannot take, as one
    /// that is read asynchronously. [`Decoder::advance`] then tells how many bytes came. [`Error::OutOfMemory`] leaves
    /// the bytes received unchanged.
    ///
    /// ```
    /// use pendratsoa::{Decoder, Error, Version};
    ///
    /// # trait AsyncRead { fn read(&mut self, room: &mut [u8]) -> std::future::Ready<usize>; }
    /// # async fn list(mut socket: impl AsyncRead) -> Result<(), Error> {
    /// let mut decoder = Decoder::new(Version::V8);
    /// loop {
    ///     let count = socket.read(decoder.room(64 << 10)?).await;
    ///     if count == 0 {
    ///         break;
    ///     }
    ///     decoder.advance(count);
    ///     for item in decoder.items() {
    ///         println!("{}", item?);
    ///     }
    /// }
    /// decoder.finish()
    /// # }
    /// ```
    pub fn room(&mut self, count: usize) -> Result<&mut [u8], Error> {
        self.make_room(count)?;
        self.bytes.resize(self.end + count, 0);
        Ok(&mut self.bytes[self.end..])
    }

    /// Says that a number of bytes came, and were written to the front of the last [`Decoder::room`]; more than there
    /// is room for are not counted.
    pub fn advance(&mut self, count: usize) {
        self.end += count.min(self.bytes.len() - self.end);
    }

    /// Says that the stream ended: [`Error::Incomplete`] if bytes are in no item. Its items have to be taken before. It
    /// changes nothing: [`Decoder::trailing`] still has these bytes.
    ///
    /// ```
    /// use pendratsoa::{Decoder, Error, Version};
    ///
    /// let mut decoder = Decoder::new(Version::V8);
    /// decoder.feed(&[0, 3, 0, 0, 0, 0, 0, 0, 0, 3])?;
    /// assert_eq!(decoder.items().count(), 1);
    /// match decoder.finish() {
    ///     Err(Error::Incomplete(error)) => assert_eq!((error.offset, error.rest), (8, 2)),
    ///     other => panic!("{other:?}"),
    /// }
    /// assert_eq!(decoder.trailing(), [0, 3]);
    /// # Ok::<(), Error>(())
    /// ```
    pub fn finish(&self) -> Result<(), Error> {
        self.check()?;
        match self.trailing() {
            [] => Ok(()),
            rest => Err(Error::Incomplete(Incomplete::of(rest, self.offset()))),
        }
    }

    /// The error that ended the stream, if one did.
    fn check(&self) -> Result<(), Error> {
        match &self.cursor.ended {
            None => Ok(()),
            Some(error) => Err(error.clone()),
        }
    }

    /// Makes room for more bytes, of this number; for none once the stream was ended by an error.
    fn make_room(&mut self, count: usize) -> Result<(), Error> {
        self.bytes.truncate(self.end);
        self.check()?;
        // used bytes are dropped once they are the greater part, so that each byte is moved once on average
        let begin = self.cursor.begin;
        if begin > self.end / 2 {
            self.bytes.drain(..begin);
            self.end -= begin;
            self.cursor.drop_taken();
        }
        self.bytes
            .try_reserve(count)
            .map_err(|_| Error::OutOfMemory)
    }

    /// The whole items among the pending bytes. An item that was taken does not come again.
    ///
    /// The iterator ends after an error, [`Error::Unexpected`] or [`Error::MessageTooLong`]; the item that is the
    /// reason is not taken. With a [`Numbering`] it also ends after [`Error::OutOfMemory`], and after
    /// [`Error::Malformed`], which takes the item.
    pub fn items(&mut self) -> Items<'_> {
        Items {
            version: self.version,
            max_message_size: self.max_message_size,
            bytes: &self.bytes[..self.end],
            cursor: &mut self.cursor,
            numbering: self.numbering.as_ref(),
            place: Some(self.kept.emptied()),
            has_failed: false,
        }
    }

    /// The next of the whole items, with bytes of its own, or `None` if no whole one is left. The errors are those of
    /// [`Decoder::items`], and [`Error::OutOfMemory`], which leaves the item where it is.
    ///
    /// ```
    /// use pendratsoa::{Decoder, Version};
    ///
    /// let mut decoder = Decoder::new(Version::V8);
    /// decoder.feed(&[0, 3, 0, 0, 0, 0, 0, 0])?;
    /// let item = decoder.next_owned().unwrap()?;
    /// // the decoder is free
    /// decoder.feed(&[0, 3])?;
    /// assert_eq!(item.to_string(), "End 0");
    /// assert!(decoder.next_owned().is_none());
    /// # Ok::<(), pendratsoa::Error>(())
    /// ```
    pub fn next_owned(&mut self) -> Option<Result<OwnedItem, Error>> {
        let begin = self.cursor.begin;
        let owned = self.items().next()?.and_then(Item::into_owned);
        // a numbering may have left it where it is
        if matches!(owned, Err(Error::OutOfMemory)) && self.cursor.begin != begin {
            self.cursor.begin = begin;
            self.cursor.found.put_back();
        }
        Some(owned)
    }

    /// The number of pending bytes: those received that no item has yet.
    #[must_use]
    pub fn rest(&self) -> usize {
        self.trailing().len()
    }

    /// The pending bytes: those received that no item has yet. Once the whole items are taken, they are the beginning
    /// of the next one. At the end of a stream a proxy passes them on after the last item: [`Decoder::finish`] leaves
    /// them. After [`Error::MessageTooLong`] they begin with the header of that message.
    ///
    /// ```
    /// use pendratsoa::{Decoder, Version};
    ///
    /// let mut decoder = Decoder::new(Version::V8);
    /// decoder.feed(&[0, 3, 0, 0, 0, 0, 0, 0, 4, 0, 0])?;
    /// let mut out = Vec::new();
    /// for item in decoder.items() {
    ///     item?.append_to(&mut out)?;
    /// }
    /// out.extend_from_slice(decoder.trailing());
    /// assert_eq!(out, [0, 3, 0, 0, 0, 0, 0, 0, 4, 0, 0]);
    /// # Ok::<(), pendratsoa::Error>(())
    /// ```
    #[must_use]
    pub fn trailing(&self) -> &[u8] {
        &self.bytes[self.cursor.begin..self.end]
    }
}

/// The items of a [`Decoder`], which borrow its bytes, by [`Decoder::items`].
#[derive(Debug)]
#[must_use = "an iterator takes no item until it is used"]
pub struct Items<'a> {
    version: Version,
    max_message_size: u32,
    bytes: &'a [u8],
    cursor: &'a mut Cursor,
    numbering: Option<&'a Numbering>,
    /// Where the next payload that the numbering makes is kept.
    place: Option<&'a mut Vec<Payload>>,
    has_failed: bool,
}

impl<'a> Items<'a> {
    /// Looks for items in the bytes that are in none.
    fn look(&mut self) -> Result<(), Error> {
        let cursor = &mut *self.cursor;
        if let Some(error) = &cursor.ended {
            return Err(error.clone());
        }
        let (bytes, limit) = (&self.bytes[cursor.begin..], self.max_message_size);
        match cursor.found.look(self.version.into(), limit, bytes) {
            Ok(()) => Ok(()),
            Err(Refusal::TooLong) => {
                let error =
                    Error::MessageTooLong(MessageTooLong::of(bytes, limit, cursor.offset()));
                cursor.ended = Some(error.clone());
                Err(error)
            }
            Err(refusal) => Err(Error::of(refusal, |_| Argument::Stream(bytes.len()))),
        }
    }

    /// Takes the next of the items that were found, if it is a message, and no numbering reads it. After an error there
    /// is none: that ended the iteration at what is no such message.
    #[inline]
    fn next_message(&mut self) -> Option<Message<'a>> {
        if self.numbering.is_some() {
            return None;
        }
        let numbers = self.cursor.found.first()?;
        let bytes = self.bytes.get(self.cursor.begin..)?;
        let place = Place::at(self.cursor.offset());
        let (message, size) = message_of(self.version, bytes, numbers, place)?;
        self.cursor.take(size);
        Some(message)
    }

    /// Takes the next item, whatever it is, and whatever reads it. An error ends the iteration.
    #[cold]
    fn next_of_any_kind(&mut self) -> Result<Option<Item<'a>>, Error> {
        if self.has_failed {
            return Ok(None);
        }
        let item = self.next_found();
        self.has_failed = item.is_err();
        item
    }

    /// Takes the next of the items that were found. If there is none, it looks for more.
    fn next_found(&mut self) -> Result<Option<Item<'a>>, Error> {
        if self.cursor.found.first().is_none() {
            self.look()?;
            if let Some(message) = self.next_message() {
                return Ok(Some(Item::Message(message)));
            }
        }
        let cursor = &*self.cursor;
        let numbers = match cursor.found.first() {
            Some(numbers) => numbers,
            None => return Ok(None),
        };
        let (bytes, place) = (&self.bytes[cursor.begin..], Place::at(cursor.offset()));
        let (item, size) = item_of(self.version, bytes, numbers, place)?;
        let read = match (item, self.numbering) {
            (Item::Message(message), Some(numbering)) => {
                self.read(numbering, message).map(Item::Message)
            }
            (item, _) => Ok(item),
        };
        // one that cannot be read is taken too
        if !matches!(read, Err(Error::OutOfMemory)) {
            self.cursor.take(size);
        }
        read.map(Some)
    }

    /// A message as it is read by a numbering.
    fn read(&mut self, numbering: &Numbering, message: Message<'a>) -> Result<Message<'a>, Error> {
        let (payload, place) = match (numbering.read(&message)?, self.place.take()) {
            (Some(payload), Some(place)) => (payload, place),
            (_, place) => {
                self.place = place;
                return Ok(message);
            }
        };
        let kept = keep(place, payload, copied(message.payload())?)?;
        self.place = Some(kept.next);
        Ok(message.with_payload(kept.payload, Some(kept.received)))
    }
}

impl<'a> Iterator for Items<'a> {
    type Item = Result<Item<'a>, Error>;

    // A loop has it inline. The other function returns another type: if it wrote the item that this one returns, the
    // compiler would have that in memory, and not in registers.
    #[inline]
    fn next(&mut self) -> Option<Result<Item<'a>, Error>> {
        match self.next_message() {
            Some(message) => Some(Ok(Item::Message(message))),
            None => self.next_of_any_kind().transpose(),
        }
    }
}

impl FusedIterator for Items<'_> {}

/// The items of a reader, by [`Decoder::read`].
#[derive(Debug)]
#[must_use = "an iterator takes no item until it is used"]
pub struct ReadItems<'a, R> {
    decoder: &'a mut Decoder,
    reader: R,
    has_ended: bool,
}

impl<R: Read> Iterator for ReadItems<'_, R> {
    type Item = io::Result<OwnedItem>;

    fn next(&mut self) -> Option<io::Result<OwnedItem>> {
        while !self.has_ended {
            match self.decoder.next_owned() {
                Some(Ok(item)) => return Some(Ok(item)),
                Some(Err(Error::OutOfMemory)) => return Some(Err(Error::OutOfMemory.into())),
                Some(Err(error)) => return self.end(Err(error)),
                None => {}
            }
            match self.decoder.read_from(&mut self.reader) {
                Ok(0) if !self.decoder.strict => return self.end(Ok(())),
                Ok(0) => {
                    let finished = self.decoder.finish();
                    return self.end(finished);
                }
                Ok(_) => {}
                Err(error) => return Some(Err(error)),
            }
        }
        None
    }
}

impl<R> ReadItems<'_, R> {
    /// Ends the iteration, with this error if it is one.
    fn end(&mut self, outcome: Result<(), Error>) -> Option<io::Result<OwnedItem>> {
        self.has_ended = true;
        outcome.err().map(|error| Err(error.into()))
    }
}

impl<R: Read> FusedIterator for ReadItems<'_, R> {}

#[cfg(test)]
mod tests {
    use super::*;

    #[test]
    fn numbers_of_a_later_library_end_the_iteration() {
        let whole = [0, 0x0300_0000_0000, 3, 0, 8, 8];
        for (numbers, text) in [
            ([3, 0, 3, 0, 8, 8], "the kind of item 3"),
            ([0, 0, 0x1_0000, 0, 8, 8], "the code 65536"),
            ([0, 0, 3, 0, 17, 8], "the size 17"),
            ([0, 0, 3, 0, 8, 9], "the size 8"),
            ([1, 0, 3, 0, u64::MAX, 8], "the size 18446744073709551615"),
        ] {
            let mut decoder = Decoder::new(Version::V8);
            decoder.feed(&[0; 24]).unwrap();
            decoder.cursor.found = Found::of(&[whole, numbers, whole]);
            let error = Err(Error::Unexpected(text.to_owned()));
            let mut items = decoder.items();
            assert!(matches!(items.next(), Some(Ok(Item::Message(_)))));
            assert_eq!(items.next(), Some(error.clone()));
            assert_eq!((items.next(), items.next()), (None, None));
            // it is not taken
            assert_eq!(decoder.offset(), 8);
            assert_eq!(decoder.items().next(), Some(error));
        }
    }
}
