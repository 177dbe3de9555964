//! The items of streams.

use std::fmt;
use std::hash::{Hash, Hasher};
use std::io::{self, Write};

use crate::calls::{
    append_earlier_frame, append_frame, canonical, earlier_schema, header, schema, to_json,
    type_name,
};
use crate::error::{narrowed, Argument, Error, MessageTooLong};
use crate::ffi::{self, ItemNumbers, Refusal, ITEM_MESSAGE, ITEM_SKIPPED, ITEM_UNKNOWN_CODE};
use crate::fields::{MessageRecord, HEADER};
use crate::message_type::MessageType;
use crate::messages::AnyMessage;
use crate::notification::{notification, Notification};
use crate::reading::from_json;
use crate::version::Version;

/// Where an item begins in its stream. It takes no part in a comparison: the same item may come twice.
#[derive(Clone, Copy)]
pub(crate) struct Place(u64);

impl Place {
    /// That of an item at an offset of its stream.
    pub(crate) fn at(offset: u64) -> Place {
        Place(offset)
    }

    /// That of an item received in no stream: an offset that no item has. An `Option` would be twice as long.
    const NOWHERE: Place = Place(u64::MAX);

    fn offset(self) -> Option<u64> {
        (self.0 != u64::MAX).then_some(self.0)
    }
}

impl PartialEq for Place {
    fn eq(&self, _: &Place) -> bool {
        true
    }
}

impl Eq for Place {}

impl Hash for Place {
    fn hash<H: Hasher>(&self, _: &mut H) {}
}

impl fmt::Debug for Place {
    fn fmt(&self, f: &mut fmt::Formatter<'_>) -> fmt::Result {
        self.offset().fmt(f)
    }
}

/// An item of a stream. It borrows the bytes of the stream, and copies none. Where it begins is not compared.
#[derive(Clone, Copy, Debug, PartialEq, Eq, Hash)]
pub enum Item<'a> {
    /// A message of a named type, or a custom entry.
    Message(Message<'a>),
    /// Eight bytes with an unassigned code, before version 9: an item of its own, whatever comes after it.
    UnknownCode(UnknownCode),
    /// A message of an unknown type, which is skipped with its payload, from version 9 on.
    Skipped(Skipped<'a>),
}

/// A message of a stream of a version. Its header has the length of its payload, so neither can be replaced; a message
/// with another payload is made by [`Message::new`]:
///
/// ```compile_fail,E0616
/// # fn example(mut message: pendratsoa::Message<'_>) {
/// message.payload = b"another";
/// # }
/// ```
#[derive(Clone, Copy, Debug, PartialEq, Eq, Hash)]
pub struct Message<'a> {
    version: Version,
    code: u16,
    word: u64,
    requested_ack: bool,
    payload: &'a [u8],
    /// The payload as received, if it is another one. A slice would make each item longer.
    received: Option<&'a Vec<u8>>,
    offset: Place,
}

/// Eight bytes of a stream with an unassigned code, which are an item of its own before version 9. The programs call
/// them an unknown header.
#[derive(Clone, Copy, Debug, PartialEq, Eq, Hash)]
pub struct UnknownCode {
    version: Version,
    code: u16,
    word: u64,
    offset: Place,
}

/// A message of an unknown type.
#[derive(Clone, Copy, Debug, PartialEq, Eq, Hash)]
pub struct Skipped<'a> {
    version: Version,
    code: u16,
    word: u64,
    payload: &'a [u8],
    offset: Place,
}

impl<'a> Item<'a> {
    /// The version of its stream.
    #[must_use]
    pub fn version(&self) -> Version {
        match self {
            Item::Message(message) => message.version,
            Item::UnknownCode(unknown) => unknown.version,
            Item::Skipped(skipped) => skipped.version,
        }
    }

    /// The code of its type: the first two bytes of the item. That of an unknown code, or of what is skipped, is one
    /// that no type has.
    #[must_use]
    pub fn code(&self) -> u16 {
        match self {
            Item::Message(message) => message.code,
            Item::UnknownCode(unknown) => unknown.code,
            Item::Skipped(skipped) => skipped.code,
        }
    }

    /// The name of its type, as [`Message::type_name`] has it. [`Error::Unknown`] of what is not a message, since no
    /// type has its code.
    ///
    /// ```
    /// use pendratsoa::{Argument, Decoder, Error, Version};
    ///
    /// let mut decoder = Decoder::new(Version::V8);
    /// decoder.feed(&[0x04, 0, 0, 0, 0, 0, 0, 0, 0, 8, 0, 0, 0, 0, 0, 0])?;
    /// let items: Vec<_> = decoder.items().collect::<Result<_, _>>()?;
    /// assert_eq!(items[0].type_name()?, "InputCommand");
    /// assert!(items[0].is_command());
    /// assert_eq!((items[1].code(), items[1].is_command()), (8, false));
    /// assert_eq!(items[1].type_name(), Err(Error::Unknown(Argument::Code(8))));
    /// # Ok::<(), Error>(())
    /// ```
    pub fn type_name(&self) -> Result<String, Error> {
        type_name(self.code())
    }

    /// Whether it is a command, as [`Message::is_command`] tells of a message; false of what is not a message.
    #[must_use]
    pub fn is_command(&self) -> bool {
        matches!(self, Item::Message(message) if message.is_command())
    }

    /// Whether it is a notification, as [`Message::is_notification`] tells of a message; false of what is not a
    /// message.
    #[must_use]
    pub fn is_notification(&self) -> bool {
        matches!(self, Item::Message(message) if message.is_notification())
    }

    /// Where the item begins in its stream, in bytes. An item of a [`Decoder`](crate::Decoder) has an offset; one of
    /// [`next_item`] has none, since no stream is known there.
    #[must_use]
    pub fn offset(&self) -> Option<u64> {
        match self {
            Item::Message(message) => message.offset(),
            Item::UnknownCode(unknown) => unknown.offset(),
            Item::Skipped(skipped) => skipped.offset(),
        }
    }

    /// The item as one that begins at this offset of its stream.
    ///
    /// ```
    /// use pendratsoa::{next_item, Next, Version};
    ///
    /// let stream = [0, 3, 0, 0, 0, 0, 0, 0, 0, 3, 0, 0, 0, 0, 0, 0];
    /// let mut offset = 0;
    /// while let Next::Item { item, size } = next_item(Version::V8, &stream[offset..])? {
    ///     let item = item.with_offset(offset as u64);
    ///     assert_eq!(item.offset(), Some(offset as u64));
    ///     offset += size;
    /// }
    /// assert_eq!(offset, 16);
    /// # Ok::<(), pendratsoa::Error>(())
    /// ```
    #[must_use]
    pub fn with_offset(mut self, offset: u64) -> Item<'a> {
        let place = match &mut self {
            Item::Message(message) => &mut message.offset,
            Item::UnknownCode(unknown) => &mut unknown.offset,
            Item::Skipped(skipped) => &mut skipped.offset,
        };
        *place = Place(offset);
        self
    }

    /// The record of the payload, if the item is a message of the type of that record, and otherwise `None`, as
    /// [`Message::record`].
    ///
    /// ```
    /// use pendratsoa::messages::SetStateCommandMessage;
    /// use pendratsoa::{Decoder, Version};
    ///
    /// let mut decoder = Decoder::new(Version::V8);
    /// decoder.feed(b"\0\x03\0\0\0\0\0\0\x04\x03\0\0\0\0\0\x03\n\x01a")?;
    /// for item in decoder.items() {
    ///     if let Some(command) = item?.record::<SetStateCommandMessage>()? {
    ///         assert_eq!(*command.key, *b"a");
    ///     }
    /// }
    /// # Ok::<(), pendratsoa::Error>(())
    /// ```
    pub fn record<R: MessageRecord<'a>>(&self) -> Result<Option<R>, Error> {
        match self {
            Item::Message(message) => message.record(),
            Item::UnknownCode(_) | Item::Skipped(_) => Ok(None),
        }
    }

    /// The item with bytes of its own. [`Error::OutOfMemory`].
    pub fn into_owned(self) -> Result<OwnedItem, Error> {
        let (payload, received) = match self {
            Item::Message(message) => (message.payload, message.received),
            Item::UnknownCode(_) => (&[][..], None),
            Item::Skipped(skipped) => (skipped.payload, None),
        };
        Ok(OwnedItem {
            item: self.with_payload(&[], None),
            payload: copied(payload)?,
            received: received.map(|bytes| copied(bytes)).transpose()?,
        })
    }

    /// The item with another payload, if it has one, and with that as received if it is another one.
    fn with_payload<'b>(self, payload: &'b [u8], received: Option<&'b Vec<u8>>) -> Item<'b> {
        match self {
            Item::Message(message) => Item::Message(message.with_payload(payload, received)),
            Item::UnknownCode(unknown) => Item::UnknownCode(unknown),
            Item::Skipped(skipped) => Item::Skipped(Skipped { payload, ..skipped }),
        }
    }

    /// The header, or the eight bytes of an unknown code, and the payload after it: together the item as received.
    ///
    /// An item as received is what a proxy passes on if it does not change it.
    #[must_use]
    pub fn parts(&self) -> ([u8; 8], &'a [u8]) {
        let (word, payload) = match *self {
            Item::Message(message) => (message.word, message.received()),
            Item::UnknownCode(unknown) => (unknown.word, &[][..]),
            Item::Skipped(skipped) => (skipped.word, skipped.payload),
        };
        (word.to_be_bytes(), payload)
    }

    /// The item as received, byte for byte. [`Error::OutOfMemory`].
    ///
    /// ```
    /// use pendratsoa::{next_item, Next, Version};
    ///
    /// let stream = [0, 8, 0xFF, 0xFF, 0, 0, 0, 0];
    /// match next_item(Version::V8, &stream)? {
    ///     Next::Item { item, .. } => assert_eq!(item.to_bytes()?, stream),
    ///     Next::Missing(_) => unreachable!(),
    /// }
    /// # Ok::<(), pendratsoa::Error>(())
    /// ```
    pub fn to_bytes(&self) -> Result<Vec<u8>, Error> {
        let mut out = Vec::new();
        self.append_to(&mut out)?;
        Ok(out)
    }

    /// Appends the item as received. [`Error::OutOfMemory`] leaves the vector as it was.
    pub fn append_to(&self, out: &mut Vec<u8>) -> Result<(), Error> {
        let (header, payload) = self.parts();
        out.try_reserve(header.len() + payload.len())
            .map_err(|_| Error::OutOfMemory)?;
        out.extend_from_slice(&header);
        out.extend_from_slice(payload);
        Ok(())
    }

    /// Writes the item as received, by two calls of the writer. A socket is faster within a `BufWriter`.
    pub fn write_to<W: Write>(&self, mut writer: W) -> io::Result<()> {
        let (header, payload) = self.parts();
        writer.write_all(&header)?;
        writer.write_all(payload)
    }
}

/// The line of a listing, as `InputCommand 9`, with ` ack` if the header requests an acknowledgement; `unknown 0x8`, or
/// `skipped 0x8 2`.
impl fmt::Display for Item<'_> {
    fn fmt(&self, f: &mut fmt::Formatter<'_>) -> fmt::Result {
        match self {
            Item::Message(message) => {
                match message.type_name() {
                    Ok(name) => f.write_str(&name)?,
                    Err(_) => write!(f, "code {:#06x}", message.code)?,
                }
                let ack = if message.requested_ack { " ack" } else { "" };
                write!(f, " {}{ack}", message.payload.len())
            }
            Item::UnknownCode(unknown) => write!(f, "unknown {:#x}", unknown.code),
            Item::Skipped(skipped) => {
                write!(f, "skipped {:#x} {}", skipped.code, skipped.payload.len())
            }
        }
    }
}

/// An item with bytes of its own; [`OwnedItem::item`] is the item of them.
#[derive(Clone, Debug, PartialEq, Eq, Hash)]
pub struct OwnedItem {
    /// The item, without its payload.
    item: Item<'static>,
    payload: Vec<u8>,
    /// The payload as received, if it is another one.
    received: Option<Vec<u8>>,
}

impl OwnedItem {
    /// The item, which borrows the bytes of this one.
    #[must_use]
    pub fn item(&self) -> Item<'_> {
        self.item
            .with_payload(&self.payload, self.received.as_ref())
    }
}

/// Bytes in a vector of their own.
pub(crate) fn copied(bytes: &[u8]) -> Result<Vec<u8>, Error> {
    let mut copy = Vec::new();
    copy.try_reserve_exact(bytes.len())
        .map_err(|_| Error::OutOfMemory)?;
    copy.extend_from_slice(bytes);
    Ok(copy)
}

/// The line of a listing, as that of an [`Item`].
impl fmt::Display for OwnedItem {
    fn fmt(&self, f: &mut fmt::Formatter<'_>) -> fmt::Result {
        self.item().fmt(f)
    }
}

impl UnknownCode {
    /// The version of the stream.
    #[inline]
    #[must_use]
    pub fn version(&self) -> Version {
        self.version
    }

    /// The code that no type has.
    #[inline]
    #[must_use]
    pub fn code(&self) -> u16 {
        self.code
    }

    /// The eight bytes, as a big-endian number.
    #[inline]
    #[must_use]
    pub fn word(&self) -> u64 {
        self.word
    }

    /// Where the eight bytes begin in their stream, in bytes, as [`Item::offset`].
    #[must_use]
    pub fn offset(&self) -> Option<u64> {
        self.offset.offset()
    }
}

impl<'a> Skipped<'a> {
    /// The version of the stream.
    #[inline]
    #[must_use]
    pub fn version(&self) -> Version {
        self.version
    }

    /// The code that no type has.
    #[inline]
    #[must_use]
    pub fn code(&self) -> u16 {
        self.code
    }

    /// The header, as a big-endian number.
    #[inline]
    #[must_use]
    pub fn word(&self) -> u64 {
        self.word
    }

    /// The payload that is skipped, which borrows the stream.
    #[inline]
    #[must_use]
    pub fn payload(&self) -> &'a [u8] {
        self.payload
    }

    /// Where the message begins in its stream, in bytes, as [`Item::offset`].
    #[must_use]
    pub fn offset(&self) -> Option<u64> {
        self.offset.offset()
    }
}

impl<'a> From<Message<'a>> for Item<'a> {
    fn from(message: Message<'a>) -> Item<'a> {
        Item::Message(message)
    }
}

impl<'a> Message<'a> {
    /// The message of a type with a payload, as it would come in a stream of the version.
    ///
    /// The payload need not be well-formed. [`Error::Unknown`] if the code is unassigned; [`Error::TooLong`] if the
    /// payload has more than 4,294,967,295 bytes.
    ///
    /// ```
    /// use pendratsoa::{Message, MessageType, Version};
    ///
    /// let message = Message::new(Version::V8, MessageType::InputCommand.code(), &[])?;
    /// assert_eq!(message.frame()?, [0x04, 0, 0, 0, 0, 0, 0, 0]);
    /// # Ok::<(), pendratsoa::Error>(())
    /// ```
    pub fn new(version: Version, code: u16, payload: &'a [u8]) -> Result<Message<'a>, Error> {
        let word = u64::from_be_bytes(header(version, code, payload.len())?);
        // a header of no payload is a whole item; the library tells what it requests
        let header = header(version, code, 0)?;
        let requested_ack = match next_item(version, &header)? {
            Next::Item {
                item: Item::Message(message),
                ..
            } => message.requested_ack,
            _ => return Err(Error::unexpected("the header", word)),
        };
        Ok(Message {
            version,
            code,
            word,
            requested_ack,
            payload,
            received: None,
            offset: Place::NOWHERE,
        })
    }

    /// The message with another payload, and with that as received if it is another one.
    pub(crate) fn with_payload<'b>(
        self,
        payload: &'b [u8],
        received: Option<&'b Vec<u8>>,
    ) -> Message<'b> {
        Message {
            payload,
            received,
            ..self
        }
    }

    /// The payload as received.
    pub(crate) fn received(&self) -> &'a [u8] {
        self.received.map_or(self.payload, Vec::as_slice)
    }

    /// The message of a named type that a JSON text means, as it would come in a stream of the version. Its payload,
    /// which is canonical, takes the place of what the buffer holds.
    ///
    /// [`Error::Json`] if the text means no such message, [`Error::Unknown`] if no named type has the code;
    /// [`Error::TooLong`], [`Error::OutOfMemory`]. After an error the buffer is unchanged.
    ///
    /// ```
    /// use pendratsoa::{Message, MessageType, Version};
    ///
    /// let mut payload = Vec::new();
    /// let code = MessageType::SleepCommand.code();
    /// let message = Message::from_json(Version::V8, code, r#"{"wakeUpTime": 5}"#, &mut payload)?;
    /// assert_eq!(message.json()?, r#"{"wakeUpTime":"5"}"#);
    /// # Ok::<(), pendratsoa::Error>(())
    /// ```
    pub fn from_json(
        version: Version,
        code: u16,
        json: impl AsRef<[u8]>,
        buffer: &'a mut Vec<u8>,
    ) -> Result<Message<'a>, Error> {
        *buffer = from_json(schema(version, code)?, json)?;
        Message::new(version, code, buffer)
    }

    /// The message of a record, whose type follows from the record, as it would come in a stream of the version. Its
    /// frame takes the place of what the buffer holds, and has the payload in it.
    ///
    /// The errors are those of [`MessageRecord::frame`]. After an error the buffer is unchanged.
    ///
    /// ```
    /// use pendratsoa::messages::SleepCommandMessage;
    /// use pendratsoa::{Message, Version};
    ///
    /// let sleep = SleepCommandMessage { wake_up_time: 5, ..Default::default() };
    /// let mut buffer = Vec::new();
    /// let message = Message::from_record(Version::V8, &sleep, &mut buffer)?;
    /// assert_eq!(message.type_name()?, "SleepCommand");
    /// assert_eq!(message.record()?, Some(sleep));
    /// # Ok::<(), pendratsoa::Error>(())
    /// ```
    pub fn from_record<'r, R: MessageRecord<'r>>(
        version: Version,
        record: &R,
        buffer: &'a mut Vec<u8>,
    ) -> Result<Message<'a>, Error> {
        *buffer = record.frame(version)?;
        Message::new(version, R::TYPE.code(), &buffer[HEADER..])
    }

    /// The version of the stream.
    #[inline]
    #[must_use]
    pub fn version(&self) -> Version {
        self.version
    }

    /// The code of the type.
    #[inline]
    #[must_use]
    pub fn code(&self) -> u16 {
        self.code
    }

    /// The header, as a big-endian number.
    #[inline]
    #[must_use]
    pub fn word(&self) -> u64 {
        self.word
    }

    /// Whether the header requests an acknowledgement.
    #[inline]
    #[must_use]
    pub fn requested_ack(&self) -> bool {
        self.requested_ack
    }

    /// The payload as received, which need not be well-formed. It borrows the stream, and not the message.
    ///
    /// That of a decoder with a [`Numbering`](crate::Numbering) is at the numbers of the protocol.
    #[inline]
    #[must_use]
    pub fn payload(&self) -> &'a [u8] {
        self.payload
    }

    /// Where the message begins in its stream, in bytes, as [`Item::offset`]; `None` of one received in no stream. An
    /// error of the payload has it too ([`Error::offset`]).
    #[must_use]
    pub fn offset(&self) -> Option<u64> {
        self.offset.offset()
    }

    /// The error, which says of which message it is if it is one of the payload.
    fn located(&self, error: Error) -> Error {
        error.of_message(self.code, self.offset())
    }

    /// The type, or `None` if this crate knows none of the code, as of a type that a later library has.
    #[must_use]
    pub fn message_type(&self) -> Option<MessageType> {
        MessageType::from_code(self.code)
    }

    /// The name of the type, as [`type_name`] has it. [`Error::Unknown`] if no type has the code.
    pub fn type_name(&self) -> Result<String, Error> {
        type_name(self.code)
    }

    /// Whether it is a command, by its code.
    ///
    /// A custom entry is a message of any code that no named type has, with one of its upper six bits set, `0x0400` and
    /// above. By its code it may count as a command or a notification; a replay does not compare it.
    #[must_use]
    pub fn is_command(&self) -> bool {
        self.message_type().map_or(false, MessageType::is_command)
    }

    /// Whether it is a notification, by its code. A custom entry may count as one, as [`Message::is_command`] says.
    #[must_use]
    pub fn is_notification(&self) -> bool {
        self.message_type()
            .map_or(false, MessageType::is_notification)
    }

    /// The number of the payload's schema. A custom entry has none: [`Error::Unknown`].
    pub fn schema(&self) -> Result<u32, Error> {
        schema(self.version, self.code)
    }

    /// The record that the payload means, which borrows it where it is canonical; `None` for a custom entry, which has
    /// no record.
    ///
    /// [`Error::Malformed`], [`Error::TooLong`], [`Error::OutOfMemory`]. [`Message::record`] reads the record of one
    /// type.
    ///
    /// ```
    /// use pendratsoa::messages::AnyMessage;
    /// use pendratsoa::{Message, MessageType, Version};
    ///
    /// let message = Message::new(Version::V8, MessageType::SetStateCommand.code(), b"\n\x01a\x1a\x03\n\x011")?;
    /// if let Some(AnyMessage::SetStateCommand(command)) = message.message()? {
    ///     assert_eq!(*command.key, *b"a");
    ///     assert_eq!(*command.value.unwrap().content, *b"1");
    /// }
    /// # Ok::<(), pendratsoa::Error>(())
    /// ```
    pub fn message(&self) -> Result<Option<AnyMessage<'a>>, Error> {
        let schema = match self.schema() {
            // a message has a type, and only that of a custom entry has no schema
            Err(Error::Unknown(_)) => return Ok(None),
            schema => schema?,
        };
        AnyMessage::read(schema, self.payload)
            .unwrap_or_else(|| Err(Error::unexpected("the schema", schema)))
            .map(Some)
            .map_err(|error| self.located(error))
    }

    /// The record of the payload, if the message is of the type of that record, and otherwise `None`; it borrows the
    /// payload where it is canonical. The payload of another type is not looked at.
    ///
    /// [`Error::Malformed`], [`Error::TooLong`], [`Error::OutOfMemory`].
    ///
    /// ```
    /// use pendratsoa::messages::{SetStateCommandMessage, SleepCommandMessage};
    /// use pendratsoa::{Message, MessageType, Version};
    ///
    /// let message = Message::new(Version::V8, MessageType::SetStateCommand.code(), b"\n\x01a\x1a\x03\n\x011")?;
    /// if let Some(command) = message.record::<SetStateCommandMessage>()? {
    ///     assert_eq!(*command.key, *b"a");
    /// }
    /// assert_eq!(message.record::<SleepCommandMessage>()?, None);
    /// # Ok::<(), pendratsoa::Error>(())
    /// ```
    pub fn record<R: MessageRecord<'a>>(&self) -> Result<Option<R>, Error> {
        if self.code != R::TYPE.code() || self.schema()? != R::SCHEMA.number() {
            return Ok(None);
        }
        R::decode(self.payload)
            .map(Some)
            .map_err(|error| self.located(error))
    }

    /// The JSON of what the payload means, as [`to_json`] writes it.
    pub fn json(&self) -> Result<String, Error> {
        to_json(self.schema()?, self.payload).map_err(|error| self.located(error))
    }

    /// The canonical encoding of the payload.
    pub fn canonical(&self) -> Result<Vec<u8>, Error> {
        canonical(self.schema()?, self.payload).map_err(|error| self.located(error))
    }

    /// The frame of the message at its own version: a header, and the canonical payload after it.
    ///
    /// Whether it requests an acknowledgement is decided by the type and the version, whatever the message does.
    pub fn frame(&self) -> Result<Vec<u8>, Error> {
        self.frame_at(self.version)
    }

    /// The frame of the message at a version, as [`Message::frame`].
    ///
    /// [`Error::NoFrame`] at a version that cannot have the payload: a suspension from before version 7 has no frame
    /// from 7 on, and one since then has a frame at each.
    pub fn frame_at(&self, version: Version) -> Result<Vec<u8>, Error> {
        let mut out = Vec::new();
        self.append_frame_at(version, &mut out)?;
        Ok(out)
    }

    fn append_frame_at(&self, version: Version, out: &mut Vec<u8>) -> Result<usize, Error> {
        match earlier_schema(self.version, self.code) {
            Some(earlier) => {
                append_earlier_frame(version, self.code, earlier, &self.canonical()?, out)
            }
            None => append_frame(version, self.code, self.payload, out)
                .map_err(|error| self.located(error)),
        }
    }

    /// Appends the frame of the message at its own version, as [`Message::frame`], and returns its length. An error
    /// leaves the vector as it was.
    ///
    /// ```
    /// use pendratsoa::{Message, MessageType, Version};
    ///
    /// let mut out = Vec::new();
    /// let message = Message::new(Version::V8, MessageType::InputCommand.code(), &[])?;
    /// assert_eq!(message.append_frame(&mut out)?, 8);
    /// message.append_frame(&mut out)?;
    /// assert_eq!(out.len(), 16);
    /// # Ok::<(), pendratsoa::Error>(())
    /// ```
    pub fn append_frame(&self, out: &mut Vec<u8>) -> Result<usize, Error> {
        self.append_frame_at(self.version, out)
    }

    /// Writes the frame of the message at its own version, as [`Message::frame`]. What is not an error of the writer is
    /// one that holds the [`Error`], of the kind `InvalidData`, or `OutOfMemory`.
    pub fn write_frame<W: Write>(&self, mut writer: W) -> io::Result<()> {
        writer.write_all(&self.frame()?)
    }

    /// The id and the result, if it is a notification.
    ///
    /// [`Error::Unknown`] if it is none; [`Error::Malformed`], [`Error::NoId`], [`Error::NoResult`],
    /// [`Error::OutOfMemory`].
    pub fn notification(&self) -> Result<Notification, Error> {
        notification(self.code, self.payload).map_err(|error| self.located(error))
    }
}

/// What bytes of a stream begin with.
#[derive(Clone, Copy, Debug, PartialEq, Eq, Hash)]
pub enum Next<'a> {
    /// A whole item.
    Item {
        /// The item.
        item: Item<'a>,
        /// Its size in bytes, header and payload.
        size: usize,
    },
    /// No whole item: the least number of bytes that are missing, one or more.
    Missing(usize),
}

/// Finds the item that bytes of a stream of a version begin with. It copies nothing and does not allocate.
///
/// For streams that come in chunks, a [`Decoder`](crate::Decoder) keeps the pending bytes.
///
/// ```
/// use pendratsoa::{next_item, Item, Next, Version};
///
/// let mut bytes: &[u8] = &[0, 3, 0, 0, 0, 0, 0, 0, 0, 3];
/// while let Next::Item { item, size } = next_item(Version::V8, bytes)? {
///     assert!(matches!(item, Item::Message(message) if message.code() == 3));
///     bytes = &bytes[size..];
/// }
/// assert_eq!(next_item(Version::V8, bytes)?, Next::Missing(6));
/// # Ok::<(), pendratsoa::Error>(())
/// ```
pub fn next_item(version: Version, bytes: &[u8]) -> Result<Next<'_>, Error> {
    let mut numbers = [0; 6];
    let missing = ffi::next(version.into(), bytes, &mut numbers)
        .map_err(|refusal| Error::of(refusal, |_| Argument::Stream(bytes.len())))?;
    next_of(version, bytes, missing, &numbers)
}

/// Finds the item that bytes begin with, as [`next_item`], if its payload has at most `limit` bytes.
///
/// [`Error::MessageTooLong`] as soon as the eight bytes of a header are there that announces more. Its offset is 0,
/// since the message begins where the bytes do. The header does not count: a message that is over the limit only with
/// its header is taken.
///
/// ```
/// use pendratsoa::{next_item_within, Error, Version};
///
/// let endless = [0, 0, 0, 0, 0xFF, 0xFF, 0xFF, 0xFF];
/// match next_item_within(Version::V8, 1_000, &endless) {
///     Err(Error::MessageTooLong(error)) => assert_eq!(error.length, 4_294_967_295),
///     other => panic!("{other:?}"),
/// }
/// ```
pub fn next_item_within(version: Version, limit: u32, bytes: &[u8]) -> Result<Next<'_>, Error> {
    let mut numbers = [0; 6];
    let missing =
        ffi::next_within(version.into(), limit, bytes, &mut numbers).map_err(|refusal| {
            match refusal {
                Refusal::TooLong => Error::MessageTooLong(MessageTooLong::of(bytes, limit, 0)),
                refusal => Error::of(refusal, |_| Argument::Stream(bytes.len())),
            }
        })?;
    next_of(version, bytes, missing, &numbers)
}

/// What bytes begin with: this many are missing, or there is an item of these numbers.
fn next_of<'a>(
    version: Version,
    bytes: &'a [u8],
    missing: usize,
    numbers: &ItemNumbers,
) -> Result<Next<'a>, Error> {
    if missing > 0 {
        return Ok(Next::Missing(missing));
    }
    let (item, size) = item_of(version, bytes, numbers, Place::NOWHERE)?;
    Ok(Next::Item { item, size })
}

/// The message of these numbers, which the bytes begin with, at its place, and its size in bytes. `None` if they are
/// those of something else, as [`item_of`] tells.
#[inline]
pub(crate) fn message_of<'a>(
    version: Version,
    bytes: &'a [u8],
    numbers: &ItemNumbers,
    offset: Place,
) -> Option<(Message<'a>, usize)> {
    let [kind, word, code, ack, size, begin] = *numbers;
    if kind != ITEM_MESSAGE {
        return None;
    }
    let code = u16::try_from(code).ok()?;
    let size = usize::try_from(size).ok()?;
    let message = Message {
        version,
        code,
        word,
        requested_ack: ack == 1,
        payload: bytes.get(usize::try_from(begin).ok()?..size)?,
        received: None,
        offset,
    };
    Some((message, size))
}

/// The item of these numbers, which the bytes begin with, at its place, and its size in bytes.
pub(crate) fn item_of<'a>(
    version: Version,
    bytes: &'a [u8],
    numbers: &ItemNumbers,
    offset: Place,
) -> Result<(Item<'a>, usize), Error> {
    let [kind, word, code, ack, size, begin] = *numbers;
    let code = narrowed("the code", code)?;
    let size = narrowed("the size", size)?;
    let begin: usize = narrowed("the payload's index", begin)?;
    let payload = bytes
        .get(begin..size)
        .ok_or_else(|| Error::unexpected("the size", size))?;
    let item = match kind {
        ITEM_MESSAGE => Item::Message(Message {
            version,
            code,
            word,
            requested_ack: ack == 1,
            payload,
            received: None,
            offset,
        }),
        ITEM_UNKNOWN_CODE => Item::UnknownCode(UnknownCode {
            version,
            code,
            word,
            offset,
        }),
        ITEM_SKIPPED => Item::Skipped(Skipped {
            version,
            code,
            word,
            payload,
            offset,
        }),
        kind => return Err(Error::unexpected("the kind of item", kind)),
    };
    Ok((item, size))
}

#[cfg(test)]
mod tests {
    use super::*;

    const BYTES: [u8; 10] = [0xFC, 1, 0, 0, 0, 0, 0, 2, 7, 8];

    fn kind(kind: u64) -> Result<(Item<'static>, usize), Error> {
        item_of(
            Version::V8,
            &BYTES,
            &[kind, 5, 0xFC01, 1, 10, 8],
            Place::NOWHERE,
        )
    }

    #[test]
    fn each_kind_is_an_item() {
        let (version, code, word, payload) = (Version::V8, 0xFC01, 5, &BYTES[8..]);
        let (requested_ack, offset) = (true, Place::NOWHERE);
        for (number, item) in [
            (
                0,
                Item::Message(Message {
                    version,
                    code,
                    word,
                    requested_ack,
                    payload,
                    received: None,
                    offset,
                }),
            ),
            (
                1,
                Item::UnknownCode(UnknownCode {
                    version,
                    code,
                    word,
                    offset,
                }),
            ),
            (
                2,
                Item::Skipped(Skipped {
                    version,
                    code,
                    word,
                    payload,
                    offset,
                }),
            ),
        ] {
            assert_eq!(kind(number), Ok((item, 10)));
        }
    }

    #[test]
    fn numbers_of_a_later_library_are_errors() {
        let unexpected = |text: &str| Err(Error::Unexpected(text.to_owned()));
        assert_eq!(kind(3), unexpected("the kind of item 3"));
        assert_eq!(
            kind(u64::MAX),
            unexpected("the kind of item 18446744073709551615")
        );
        assert_eq!(
            item_of(
                Version::V8,
                &BYTES,
                &[0, 0, 0x1_0000, 0, 10, 8],
                Place::NOWHERE
            ),
            unexpected("the code 65536")
        );
        assert_eq!(
            item_of(Version::V8, &BYTES, &[0, 0, 0, 0, 11, 8], Place::NOWHERE),
            unexpected("the size 11")
        );
        assert_eq!(
            item_of(Version::V8, &BYTES, &[0, 0, 0, 0, 10, 11], Place::NOWHERE),
            unexpected("the size 10")
        );
    }
}
