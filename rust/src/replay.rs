//! A replay that is checked by its recording, item by item.

use std::error;
use std::fmt;
use std::mem;

use crate::calls::{of_commands, text};
use crate::error::{narrowed, Argument, Error};
use crate::ffi::{self, Refusal, REPLAY_IGNORE_IDS, REPLAY_IGNORE_PAYLOADS};
use crate::item::{next_item, Item, Message, Next};
use crate::journals::{kind_of, VerdictKind};
use crate::version::Version;

/// How many bytes a header has.
const HEADER: usize = 8;

/// A field in which two commands differ, as the text of their mismatch prints it.
///
/// A text is as it is in the journal, of any length and with any control characters; bytes are quoted. Escape both
/// values before you print them in a line, as `{:?}` does.
#[derive(Clone, Debug, PartialEq, Eq, Hash)]
#[non_exhaustive]
pub struct ChangedField {
    /// The name of the field in the .proto.
    pub name: String,
    /// What the recorded command has, which is not escaped.
    pub recorded: String,
    /// What the replayed command has, which is not escaped.
    pub replayed: String,
}

/// Where a replay leaves its recording: all commands before this one are the same.
///
/// It displays as one sentence: which command it is, and how the journals differ there. That has the names of changed
/// fields, and never their values.
///
/// ```
/// use pendratsoa::{Decoder, Ignored, Replay, Version};
///
/// // the recorded command clears the state `a`, and the replayed one `b`
/// let recorded = b"\x04\x04\0\0\0\0\0\x03\n\x01a";
/// let mut replay = Replay::new(Version::V8, recorded, Ignored::default());
/// let mut decoder = Decoder::new(Version::V8);
/// decoder.feed(b"\x04\x04\0\0\0\0\0\x03\n\x01b")?;
/// let mismatch = replay.check(&decoder.items().next().unwrap()?)?.unwrap();
/// assert_eq!(mismatch.to_string(), "command 0 differs from the recorded one in key");
/// # Ok::<(), pendratsoa::Error>(())
/// ```
#[derive(Clone, Debug, PartialEq, Eq, Hash)]
#[non_exhaustive]
pub struct Mismatch {
    /// Which verdict it is, and never [`VerdictKind::Same`].
    pub kind: VerdictKind,
    /// The index of the command, from 0.
    pub index: usize,
    /// Where the recorded command begins in the recording, in bytes. If the recording has ended, where its last command
    /// begins, or `None` if it has none.
    pub recorded_offset: Option<u64>,
    /// Where the replayed command begins in the replay, in bytes, or where the replay ends.
    pub replayed_offset: u64,
    /// The text of a mismatch of two commands, as the SDKs report it, otherwise empty. It has the values of fields as
    /// they are, as [`ChangedField`] does.
    pub text: String,
    /// The printed fields in which two commands of one type differ. Empty if the commands differ only in what is not
    /// printed, such as the name of most commands.
    pub fields: Vec<ChangedField>,
}

impl fmt::Display for Mismatch {
    fn fmt(&self, f: &mut fmt::Formatter<'_>) -> fmt::Result {
        let (before, after) = match self.kind {
            VerdictKind::Same => ("command", "is the same as the recorded one"),
            VerdictKind::RecordedEnded => ("the recording ended before command", "of the replay"),
            VerdictKind::ReplayedEnded => ("the replay ended before command", "of the recording"),
            VerdictKind::TypeMismatch => ("command", "is of another type than the recorded one"),
            VerdictKind::HeaderMismatch => ("command", "differs from the recorded one in "),
            VerdictKind::BadRecorded => ("the recorded command", "is malformed"),
            VerdictKind::BadReplayed => ("the replayed command", "is malformed"),
        };
        write!(f, "{before} {} {after}", self.index)?;
        match self.kind {
            VerdictKind::HeaderMismatch => write_names(f, &self.fields),
            _ => Ok(()),
        }
    }
}

impl error::Error for Mismatch {}

/// Writes the names of the fields in which two commands differ.
fn write_names(f: &mut fmt::Formatter<'_>, fields: &[ChangedField]) -> fmt::Result {
    if fields.is_empty() {
        return f.write_str("what is not printed");
    }
    for (place, field) in fields.iter().enumerate() {
        let before = if place == 0 { "" } else { ", " };
        write!(f, "{before}{}", field.name)?;
    }
    Ok(())
}

/// What a replay does not compare: nothing by default.
#[derive(Clone, Copy, Debug, Default, PartialEq, Eq, Hash)]
pub struct Ignored {
    /// Whether the content of user data is ignored, but not that of a signal.
    pub payloads: bool,
    /// Whether completion ids are, which shift after an inserted command.
    pub ids: bool,
}

/// A replay of a version, which is checked by its recording as it comes. It keeps nothing of the replay. A
/// clone goes on by itself.
///
/// ```
/// use pendratsoa::{Decoder, Ignored, Replay, VerdictKind, Version};
///
/// let recorded = [0x04, 0x0C, 0, 0, 0, 0, 0, 0, 0x04, 0x05, 0, 0, 0, 0, 0, 0];
/// let mut replay = Replay::new(Version::V8, &recorded, Ignored::default());
/// let mut decoder = Decoder::new(Version::V8);
/// decoder.feed(&recorded[..8])?;
/// for item in decoder.items() {
///     assert_eq!(replay.check(&item?)?, None);
/// }
/// assert_eq!(replay.expected()?.map(|command| command.offset()), Some(Some(8)));
/// let left = replay.finish()?.unwrap();
/// assert_eq!((left.kind, left.index), (VerdictKind::ReplayedEnded, 1));
/// # Ok::<(), pendratsoa::Error>(())
/// ```
#[derive(Clone, Debug)]
pub struct Replay<'a> {
    version: Version,
    recorded: &'a [u8],
    numbers: [u64; 6],
}

impl<'a> Replay<'a> {
    /// A replay of a version that is checked by a recording, which is a whole journal: [`Replay::recorded_rest`] tells
    /// whether it ends with a whole item.
    #[must_use]
    pub fn new(version: Version, recorded: &'a [u8], ignored: Ignored) -> Replay<'a> {
        let options = u64::from(ignored.payloads) * REPLAY_IGNORE_PAYLOADS
            + u64::from(ignored.ids) * REPLAY_IGNORE_IDS;
        Replay {
            version,
            recorded,
            numbers: [u32::from(version).into(), options, 0, 0, 0, 0],
        }
    }

    /// The version of the replay.
    #[must_use]
    pub fn version(&self) -> Version {
        self.version
    }

    /// How many commands were the same, which is the index of the one that comes next.
    #[must_use]
    pub fn index(&self) -> usize {
        // they are in the recording, which is in memory
        usize::try_from(self.numbers[2]).unwrap_or(usize::MAX)
    }

    /// Checks the next item of the replay by the command that comes next in the recording.
    ///
    /// `None` if there is nothing to report: the commands are the same, or the item is not a command. A mismatch is
    /// returned once: afterwards nothing is compared. [`compare_journals`](crate::compare_journals) of the recording
    /// and of all items so far has the same kind, index and text. [`Error::OutOfMemory`] changes nothing, so that the
    /// call can be repeated.
    pub fn check(&mut self, item: &Item<'_>) -> Result<Option<Mismatch>, Error> {
        let (code, payload) = parts(item);
        let (before, mut mismatch) = (self.numbers, [0; 6]);
        // an error of it changes nothing
        let said = ffi::replay_check(
            code,
            self.recorded,
            payload,
            &mut self.numbers,
            &mut mismatch,
        )
        .map_err(|refusal| of_item(refusal, payload))?;
        if let Item::Message(message) = item {
            // the library counts the bytes of the payload, which are others than those received if a numbering read it
            if self.numbers[4] != before[4] {
                self.numbers[4] = self.numbers[4]
                    .wrapping_add(message.received().len() as u64)
                    .wrapping_sub(payload.len() as u64);
            }
        }
        if said == 0 {
            return Ok(None);
        }
        self.left(before, mismatch, code, payload).map(Some)
    }

    /// The mismatch of these numbers, which was said of an item. The replay goes on after it once all of it is there.
    #[cold]
    fn left(
        &mut self,
        before: [u64; 6],
        mismatch: [u64; 6],
        code: u16,
        payload: &[u8],
    ) -> Result<Mismatch, Error> {
        let after = mem::replace(&mut self.numbers, before);
        let found = self.mismatch(mismatch, code, payload)?;
        self.numbers = after;
        Ok(found)
    }

    /// The command that comes next in the recording, which is not taken; `None` if there is none.
    ///
    /// Its offset is that in the recording, its payload a part of it, and its record has the name or the key of a
    /// command that has one. After a mismatch it is the command at the index of that.
    pub fn expected(&self) -> Result<Option<Message<'a>>, Error> {
        let [offset, _, size] = match self.command()? {
            Some(numbers) => numbers,
            None => return Ok(None),
        };
        match next_item(self.version, self.part(offset, size, 0)?)? {
            Next::Item { item, .. } => match item.with_offset(offset) {
                Item::Message(message) => Ok(Some(message)),
                _ => Err(Error::unexpected("a command at offset", offset)),
            },
            Next::Missing(_) => Err(Error::unexpected("a command at offset", offset)),
        }
    }

    /// Says that the replay ended. `None` if nothing is left of the recording, or a mismatch was reported.
    ///
    /// Otherwise it is the mismatch of the command that comes next, whose kind is [`VerdictKind::ReplayedEnded`]. It
    /// changes nothing.
    pub fn finish(&self) -> Result<Option<Mismatch>, Error> {
        let mut mismatch = [0; 6];
        let left = ffi::replay_finish(self.recorded, &self.numbers, &mut mismatch)
            .map_err(|refusal| of_item(refusal, &[]))?;
        if left == 0 {
            return Ok(None);
        }
        self.mismatch(mismatch, 0, &[]).map(Some)
    }

    /// How many bytes of the recording follow its last whole item, which are not compared: 0 of a whole one.
    ///
    /// It walks over the recording, and changes nothing. Nothing else tells a recording that is cut from one that
    /// ended.
    ///
    /// ```
    /// use pendratsoa::{Ignored, Replay, Version};
    ///
    /// let recorded = [0x04, 0x0C, 0, 0, 0, 0, 0, 0, 0x04, 0x05, 0];
    /// let replay = Replay::new(Version::V8, &recorded, Ignored::default());
    /// assert_eq!(replay.recorded_rest()?, 3);
    /// # Ok::<(), pendratsoa::Error>(())
    /// ```
    pub fn recorded_rest(&self) -> Result<usize, Error> {
        // whatever is before the command that comes next is whole
        let begin = self.command()?.map_or(0, |[offset, _, _]| offset);
        let mut rest = usize::try_from(begin)
            .ok()
            .and_then(|begin| self.recorded.get(begin..))
            .ok_or_else(|| Error::unexpected("the offset", begin))?;
        while let Next::Item { size, .. } = next_item(self.version, rest)? {
            rest = &rest[size..];
        }
        Ok(rest.len())
    }

    /// The offset, the code and the size of the command that comes next in the recording.
    fn command(&self) -> Result<Option<[u64; 3]>, Error> {
        let mut command = [0; 3];
        let count = ffi::replay_expected(self.recorded, &self.numbers, &mut command)
            .map_err(|refusal| of_item(refusal, &[]))?;
        Ok((count > 0).then_some(command))
    }

    /// The mismatch of these numbers, of an item.
    fn mismatch(&self, numbers: [u64; 6], code: u16, payload: &[u8]) -> Result<Mismatch, Error> {
        let [kind, index, replayed_offset, recorded_offset, _, size] = numbers;
        let kind = kind_of(kind)?;
        let mut found = Mismatch {
            kind,
            index: narrowed("the index of a command", index)?,
            recorded_offset: (size > 0).then_some(recorded_offset),
            replayed_offset,
            text: String::new(),
            fields: Vec::new(),
        };
        if matches!(
            kind,
            VerdictKind::TypeMismatch | VerdictKind::HeaderMismatch
        ) {
            let bytes = ffi::replay_text(code, self.recorded, payload, &self.numbers)
                .map_err(|refusal| of_item(refusal, payload))?;
            found.text = text(bytes)?;
        }
        if kind == VerdictKind::HeaderMismatch {
            let recorded = self.part(recorded_offset, size, HEADER)?;
            found.fields = changed_fields(code, recorded, payload)?;
        }
        Ok(found)
    }

    /// The bytes of a command of the recording, without the first of them.
    fn part(&self, offset: u64, size: u64, without: usize) -> Result<&'a [u8], Error> {
        let begin: usize = narrowed("the offset", offset)?;
        let size: usize = narrowed("the size", size)?;
        self.recorded
            .get(begin..)
            .and_then(|rest| rest.get(..size)?.get(without..))
            .ok_or_else(|| Error::unexpected("the offset", offset))
    }
}

/// The error of a call that takes the payload of an item.
fn of_item(refusal: Refusal, payload: &[u8]) -> Error {
    Error::of(refusal, |_| Argument::Payload(payload.len()))
}

/// The code and the payload of an item.
fn parts<'i>(item: &Item<'i>) -> (u16, &'i [u8]) {
    match item {
        Item::Message(message) => (message.code(), message.payload()),
        Item::UnknownCode(unknown) => (unknown.code(), &[]),
        Item::Skipped(skipped) => (skipped.code(), skipped.payload()),
    }
}

/// The printed fields in which two commands of a type differ.
fn changed_fields(code: u16, recorded: &[u8], replayed: &[u8]) -> Result<Vec<ChangedField>, Error> {
    let mut fields = Vec::new();
    for index in 0..=u32::MAX {
        let mut lengths = [0; 3];
        let bytes = ffi::changed_field(code, index, recorded, replayed, &mut lengths)
            .map_err(|refusal| of_commands(refusal, code, recorded, replayed))?;
        if bytes.is_empty() {
            break;
        }
        fields.try_reserve(1).map_err(|_| Error::OutOfMemory)?;
        fields.push(changed_field(lengths, &bytes)?);
    }
    Ok(fields)
}

/// The field of these lengths and bytes.
fn changed_field(lengths: [u64; 3], bytes: &[u8]) -> Result<ChangedField, Error> {
    let mut rest = bytes;
    let mut taken = |length: u64| {
        let length: usize = narrowed("the length of a field", length)?;
        let part = rest
            .get(..length)
            .ok_or_else(|| Error::unexpected("the length of a field", length))?;
        rest = &rest[length..];
        text(part.to_vec())
    };
    let [name, recorded, replayed] = lengths;
    Ok(ChangedField {
        name: taken(name)?,
        recorded: taken(recorded)?,
        replayed: taken(replayed)?,
    })
}

#[cfg(test)]
mod tests {
    use super::*;

    /// A mismatch at the command 2, in fields of these names.
    fn mismatch(kind: VerdictKind, names: &[&str]) -> Mismatch {
        let field = |name: &&str| ChangedField {
            name: (*name).to_owned(),
            recorded: "a\n".to_owned(),
            replayed: "b\n".to_owned(),
        };
        Mismatch {
            kind,
            index: 2,
            recorded_offset: Some(39),
            replayed_offset: 39,
            text: "a != b\n".to_owned(),
            fields: names.iter().map(field).collect(),
        }
    }

    #[test]
    fn each_kind_of_mismatch_is_a_sentence() {
        use VerdictKind::*;
        for (kind, names, text) in [
            (Same, &[][..], "command 2 is the same as the recorded one"),
            (
                RecordedEnded,
                &[],
                "the recording ended before command 2 of the replay",
            ),
            (
                ReplayedEnded,
                &[],
                "the replay ended before command 2 of the recording",
            ),
            (
                TypeMismatch,
                &[],
                "command 2 is of another type than the recorded one",
            ),
            (
                HeaderMismatch,
                &[],
                "command 2 differs from the recorded one in what is not printed",
            ),
            (
                HeaderMismatch,
                &["key"],
                "command 2 differs from the recorded one in key",
            ),
            (
                HeaderMismatch,
                &["service_name", "key"],
                "command 2 differs from the recorded one in service_name, key",
            ),
            (BadRecorded, &[], "the recorded command 2 is malformed"),
            (BadReplayed, &[], "the replayed command 2 is malformed"),
        ] {
            let error: Box<dyn error::Error> = mismatch(kind, names).into();
            assert_eq!(error.to_string(), text);
        }
    }

    #[test]
    fn numbers_of_a_later_library() {
        let replay = Replay::new(Version::V8, &[], Ignored::default());
        for numbers in [[7, 0, 0, 0, 0, 0], [4, 0, 0, 0, 0, 8], [4, 0, 0, 9, 0, 8]] {
            assert!(replay.mismatch(numbers, 0x0405, &[]).is_err());
        }
        assert!(changed_field([1, 1, 2], b"abc").is_err());
        assert!(changed_field([u64::MAX, 1, 1], b"abc").is_err());
        let field = changed_field([1, 0, 2], b"abc").unwrap();
        assert_eq!(
            (&*field.name, &*field.recorded, &*field.replayed),
            ("a", "", "bc")
        );
    }
}
