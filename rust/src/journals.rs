//! Journals compared.

use crate::calls::text;
use crate::error::{narrowed, Argument, Error};
use crate::ffi;
use crate::version::Version;

/// How two journals compare.
#[derive(Clone, Debug, PartialEq, Eq, Hash)]
#[non_exhaustive]
pub struct Verdict {
    /// Whether they are the same, and otherwise how they differ.
    pub kind: VerdictKind,
    /// The index of the first command that differs; if they are the same, the number of their commands.
    pub index: usize,
    /// The text of a mismatch, as the SDKs report it, otherwise empty.
    pub text: String,
}

/// The ways in which two journals compare.
#[derive(Clone, Copy, Debug, PartialEq, Eq, Hash)]
#[non_exhaustive]
pub enum VerdictKind {
    /// Each command is the same as the other's at its index.
    Same,
    /// The replayed journal has a command more.
    RecordedEnded,
    /// The recorded journal has a command more.
    ReplayedEnded,
    /// The first commands that differ are of two types.
    TypeMismatch,
    /// The first commands that differ are of one type.
    HeaderMismatch,
    /// The recorded command is malformed; all before it are the same.
    BadRecorded,
    /// The replayed command is malformed, and the recorded one is not; all before it are the same.
    BadReplayed,
}

/// The kinds of verdicts, each at its number.
const KINDS: [VerdictKind; 7] = [
    VerdictKind::Same,
    VerdictKind::RecordedEnded,
    VerdictKind::ReplayedEnded,
    VerdictKind::TypeMismatch,
    VerdictKind::HeaderMismatch,
    VerdictKind::BadRecorded,
    VerdictKind::BadReplayed,
];

/// Compares a recorded journal with a replayed one, both streams of a version, command by command.
///
/// Other items, and trailing bytes, are skipped. If `ignore_payloads`, the content of user data is not compared, but
/// that of a signal is. [`Error::OutOfMemory`]. A malformed command is not an error, but a verdict.
///
/// ```
/// use pendratsoa::{compare_journals, VerdictKind, Version};
///
/// let recorded = [0x04, 0, 0, 0, 0, 0, 0, 0, 0x04, 0x05, 0, 0, 0, 0, 0, 0];
/// let verdict = compare_journals(Version::V8, &recorded, &recorded[..8], false)?;
/// assert_eq!((verdict.kind, verdict.index), (VerdictKind::ReplayedEnded, 1));
/// # Ok::<(), pendratsoa::Error>(())
/// ```
pub fn compare_journals(
    version: Version,
    recorded: &[u8],
    replayed: &[u8],
    ignore_payloads: bool,
) -> Result<Verdict, Error> {
    let mut numbers = [0; 2];
    let bytes = ffi::verdict(
        version.into(),
        recorded,
        replayed,
        ignore_payloads,
        &mut numbers,
    )
    .map_err(|refusal| Error::of(refusal, |_| Argument::Stream(recorded.len())))?;
    verdict_of(numbers, bytes)
}

/// The verdict of these numbers, and of the bytes of its text.
fn verdict_of(numbers: [u64; 2], bytes: Vec<u8>) -> Result<Verdict, Error> {
    let [kind, index] = numbers;
    Ok(Verdict {
        kind: kind_of(kind)?,
        index: narrowed("the index of a command", index)?,
        text: text(bytes)?,
    })
}

/// The kind of verdict of a number.
pub(crate) fn kind_of(number: u64) -> Result<VerdictKind, Error> {
    KINDS
        .get(narrowed::<usize>("the kind of verdict", number)?)
        .copied()
        .ok_or_else(|| Error::unexpected("the kind of verdict", number))
}

#[cfg(test)]
mod tests {
    use super::*;

    #[test]
    fn each_kind_of_verdict() {
        for (number, kind) in [
            (0, VerdictKind::Same),
            (1, VerdictKind::RecordedEnded),
            (2, VerdictKind::ReplayedEnded),
            (3, VerdictKind::TypeMismatch),
            (4, VerdictKind::HeaderMismatch),
            (5, VerdictKind::BadRecorded),
            (6, VerdictKind::BadReplayed),
        ] {
            let found = verdict_of([number, 9], b"text".to_vec()).unwrap();
            assert_eq!(
                (found.kind, found.index, found.text.as_str()),
                (kind, 9, "text")
            );
        }
        for number in [7, u64::MAX] {
            let text = format!("the kind of verdict {number}");
            assert_eq!(
                verdict_of([number, 0], Vec::new()),
                Err(Error::Unexpected(text))
            );
        }
    }
}
