//! Notifications: their ids and their results.

use crate::calls::text;
use crate::error::{narrowed, Argument, Error};
use crate::ffi::{self, About};
use crate::ffi::{COMPLETION_ID, SIGNAL_ID, SIGNAL_NAME};
use crate::ffi::{
    RESULT_FAILURE, RESULT_INVOCATION_ID, RESULT_STATE_KEYS, RESULT_VALUE, RESULT_VOID,
};

/// The id and the result of a notification.
#[derive(Clone, Debug, PartialEq, Eq, Hash)]
#[non_exhaustive]
pub struct Notification {
    /// What it notifies of.
    pub id: NotificationId,
    /// With which result.
    pub result: NotificationResult,
}

/// The id of a notification.
#[derive(Clone, Debug, PartialEq, Eq, Hash)]
#[non_exhaustive]
pub enum NotificationId {
    /// The number of a completion.
    Completion(u32),
    /// The number of a signal.
    Signal(u32),
    /// The name of a signal.
    SignalName(String),
}

/// The result of a notification.
#[derive(Clone, Debug, PartialEq, Eq, Hash)]
#[non_exhaustive]
pub enum NotificationResult {
    /// Nothing.
    Void,
    /// The canonical payload of a [`Value`](crate::messages::Value).
    Value(Vec<u8>),
    /// The canonical payload of a [`Failure`](crate::messages::Failure).
    Failure(Vec<u8>),
    /// The id of an invocation.
    InvocationId(String),
    /// The canonical payload of [`StateKeys`](crate::messages::StateKeys).
    StateKeys(Vec<u8>),
}

/// Reads the id and the result of a notification of the type that has the code.
///
/// In this order: [`Error::Unknown`] if the code is that of no notification, [`Error::Malformed`], [`Error::NoId`],
/// [`Error::NoResult`], [`Error::TooLong`]; [`Error::OutOfMemory`].
///
/// ```
/// use pendratsoa::{notification, MessageType, NotificationId, NotificationResult};
///
/// let found = notification(MessageType::SleepCompletionNotification.code(), &[0x08, 1, 0x22, 0])?;
/// assert_eq!(found.id, NotificationId::Completion(1));
/// assert_eq!(found.result, NotificationResult::Void);
/// # Ok::<(), pendratsoa::Error>(())
/// ```
pub fn notification(code: u16, payload: &[u8]) -> Result<Notification, Error> {
    let mut numbers = [0; 4];
    let bytes = ffi::notification(code, payload, &mut numbers).map_err(|refusal| {
        Error::of(refusal, |about| match about {
            About::Type => Argument::Code(code),
            _ => Argument::Payload(payload.len()),
        })
    })?;
    notification_of(numbers, bytes)
}

/// The notification of these numbers, and of the bytes of a signal's name and the result after it.
fn notification_of(numbers: [u64; 4], bytes: Vec<u8>) -> Result<Notification, Error> {
    let [id_kind, number, name_length, result_kind] = numbers;
    let name_length = narrowed::<usize>("the length of a name", name_length)?;
    if name_length > bytes.len() {
        return Err(Error::unexpected("the length of a name", name_length));
    }
    let mut name = bytes;
    let result = name.split_off(name_length);
    let id = match id_kind {
        COMPLETION_ID => NotificationId::Completion(narrowed("the completion", number)?),
        SIGNAL_ID => NotificationId::Signal(narrowed("the signal", number)?),
        SIGNAL_NAME => NotificationId::SignalName(text(name)?),
        kind => return Err(Error::unexpected("the kind of id", kind)),
    };
    let result = match result_kind {
        RESULT_VOID => NotificationResult::Void,
        RESULT_VALUE => NotificationResult::Value(result),
        RESULT_FAILURE => NotificationResult::Failure(result),
        RESULT_INVOCATION_ID => NotificationResult::InvocationId(text(result)?),
        RESULT_STATE_KEYS => NotificationResult::StateKeys(result),
        kind => return Err(Error::unexpected("the kind of result", kind)),
    };
    Ok(Notification { id, result })
}

#[cfg(test)]
mod tests {
    use super::*;

    #[test]
    fn each_kind_of_id() {
        for (numbers, bytes, id) in [
            ([0, 7, 0, 0], "", NotificationId::Completion(7)),
            ([1, 17, 0, 0], "", NotificationId::Signal(17)),
            (
                [2, 0, 4, 0],
                "stop",
                NotificationId::SignalName("stop".to_owned()),
            ),
        ] {
            let found = notification_of(numbers, bytes.into()).unwrap();
            assert_eq!((found.id, found.result), (id, NotificationResult::Void));
        }
    }

    #[test]
    fn each_kind_of_result() {
        for (kind, result) in [
            (0, NotificationResult::Void),
            (1, NotificationResult::Value(b"result".to_vec())),
            (2, NotificationResult::Failure(b"result".to_vec())),
            (3, NotificationResult::InvocationId("result".to_owned())),
            (4, NotificationResult::StateKeys(b"result".to_vec())),
        ] {
            let found = notification_of([2, 0, 4, kind], b"nameresult".to_vec()).unwrap();
            let id = NotificationId::SignalName("name".to_owned());
            assert_eq!((found.id, found.result), (id, result));
        }
    }

    #[test]
    fn what_a_later_library_may_return_is_an_error() {
        for (numbers, bytes, text) in [
            ([3, 0, 0, 0], &b""[..], "the kind of id 3"),
            ([0, 0, 0, 5], b"", "the kind of result 5"),
            ([0, 1 << 32, 0, 0], b"", "the completion 4294967296"),
            ([1, 1 << 32, 0, 0], b"", "the signal 4294967296"),
            ([2, 0, 5, 0], b"name", "the length of a name 5"),
            (
                [2, 0, 1, 0],
                b"\xFF",
                "a text that is not UTF-8: invalid utf-8 sequence of 1 bytes from index 0",
            ),
        ] {
            let found = notification_of(numbers, bytes.to_vec());
            assert_eq!(found, Err(Error::Unexpected(text.to_owned())));
        }
    }
}
