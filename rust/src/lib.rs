//! The journal protocol of the Restate SDKs, by the calls of Pendratsoa's library for C.
//!
//! ```
//! use pendratsoa::{Decoder, Item, Version};
//!
//! let mut decoder = Decoder::new(Version::V8);
//! decoder.feed(&[0x04, 0, 0, 0, 0, 0, 0, 9, 0x72, 7, 0x0A, 5, b'i', b'n', b'p', b'u', b't'])?;
//! for item in decoder.items() {
//!     if let Item::Message(message) = item? {
//!         assert_eq!(message.type_name()?, "InputCommand");
//!         assert_eq!(message.json()?, r#"{"value":{"content":"aW5wdXQ="}}"#);
//!     }
//! }
//! # Ok::<(), pendratsoa::Error>(())
//! ```
//!
//! - A [`Decoder`] of a [`Version`] takes the chunks of a stream, or a reader, and finds its [`Item`]s. An item is
//!   passed on as received by [`Item::append_to`] or [`Item::write_to`].
//! - [`Item::record`] and [`Message::message`] read the record of a payload, a struct of [`messages`].
//!   [`MessageRecord::frame`](messages::MessageRecord::frame) writes one.
//! - [`Replay`] checks a replay by its recording while it arrives, and [`compare_journals`] compares whole journals.
//! - [`Numbering`] reads and writes payloads at the field numbers of another .proto.
//!
//! The library decides everything about the protocol; this crate turns its numbers into types. Each call of
//! `pendratsoa.h` is a function here, of the same name without `journal_`, except four: `journal_next` is
//! [`next_item`] and, over chunks, [`Decoder`]; `journal_json` is [`to_json`]; `journal_payload_of_json` is
//! [`from_json`]; `journal_verdict` is [`compare_journals`]. Those of replays are [`Replay`], and those of other field
//! numbers [`Numbering`].
//!
//! - Items borrow the bytes of their stream, and are copied nowhere.
//! - What fails says so by an [`Error`]; a failed allocation is one, too.
//! - Functions may be called from any thread at once, and every type here is [`Send`] and [`Sync`].
//! - The deepest payloads take 32 KiB of stack, and 160 KiB in [`to_json`]; the deepest texts 320 KiB in [`from_json`].
#![deny(unsafe_code, unsafe_op_in_unsafe_fn)]
#![warn(missing_docs, clippy::pedantic)]
// a sentence of each comment has the errors: a heading for each of them would be most of the page
#![allow(clippy::missing_errors_doc)]
// `if let .. else` in the place of a match is not shorter with a block for each
#![allow(clippy::single_match_else)]

#[cfg(doctest)]
#[doc = include_str!("../README.md")]
struct Readme;

mod calls;
mod decoder;
mod error;
// the functions over each field are in one loop over the fields of a record; fields and their defaults are generated
#[allow(
    clippy::default_trait_access,
    clippy::inline_always,
    clippy::struct_field_names
)]
// records are sealed by a trait that has no public name, and neither have the types of its methods
#[allow(unknown_lints)]
#[allow(unnameable_types)]
mod ffi;
// that trait is here
#[allow(unknown_lints)]
#[allow(unnameable_types)]
mod fields;
mod item;
mod journals;
#[rustfmt::skip]
mod kinds;
mod message_type;
// generated: a record is written alike, however many fields it has; an older clippy does not know each of these
#[allow(unknown_lints)]
#[allow(
    clippy::default_trait_access,
    clippy::elidable_lifetime_names,
    clippy::too_many_lines
)]
#[rustfmt::skip]
pub mod messages;
mod notification;
mod numbering;
mod reading;
mod replay;
mod schema;
mod version;

pub use calls::{
    append_frame, canonical, difference, frame, header, header_eq, is_well_formed, library_version,
    merge, schema, to_json, type_code, type_name,
};
pub use decoder::{Decoder, Items, ReadItems};
pub use error::{Argument, Error, Incomplete, MessagePayload, MessageTooLong};
pub use fields::FieldError;
pub use item::{next_item, next_item_within, Item, Message, Next, OwnedItem, Skipped, UnknownCode};
pub use journals::{compare_journals, Verdict, VerdictKind};
pub use kinds::FieldReason;
pub use message_type::MessageType;
pub use notification::{notification, Notification, NotificationId, NotificationResult};
pub use numbering::{Numbering, NumberingError, NumberingReason};
pub use reading::{from_json, JsonError, JsonReason};
pub use replay::{ChangedField, Ignored, Mismatch, Replay};
pub use schema::Schema;
pub use version::Version;
