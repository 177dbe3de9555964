//! Readers of the protocol that are not this project's library, random cases for them, and the calls of the library,
//! which are compared with them and measured against one of them.

pub mod cases;
pub mod conformance;
#[cfg(feature = "json")]
pub mod dump;
pub mod hostile;
pub mod journals;
#[cfg(feature = "json")]
#[rustfmt::skip]
pub mod json;
pub mod list;
#[cfg(feature = "json")]
pub mod make;
#[cfg(feature = "library")]
pub mod ours;
pub mod peer;
pub mod random;
#[cfg(feature = "json")]
#[rustfmt::skip]
pub mod read_json;
pub mod reading;
#[rustfmt::skip]
pub mod records;
pub mod rules;
pub mod runs;
pub mod schema;
pub mod streams;
#[rustfmt::skip]
pub mod table;
pub mod tally;
pub mod wire;
