//! Records by the words of their fields, as the lines of `conformance/packages.cases` have them.

use std::collections::HashMap;

use pendratsoa::messages::{
    ErrorBehavior, ErrorMessage, Failure, Header, InputCommandMessage, MessageRecord,
    ProposeRunCompletionMessage, Record, SendSignalCommandMessage, SendSignalCommandResult,
    SendSignalCommandSignalId, SetStateCommandMessage, SignalNotificationMessage, StartMessage,
    SuspensionMessage, SuspensionMessageV6, Value, Void,
};
use pendratsoa::{Error, FieldError, Item, Message, Version};

use crate::{bytes, noted, unknown, word};

/// The words of a record's fields. What a field cannot hold is its reason and its path.
struct Words<'w>(HashMap<&'w str, &'w str>);

fn text(word: &str, path: &str) -> Result<String, String> {
    String::from_utf8(bytes(word)).map_err(|_| format!("not_utf8 {path}"))
}

impl Words<'_> {
    fn optional<T>(
        &self,
        name: &str,
        read: impl Fn(&str) -> Result<T, String>,
    ) -> Result<Option<T>, String> {
        self.0.get(name).map(|word| read(word)).transpose()
    }

    fn optional_text(&self, name: &str) -> Result<Option<String>, String> {
        self.optional(name, |word| text(word, name))
    }

    fn optional_number<T: TryFrom<i128>>(&self, name: &str) -> Result<Option<T>, String> {
        self.number_at(name, name)
    }

    /// The number of a field, whose path is another one.
    fn number_at<T: TryFrom<i128>>(&self, name: &str, path: &str) -> Result<Option<T>, String> {
        self.optional(name, |word| {
            let number: i128 = word.parse().unwrap();
            T::try_from(number).map_err(|_| format!("out_of_range {path}"))
        })
    }

    fn bytes(&self, name: &str) -> Vec<u8> {
        self.0.get(name).map_or_else(Vec::new, |word| bytes(word))
    }

    fn text(&self, name: &str) -> Result<String, String> {
        Ok(self.optional_text(name)?.unwrap_or_default())
    }

    fn number<T: TryFrom<i128> + Default>(&self, name: &str) -> Result<T, String> {
        Ok(self.optional_number(name)?.unwrap_or_default())
    }

    fn value(&self, name: &str) -> Option<Value<'static>> {
        let content = self.0.get(name).map(|word| bytes(word))?;
        Some(Value {
            content: content.into(),
        })
    }

    fn headers(&self, name: &str) -> Result<Vec<Header<'static>>, String> {
        let words = self.0.get(name).map_or_else(Vec::new, |words| {
            words
                .split(',')
                .map(|one| one.split_once(':').unwrap())
                .collect()
        });
        let header = |(at, (key, value)): (usize, &(&str, &str))| {
            Ok(Header {
                key: text(key, &format!("{name}[{at}].key"))?.into(),
                value: text(value, &format!("{name}[{at}].value"))?.into(),
            })
        };
        words.iter().enumerate().map(header).collect()
    }
}

/// The version of a word, or that it is unknown.
fn version_of(word: &str) -> Result<Version, String> {
    word.parse().map_err(|error| unknown(&error))
}

fn frame_of<'a, R: MessageRecord<'a>>(record: &R, version: Version) -> Result<Vec<u8>, String> {
    let frame = record.frame(version);
    let mut buffer = Vec::new();
    let message = Message::from_record(version, record, &mut buffer);
    let bytes = message.and_then(|message| Item::from(message).to_bytes());
    assert_eq!(bytes, frame);
    frame.map_err(|error| match error {
        Error::Field(FieldError { reason, path, .. }) => format!("{reason:?} {path}"),
        error => error.to_string(),
    })
}

fn encoded(version: Version, name: &str, given: &Words<'_>) -> Result<Vec<u8>, String> {
    match name {
        "StartMessage" => {
            let record = StartMessage {
                id: given.bytes("id").into(),
                debug_id: given.text("debug_id")?.into(),
                known_entries: given.number("known_entries")?,
                partial_state: given.0.get("partial_state") == Some(&"true"),
                duration_since_last_stored_entry: given
                    .number("duration_since_last_stored_entry")?,
                scope: given.optional_text("scope")?.map(Into::into),
                ..StartMessage::default()
            };
            frame_of(&record, version)
        }
        "ErrorMessage" => {
            let record = ErrorMessage {
                code: given.number("code")?,
                related_command_index: given.optional_number("related_command_index")?,
                behavior: ErrorBehavior(given.number("behavior")?),
                ..ErrorMessage::default()
            };
            frame_of(&record, version)
        }
        "InputCommandMessage" => {
            let record = InputCommandMessage {
                headers: given.headers("headers")?,
                value: given.value("value"),
                ..InputCommandMessage::default()
            };
            frame_of(&record, version)
        }
        "SendSignalCommandMessage" => {
            let name = given.optional_text("name")?;
            let signal_id = match given.optional_number("idx")? {
                Some(idx) => Some(SendSignalCommandSignalId::Idx(idx)),
                None => name.map(|name| SendSignalCommandSignalId::Name(name.into())),
            };
            let failure = given
                .number_at("failure", "failure.code")?
                .map(|code| Failure {
                    code,
                    ..Failure::default()
                });
            let void = given.0.get("void").map(|_| Void::default());
            let record = SendSignalCommandMessage {
                target_invocation_id: given.text("target_invocation_id")?.into(),
                signal_id,
                result: void
                    .map(SendSignalCommandResult::Void)
                    .or_else(|| given.value("value").map(SendSignalCommandResult::Value))
                    .or_else(|| failure.map(SendSignalCommandResult::Failure)),
                entry_name: given.text("entry_name")?.into(),
            };
            frame_of(&record, version)
        }
        name => panic!("{name}"),
    }
}

/// The frame of a record that has these fields, or why there is none.
pub fn encode_case(words: &[&str]) -> String {
    let given = Words(
        words[2..]
            .iter()
            .map(|word| word.split_once('=').unwrap())
            .collect(),
    );
    let frame = version_of(words[0]).and_then(|version| encoded(version, words[1], &given));
    match frame {
        Ok(frame) => word(&frame),
        Err(why) => why,
    }
}

/// The message of a record without a field, or why there is none.
pub fn message_case(words: &[&str]) -> String {
    let version = match version_of(words[0]) {
        Ok(version) => version,
        Err(why) => return why,
    };
    match words[1] {
        "StartMessage" => message_of(&StartMessage::default(), version),
        "SetStateCommandMessage" => message_of(&SetStateCommandMessage::default(), version),
        "ProposeRunCompletionMessage" => {
            message_of(&ProposeRunCompletionMessage::default(), version)
        }
        "SuspensionMessage" => message_of(&SuspensionMessage::default(), version),
        "SuspensionMessageV6" => message_of(&SuspensionMessageV6::default(), version),
        "SignalNotificationMessage" => message_of(&SignalNotificationMessage::default(), version),
        name => panic!("{name}"),
    }
}

fn message_of<'a, R: MessageRecord<'a>>(record: &R, version: Version) -> String {
    let mut buffer = Vec::new();
    match Message::from_record(version, record, &mut buffer) {
        Ok(message) => Item::Message(message).to_string(),
        Err(error) => error.to_string(),
    }
}

/// The fields that are there, in their order.
#[derive(Default)]
struct Found(Vec<String>);

impl Found {
    fn put(&mut self, name: &str, value: impl ToString) {
        self.0.push(format!("{name}={}", value.to_string()));
    }

    fn bytes(&mut self, name: &str, value: &[u8]) {
        if !value.is_empty() {
            self.put(name, word(value));
        }
    }

    fn number<T: Default + PartialEq + ToString>(&mut self, name: &str, value: T) {
        if value != T::default() {
            self.put(name, value);
        }
    }
}

fn start(record: &StartMessage<'_>, found: &mut Found) {
    found.bytes("id", &record.id);
    found.bytes("debug_id", record.debug_id.as_bytes());
    found.number("known_entries", record.known_entries);
    found.number("partial_state", record.partial_state);
    found.number(
        "duration_since_last_stored_entry",
        record.duration_since_last_stored_entry,
    );
    if let Some(scope) = &record.scope {
        found.put("scope", word(scope.as_bytes()));
    }
}

fn error(record: &ErrorMessage<'_>, found: &mut Found) {
    found.number("code", record.code);
    if let Some(index) = record.related_command_index {
        found.put("related_command_index", index);
    }
    found.number("behavior", record.behavior.0);
}

fn input(record: &InputCommandMessage<'_>, found: &mut Found) {
    let header = |one: &Header<'_>| {
        format!(
            "{}:{}",
            word(one.key.as_bytes()),
            word(one.value.as_bytes())
        )
    };
    let headers: Vec<String> = record.headers.iter().map(header).collect();
    if !headers.is_empty() {
        found.put("headers", headers.join(","));
    }
    if let Some(value) = &record.value {
        found.put("value", word(&value.content));
    }
}

fn signal(record: &SendSignalCommandMessage<'_>, found: &mut Found) {
    found.bytes(
        "target_invocation_id",
        record.target_invocation_id.as_bytes(),
    );
    match &record.signal_id {
        Some(SendSignalCommandSignalId::Idx(idx)) => found.put("idx", idx),
        Some(SendSignalCommandSignalId::Name(name)) => found.put("name", word(name.as_bytes())),
        None => {}
    }
    match &record.result {
        Some(SendSignalCommandResult::Void(_)) => found.put("void", "-"),
        Some(SendSignalCommandResult::Value(value)) => found.put("value", word(&value.content)),
        Some(SendSignalCommandResult::Failure(failure)) => found.put("failure", failure.code),
        None => {}
    }
    found.bytes("entry_name", record.entry_name.as_bytes());
}

/// The fields of the record that a payload is decoded to, or that it is malformed.
pub fn decode_case(words: &[&str]) -> String {
    let payload = bytes(words[1]);
    let mut found = Found::default();
    let decoded = match words[0] {
        "StartMessage" => StartMessage::decode(&payload).map(|one| start(&one, &mut found)),
        "ErrorMessage" => ErrorMessage::decode(&payload).map(|one| error(&one, &mut found)),
        "InputCommandMessage" => {
            InputCommandMessage::decode(&payload).map(|one| input(&one, &mut found))
        }
        "SendSignalCommandMessage" => {
            SendSignalCommandMessage::decode(&payload).map(|one| signal(&one, &mut found))
        }
        name => panic!("{name}"),
    };
    match decoded {
        Err(error @ Error::Malformed(_)) => noted(&error, "malformed"),
        Err(error) => error.to_string(),
        Ok(()) if found.0.is_empty() => "-".to_owned(),
        Ok(()) => found.0.join(", "),
    }
}
