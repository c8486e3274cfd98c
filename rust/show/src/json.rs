//! One JSON object a line, as docs/SHOW.md says.
use crate::fields::{self, Fields, Value};
use crate::hex;
use crate::library::Payload;
use crate::names;
use crate::session::*;
use crate::view::View;
use lintelow::wire::mode_text;
use lintelow::{ErrorInfo, StderrCode};
use std::fmt::Write as _;
use std::io::{self, Write};

pub struct Json<W> {
    out: W,
}

impl<W: Write> Json<W> {
    pub fn new(out: W) -> Json<W> {
        Json { out }
    }
}

impl<W: Write> View for Json<W> {
    fn event(&mut self, event: &Event) -> io::Result<()> {
        writeln!(self.out, "{}", line(event))
    }

    fn flush(&mut self) -> io::Result<()> {
        self.out.flush()
    }
}

/// The object for an event.
pub fn line(event: &Event) -> String {
    let object = match event {
        Event::Handshake(handshake) => self::handshake(handshake),
        Event::Call(call) => self::call(call),
        Event::Stop(Stop::Refused(refused)) => self::refused(refused),
        Event::Stop(Stop::Unfollowed(unfollowed)) => self::unfollowed(unfollowed),
        Event::Stop(Stop::Unended(unended)) => self::unended(unended),
        Event::End(end) => Object::new().text("event", "end").number("calls", end.calls).range("left", &end.left),
    };
    object.close()
}

fn handshake(handshake: &Handshake) -> Object {
    let info = &handshake.info;
    Object::new()
        .text("event", "handshake")
        .range("client", &handshake.client)
        .range("daemon", &handshake.daemon)
        .text("client_version", &info.client_version.to_string())
        .text("daemon_version", &info.server_version.to_string())
        .text("version", &info.negotiated_version.to_string())
        .raw("client_features", &strings(&info.client_features))
        .raw("daemon_features", &strings(&info.server_features))
        .raw("daemon_nix", &info.daemon_nix_version.as_deref().map_or("null".to_owned(), quoted))
        .raw("trust", &number_or_null(info.trust_status))
}

fn call(call: &Call) -> Object {
    let mut object = Object::new()
        .text("event", "call")
        .number("call", call.index)
        .number("op", call.op)
        .text("name", names::operation(call.op))
        .text("version", &call.version.to_string())
        .range("number", &call.number);
    if let Some(Arguments { bytes, fixed_end, call, payload }) = &call.arguments {
        let told = Object::new().range("range", bytes).number("fixed_end", *fixed_end as u64);
        object = object.raw("arguments", &with_fields(told, &fields::of_arguments(call, payload)).close());
    }
    if let Some(Messages { bytes, count, terminal }) = &call.messages {
        let terminal = match terminal {
            Some(StderrCode::Last) => "\"Last\"",
            Some(StderrCode::Error) => "\"Error\"",
            None => "null",
        };
        object = object.raw("messages", &Object::new().range("range", bytes).number("count", *count).raw("terminal", terminal).close());
    }
    with_outcome(object, call)
}

/// The object for a call that failed, in a summary.
pub fn failed(call: &Call) -> String {
    with_outcome(Object::new().number("call", call.index).number("op", call.op).text("name", names::operation(call.op)), call).close()
}

fn with_outcome(object: Object, call: &Call) -> Object {
    match &call.outcome {
        None => object,
        Some(Outcome::Reply { bytes, data, payload }) => {
            object.raw("reply", &with_fields(Object::new().range("range", bytes), &fields::of_reply(data, payload)).close())
        }
        Some(Outcome::Error { bytes, info }) => object.raw("error", &error(bytes, info)),
    }
}

fn error(bytes: &Bytes, info: &ErrorInfo) -> String {
    Object::new()
        .range("range", bytes)
        .text("type", &info.error_type)
        .number("level", info.level)
        .text("name", &info.name)
        .text("message", &info.message)
        .raw("traces", &strings(&info.traces))
        .raw("exit_status", &number_or_null(info.exit_status))
        .close()
}

fn refused(refused: &Refused) -> Object {
    let told = Object::new()
        .text("event", "refusal")
        .raw("call", &number_or_null(refused.call))
        .raw("op", &number_or_null(refused.op))
        .text("part", part(refused.part))
        .number("refusal", refused.refusal.number)
        .text("meaning", refused.refusal.meaning())
        .text("stream", refused.side.name())
        .number("place", refused.place as u64);
    match &refused.good {
        Some(good) => told.range("good", good),
        None => told,
    }
}

fn unfollowed(unfollowed: &Unfollowed) -> Object {
    Object::new()
        .text("event", "unfollowed")
        .number("call", unfollowed.call)
        .number("op", unfollowed.op)
        .text("name", names::operation(unfollowed.op))
        .text("version", &unfollowed.version.to_string())
        .raw("known", if unfollowed.known { "true" } else { "false" })
        .number("client", unfollowed.client as u64)
        .number("daemon", unfollowed.daemon as u64)
}

fn unended(unended: &Unended) -> Object {
    Object::new().text("event", "unended").number("call", unended.call).number("op", unended.op).number("daemon", unended.daemon as u64)
}

fn part(part: Part) -> &'static str {
    match part {
        Part::Handshake => "handshake",
        Part::Number => "number",
        Part::Arguments => "arguments",
        Part::Messages => "messages",
        Part::Error => "error",
        Part::Reply => "reply",
    }
}

fn with_fields(object: Object, told: &Fields) -> Object {
    told.fields.iter().fold(object.text("kind", told.kind), |object, (name, told)| object.raw(name, &value(told)))
}

fn value(value: &Value) -> String {
    match value {
        Value::Number(number) => number.to_string(),
        Value::Flag(flag) => flag.to_string(),
        Value::Mode(mode) => quoted(&mode_text(**mode)),
        Value::Text(text) => quoted(text),
        Value::Set(set) => strings(set),
        Value::Pairs(pairs) => list(pairs.iter().map(|(name, value)| format!("[{},{}]", quoted(name), quoted(value)))),
        Value::Payload(Payload { size, first }) => Object::new().number("size", *size).text("first", &hex::joined(first)).close(),
    }
}

fn number_or_null(number: Option<u64>) -> String {
    number.map_or("null".to_owned(), |number| number.to_string())
}

fn strings(strings: &[String]) -> String {
    list(strings.iter().map(|text| quoted(text)))
}

/// A JSON list of values that are JSON already.
pub fn list(values: impl Iterator<Item = String>) -> String {
    format!("[{}]", values.collect::<Vec<_>>().join(","))
}

/// A JSON string. What a terminal would obey is escaped, and all else stands as it is.
fn quoted(text: &str) -> String {
    let mut json = String::with_capacity(text.len() + 2);
    json.push('"');
    for c in text.chars() {
        match c {
            '"' | '\\' => json.extend(['\\', c]),
            _ if c.is_control() => {
                let _ = write!(json, "\\u{:04x}", u32::from(c));
            }
            _ => json.push(c),
        }
    }
    json.push('"');
    json
}

/// A JSON object, name by name. Names are ours and need no escapes.
pub struct Object(String);

impl Object {
    pub fn new() -> Object {
        Object(String::from("{"))
    }

    /// A value that is JSON already.
    pub fn raw(mut self, name: &str, json: &str) -> Object {
        if self.0.len() > 1 {
            self.0.push(',');
        }
        let _ = write!(self.0, "\"{name}\":{json}");
        self
    }

    pub fn text(self, name: &str, text: &str) -> Object {
        self.raw(name, &quoted(text))
    }

    pub fn number(self, name: &str, number: u64) -> Object {
        self.raw(name, &number.to_string())
    }

    pub fn range(self, name: &str, bytes: &Bytes) -> Object {
        self.raw(name, &format!("[{},{}]", bytes.start, bytes.end))
    }

    pub fn close(mut self) -> String {
        self.0.push('}');
        self.0
    }
}

#[cfg(test)]
mod tests {
    use super::*;

    #[test]
    fn strings_are_escaped() {
        assert_eq!(quoted("a\"b\\c\n\u{1b}é"), "\"a\\\"b\\\\c\\u000a\\u001bé\"");
    }

    #[test]
    fn objects_have_commas_between_names() {
        assert_eq!(Object::new().close(), "{}");
        assert_eq!(Object::new().number("a", u64::MAX).range("b", &(1..2)).close(), "{\"a\":18446744073709551615,\"b\":[1,2]}");
    }
}
