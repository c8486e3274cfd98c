//! A session in words.
use crate::fields::{self, Fields, Value};
use crate::hex;
use crate::names;
use crate::session::*;
use crate::text;
use crate::view::View;
use lintelow::wire::mode_text;
use lintelow::{ErrorInfo, StderrCode, Version};
use std::io::{self, Write};

/// A set or a map is cut after this many lines.
const MOST_LINES: usize = 12;
/// Numbers share a line up to this many characters.
const WIDTH: usize = 100;

/// How words are written.
#[derive(Debug, Clone, Copy, Default)]
pub struct Style {
    pub colour: bool,
    /// Nothing is shortened or left out.
    pub full: bool,
}

pub struct Words<'s, W> {
    out: W,
    style: Style,
    client: &'s [u8],
    daemon: &'s [u8],
}

impl<W: Write> View for Words<'_, W> {
    fn event(&mut self, event: &Event) -> io::Result<()> {
        match event {
            Event::Handshake(handshake) => self.handshake(handshake),
            Event::Call(call) => self.call(call),
            Event::Stop(Stop::Refused(refused)) => self.refused(refused),
            Event::Stop(Stop::Unfollowed(unfollowed)) => self.unfollowed(unfollowed),
            Event::Stop(Stop::Unended(unended)) => self.unended(unended),
            Event::End(end) => self.end(end),
        }
    }

    fn flush(&mut self) -> io::Result<()> {
        self.out.flush()
    }
}

impl<'s, W: Write> Words<'s, W> {
    pub fn new(out: W, style: Style, client: &'s [u8], daemon: &'s [u8]) -> Words<'s, W> {
        Words { out, style, client, daemon }
    }

    fn handshake(&mut self, handshake: &Handshake) -> io::Result<()> {
        let Handshake { info, client, daemon } = handshake;
        let title = self.bold("handshake");
        let place = self.dim(&format!("client {}, daemon {}", bytes(client), bytes(daemon)));
        writeln!(self.out, "{title}  {place}")?;
        writeln!(self.out, "  versions  client {}, daemon {}, spoken {}", info.client_version, info.server_version, info.negotiated_version)?;
        if let Some(version) = &info.daemon_nix_version {
            writeln!(self.out, "  daemon    Nix {}", self.string(version))?;
        }
        writeln!(self.out, "  features  client {}; daemon {}", self.features(&info.client_features), self.features(&info.server_features))?;
        if let Some(trust) = info.trust_status {
            writeln!(self.out, "  trust     {trust}, {}", names::trust(trust))?;
        }
        Ok(())
    }

    pub fn call(&mut self, call: &Call) -> io::Result<()> {
        let title = self.bold(&format!("call {}: {} {}", call.index, call.op, names::operation(call.op)));
        let place = self.dim(&format!("version {}, client {}", call.version, bytes(&call.number)));
        writeln!(self.out, "\n{title}  {place}")?;
        if let Some(Arguments { bytes, call, payload, .. }) = &call.arguments {
            self.part("arguments", Side::Client, bytes, &fields::of_arguments(call, payload))?;
        }
        if let Some(Messages { bytes, count, terminal }) = &call.messages {
            let last = match terminal {
                Some(StderrCode::Last) => "ended by Last",
                Some(StderrCode::Error) => "ended by Error",
                None => "not ended",
            };
            let head = self.head("messages", Side::Daemon, bytes);
            writeln!(self.out, "{head}  {count}, {last}")?;
        }
        match &call.outcome {
            None => Ok(()),
            Some(Outcome::Reply { bytes, data, payload }) => self.part("reply", Side::Daemon, bytes, &fields::of_reply(data, payload)),
            Some(Outcome::Error { bytes, info }) => self.error(bytes, info),
        }
    }

    fn error(&mut self, range: &Bytes, info: &ErrorInfo) -> io::Result<()> {
        let fields = match &info.exit_status {
            Some(status) => vec![("exit_status", Value::Number(status))],
            None => vec![("type", Value::Text(&info.error_type)), ("level", Value::Number(&info.level)), ("name", Value::Text(&info.name))],
        };
        self.part("error", Side::Daemon, range, &Fields { kind: "Error", fields })?;
        // Message and traces are never shortened: they are what an error is looked at for.
        let message = self.red(&text::visible(&info.message));
        writeln!(self.out, "    message {message}")?;
        for trace in &info.traces {
            writeln!(self.out, "    trace {}", text::visible(trace))?;
        }
        Ok(())
    }

    fn refused(&mut self, refused: &Refused) -> io::Result<()> {
        let refusal = &refused.refusal;
        let (stream, file) = match refused.side {
            Side::Client => (self.client, "client.bin"),
            Side::Daemon => (self.daemon, "daemon.bin"),
        };
        let of_call = match (refused.call, refused.op) {
            (Some(call), Some(op)) => format!(" of call {call}, {op} {}", names::operation(op)),
            (Some(call), None) => format!(" of call {call}"),
            (None, _) => String::new(),
        };
        let title = self.red(&format!("refused by {}", refusal.number));
        writeln!(self.out, "\n{title}  {}", refusal.meaning())?;
        writeln!(
            self.out,
            "  in the {}{of_call}, the {}'s stream ({file}), at byte {}",
            part_name(refused.part),
            refused.side.name(),
            refused.place
        )?;
        match &refused.good {
            None => {}
            Some(good) if good.is_empty() => writeln!(self.out, "  the string begins there")?,
            Some(good) => {
                let text = String::from_utf8_lossy(&stream[good.clone()]);
                let shown = if self.style.full { text::visible(&text) } else { text::ending(&text) };
                writeln!(self.out, "  the string begins at byte {}; its first {} bytes are text, up to {shown}", good.start, good.len())?;
            }
        }
        self.bytes_around(stream, refused.place)
    }

    fn unfollowed(&mut self, unfollowed: &Unfollowed) -> io::Result<()> {
        let Unfollowed { call, op, version, known, client, daemon } = *unfollowed;
        let title = self.red("can't follow");
        writeln!(self.out, "\n{title}  call {call}: {}", why_unfollowed(op, version, known))?;
        writeln!(self.out, "  what comes after can't be placed: client from {client}, daemon from {daemon}")
    }

    fn unended(&mut self, unended: &Unended) -> io::Result<()> {
        let Unended { call, op, daemon } = *unended;
        let title = self.red("not ended");
        let name = names::operation(op);
        writeln!(self.out, "\n{title}  call {call}: the messages of {op} {name} end with neither Last nor Error, so no reply is read")?;
        writeln!(self.out, "  they stop at byte {daemon} of daemon.bin: it may be cut, or the daemon said more than was read (docs/DIFFERENCES.md)")?;
        self.bytes_around(self.daemon, daemon)
    }

    fn end(&mut self, end: &End) -> io::Result<()> {
        let title = self.bold("end");
        writeln!(self.out, "\n{title}  {} calls; client {} bytes, daemon {} bytes", end.calls, self.client.len(), self.daemon.len())?;
        if !end.left.is_empty() {
            let title = self.red("left over");
            writeln!(self.out, "{title}  daemon {}: these bytes belong to no call", bytes(&end.left))?;
            writeln!(self.out, "  either client.bin lacks calls, or the daemon said more than was read (docs/DIFFERENCES.md)")?;
        }
        Ok(())
    }

    fn bytes_around(&mut self, stream: &[u8], place: usize) -> io::Result<()> {
        for row in hex::view(stream, place) {
            writeln!(self.out, "    {row}")?;
        }
        Ok(())
    }

    fn head(&self, name: &str, side: Side, range: &Bytes) -> String {
        let place = format!("{} {}", side.name(), bytes(range));
        format!("  {name:<9}  {}", self.dim(&place))
    }

    /// Arguments, a reply or an error.
    fn part(&mut self, name: &str, side: Side, range: &Bytes, told: &Fields) -> io::Result<()> {
        let head = self.head(name, side, range);
        match told.fields[..] {
            [] if range.is_empty() => writeln!(self.out, "{head}  nothing"),
            [] => writeln!(self.out, "{head}  passed over"),
            _ => {
                writeln!(self.out, "{head}")?;
                self.fields(&told.fields)
            }
        }
    }

    fn fields(&mut self, fields: &[(&str, Value)]) -> io::Result<()> {
        let mut row = String::new();
        for (name, value) in fields {
            let name = name.replace('_', " ");
            let Some(short) = short(value) else {
                self.row(&mut row)?;
                self.field(&name, value)?;
                continue;
            };
            let word = format!("{name} {short}");
            if row.len() + 2 + word.len() > WIDTH {
                self.row(&mut row)?;
            }
            if !row.is_empty() {
                row.push_str(", ");
            }
            row.push_str(&word);
        }
        self.row(&mut row)
    }

    /// Writes the numbers that share a line.
    fn row(&mut self, row: &mut String) -> io::Result<()> {
        if !row.is_empty() {
            writeln!(self.out, "    {row}")?;
            row.clear();
        }
        Ok(())
    }

    /// A field with lines of its own.
    fn field(&mut self, name: &str, value: &Value) -> io::Result<()> {
        match value {
            Value::Text(text) => writeln!(self.out, "    {name} {}", self.string(text)),
            Value::Set([]) | Value::Pairs([]) => writeln!(self.out, "    {name} none"),
            Value::Set([one]) => writeln!(self.out, "    {name} {}", self.string(one)),
            Value::Set(set) => self.list(name, set, |words, text| words.string(text)),
            Value::Pairs(pairs) => self.list(name, pairs, |words, (name, value)| format!("{} = {}", words.string(name), words.string(value))),
            Value::Payload(payload) if payload.size == 0 => writeln!(self.out, "    {name} 0 bytes"),
            Value::Payload(payload) => {
                let more = if payload.size > payload.first.len() as u64 { ".." } else { "" };
                let spaced: Vec<String> = payload.first.iter().map(|byte| format!("{byte:02x}")).collect();
                let letters: String = payload.first.iter().map(|&byte| hex::letter(byte)).collect();
                writeln!(self.out, "    {name} {} bytes: {}{more}  {letters}{more}", payload.size, spaced.join(" "))
            }
            Value::Number(_) | Value::Flag(_) | Value::Mode(_) => Ok(()),
        }
    }

    fn list<T>(&mut self, name: &str, items: &[T], shown: impl Fn(&Self, &T) -> String) -> io::Result<()> {
        writeln!(self.out, "    {name} {}", items.len())?;
        let most = if self.style.full || items.len() == MOST_LINES + 1 { items.len() } else { MOST_LINES };
        for item in items.iter().take(most) {
            let line = shown(self, item);
            writeln!(self.out, "      {line}")?;
        }
        if items.len() > most {
            writeln!(self.out, "      and {} more", items.len() - most)?;
        }
        Ok(())
    }

    fn string(&self, text: &str) -> String {
        if self.style.full {
            text::visible(text)
        } else {
            text::shortened(text)
        }
    }

    fn features(&self, features: &[String]) -> String {
        match features {
            [] => "none".to_owned(),
            _ => features.iter().map(|feature| self.string(feature)).collect::<Vec<_>>().join(" "),
        }
    }

    fn bold(&self, text: &str) -> String {
        self.painted("1", text)
    }

    fn dim(&self, text: &str) -> String {
        self.painted("2", text)
    }

    fn red(&self, text: &str) -> String {
        self.painted("1;31", text)
    }

    fn painted(&self, code: &str, text: &str) -> String {
        if self.style.colour {
            format!("\u{1b}[{code}m{text}\u{1b}[0m")
        } else {
            text.to_owned()
        }
    }
}

/// Why a call can't be followed.
fn why_unfollowed(op: u64, version: Version, known: bool) -> String {
    let name = names::operation(op);
    if known {
        format!("{op} {name} has arguments that are not read at version {version}")
    } else {
        format!("there is no operation {op}")
    }
}

fn part_name(part: Part) -> &'static str {
    match part {
        Part::Handshake => "handshake",
        Part::Number => "operation's number",
        Part::Arguments => "arguments",
        Part::Messages => "messages",
        Part::Error => "error block",
        Part::Reply => "reply",
    }
}

fn bytes(range: &Bytes) -> String {
    format!("{}..{}", range.start, range.end)
}

/// A value that shares its line with others.
fn short(value: &Value) -> Option<String> {
    match value {
        Value::Number(number) => Some(number.to_string()),
        Value::Flag(flag) => Some(if **flag { "yes" } else { "no" }.to_owned()),
        Value::Mode(mode) => Some(mode_text(**mode)),
        _ => None,
    }
}
