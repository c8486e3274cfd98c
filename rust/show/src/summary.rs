//! Counts by operation, bytes and what was refused; the errors of calls that failed.
use crate::json::{self, Object};
use crate::names;
use crate::session::*;
use crate::view::View;
use crate::words::{Style, Words};
use std::collections::BTreeMap;
use std::io::{self, Write};

#[derive(Default)]
struct Counts {
    calls: u64,
    errors: u64,
    refused: u64,
    arguments: u64,
    messages: u64,
    /// Of replies and errors.
    replies: u64,
}

impl Counts {
    fn add(&mut self, call: &Call) {
        let length = |bytes: &Bytes| bytes.len() as u64;
        self.calls += 1;
        self.arguments += call.arguments.as_ref().map_or(0, |arguments| length(&arguments.bytes));
        self.messages += call.messages.as_ref().map_or(0, |messages| length(&messages.bytes));
        match &call.outcome {
            None => self.refused += 1,
            Some(Outcome::Reply { bytes, .. }) => self.replies += length(bytes),
            Some(Outcome::Error { bytes, .. }) => {
                self.errors += 1;
                self.replies += length(bytes);
            }
        }
    }

    fn named(&self) -> [(&'static str, u64); 6] {
        [
            ("calls", self.calls),
            ("errors", self.errors),
            ("refused", self.refused),
            ("argument_bytes", self.arguments),
            ("message_bytes", self.messages),
            ("reply_bytes", self.replies),
        ]
    }
}

/// How a summary is written, once the session is over.
pub enum Form {
    Words(Style),
    Json,
}

pub struct Summary<'s, W> {
    out: W,
    form: Form,
    client: &'s [u8],
    daemon: &'s [u8],
    operations: BTreeMap<u64, Counts>,
    all: Counts,
    /// Those that failed, each with its error alone.
    failed: Vec<Call>,
}

impl<'s, W: Write> Summary<'s, W> {
    pub fn new(out: W, form: Form, client: &'s [u8], daemon: &'s [u8]) -> Summary<'s, W> {
        Summary { out, form, client, daemon, operations: BTreeMap::new(), all: Counts::default(), failed: Vec::new() }
    }

    fn table(&mut self) -> io::Result<()> {
        writeln!(
            self.out,
            "{:>4} {:<28}{:>9}{:>9}{:>9}{:>16}{:>15}{:>13}",
            "op", "name", "calls", "errors", "refused", "argument bytes", "message bytes", "reply bytes"
        )?;
        for (op, counts) in &self.operations {
            row(&mut self.out, &op.to_string(), names::operation(*op), counts)?;
        }
        row(&mut self.out, "", "all", &self.all)
    }

    fn object(&self) -> String {
        let told = |object: Object, counts: &Counts| counts.named().into_iter().fold(object, |object, (name, count)| object.number(name, count));
        let operation = |(op, counts): (&u64, &Counts)| told(Object::new().number("op", *op).text("name", names::operation(*op)), counts).close();
        Object::new()
            .text("event", "summary")
            .raw("operations", &json::list(self.operations.iter().map(operation)))
            .raw("all", &told(Object::new(), &self.all).close())
            .raw("failed", &json::list(self.failed.iter().map(json::failed)))
            .number("client_bytes", self.client.len() as u64)
            .number("daemon_bytes", self.daemon.len() as u64)
            .close()
    }
}

fn row(out: &mut impl Write, op: &str, name: &str, counts: &Counts) -> io::Result<()> {
    let Counts { calls, errors, refused, arguments, messages, replies } = counts;
    writeln!(out, "{op:>4} {name:<28}{calls:>9}{errors:>9}{refused:>9}{arguments:>16}{messages:>15}{replies:>13}")
}

impl<W: Write> View for Summary<'_, W> {
    fn event(&mut self, event: &Event) -> io::Result<()> {
        match event {
            Event::Handshake(_) => Ok(()),
            Event::Call(call) => {
                self.operations.entry(call.op).or_default().add(call);
                self.all.add(call);
                self.failed.extend(call.failed());
                Ok(())
            }
            last => match self.form {
                Form::Words(style) => {
                    self.table()?;
                    let mut words = Words::new(&mut self.out, style, self.client, self.daemon);
                    self.failed.iter().try_for_each(|call| words.call(call))?;
                    words.event(last)
                }
                Form::Json => {
                    let summary = self.object();
                    writeln!(self.out, "{summary}\n{}", json::line(last))
                }
            },
        }
    }

    fn flush(&mut self) -> io::Result<()> {
        self.out.flush()
    }
}
