//! Holds the two answers to a request against each other. compare/hold.py does the same with the probe's lines.
use crate::ours::{is_daemons, Said, Success};
use lintelow::{Entry, Refusal};
use oracle::answer::Answer;
use oracle::line::Line;
use oracle::request::Request;
use std::string::FromUtf8Error;

#[derive(Clone, Copy, PartialEq, Eq)]
pub enum Verdict {
    Same,
    Refused,
    /// Both refuse one string, where its text ends.
    BadByte,
    /// Short of slots or room.
    Short,
    Out,
    Different,
}

impl Verdict {
    /// In their order.
    pub const NAMES: [&str; 6] = ["same", "refused", "bad byte", "short", "out", "DIFFERENT"];
}

const BAD_TEXT: u64 = 3;
const NO_SLOT: u64 = 4;

fn reads(call: u64) -> bool {
    matches!(call, 1..=18)
}

fn takes_slots(call: u64) -> bool {
    matches!(call, 1 | 3 | 6 | 7 | 8 | 14)
}

fn takes_room(call: u64) -> bool {
    matches!(call, 1 | 3 | 16)
}

fn writes(call: u64) -> bool {
    matches!(call, 20..=28)
}

/// The refusals of which one is due for want of slots or room.
fn shortage(q: &Request, rust: &Line) -> Vec<u64> {
    let is_over = rust.payload.len() as u64 > q.room;
    let mut due = Vec::new();
    if takes_slots(q.call) && rust.strings.len() as u64 > q.slots {
        due.push(NO_SLOT);
    }
    if takes_room(q.call) && is_over {
        due.push(5);
    }
    if writes(q.call) && is_over {
        due.push(10);
    }
    due
}

/// The contents of a string, or None where they do not stand behind their length.
fn contents(stream: &[u8], entry: Entry) -> Option<&[u8]> {
    let before = stream.get(entry.start.checked_sub(8)?..entry.start)?;
    let is_behind_length = before == (entry.length as u64).to_le_bytes();
    let end = entry.start.checked_add(entry.length)?;
    stream.get(entry.start..end).filter(|_| is_behind_length)
}

/// The strings that the entries point at.
fn strings<'q>(q: &'q Request, a: &Success) -> Option<Vec<&'q [u8]>> {
    let string = |(i, &entry): (usize, &Entry)| {
        let is_client = q.call != 8 && (q.call != 7 || (i as u64) < a.counts[0]);
        contents(if is_client { &q.a } else { &q.b }, entry)
    };
    a.entries.iter().enumerate().map(string).collect()
}

/// Does the string that `from_utf8` refused stand around the place, as far before it as it is text?
fn is_bad_byte(q: &Request, r: &Refusal, bad: &FromUtf8Error) -> bool {
    let stream = if is_daemons(q, r) { &q.b } else { &q.a };
    let start = r.place.wrapping_sub(bad.utf8_error().valid_up_to());
    contents(stream, Entry { start, length: bad.as_bytes().len() }) == Some(bad.as_bytes())
}

/// Where nix-wire answers a text, ours is a kind and a number.
fn worded(q: &Request, a: &Success) -> Option<String> {
    match (q.call, a.kind) {
        (2, 1) => Some(String::new()),
        (2, 3) => Some(format!("{} paths", a.numbers[0])),
        (2, 4) => Some(format!("{} overrides", a.numbers[0])),
        _ => None,
    }
}

fn are_same_strings(q: &Request, rust: &Line, a: &Success) -> bool {
    match worded(q, a) {
        Some(text) => a.entries.is_empty() && rust.strings == [text.into_bytes()],
        None => strings(q, a).is_some_and(|found| rust.strings == found),
    }
}

fn is_same(q: &Request, rust: &Line, a: &Success) -> bool {
    (rust.kind, rust.end, rust.end2) == (a.kind, a.end, a.end2)
        && rust.numbers == a.numbers
        && rust.counts == a.counts
        && rust.payload == a.payload
        && are_same_strings(q, rust, a)
}

fn against(q: &Request, rust: &Line, ours: &Said) -> Verdict {
    let due = shortage(q, rust);
    match &ours.answer {
        Err(r) if due.contains(&r.number) => Verdict::Short,
        Ok(a) if due.is_empty() && is_same(q, rust, a) => Verdict::Same,
        _ => Verdict::Different,
    }
}

/// Refused by this number at this place, and by no other.
fn as_due(number: u64, place: usize, ours: &Said) -> Verdict {
    match &ours.answer {
        Err(r) if (r.number, r.place, r.stream) == (number, place, 0) => match number {
            BAD_TEXT => Verdict::BadByte,
            NO_SLOT => Verdict::Short,
            _ => Verdict::Refused,
        },
        _ => Verdict::Different,
    }
}

pub fn judge(q: &Request, rust: &Answer, ours: &Said) -> Verdict {
    // of ported mode
    let is_known = |number| (1..=12).contains(&number);
    if !ours.is_kept {
        return Verdict::Different;
    }
    match rust {
        Answer::Due(number, place) => as_due(*number, *place, ours),
        _ if ours.answer.as_ref().is_err_and(|r| !is_known(r.number)) => Verdict::Different,
        Answer::Out => Verdict::Out,
        Answer::No(bad) => match (&ours.answer, bad) {
            (Err(r), Some(bad)) if r.number == BAD_TEXT && reads(q.call) => {
                if is_bad_byte(q, r, bad) {
                    Verdict::BadByte
                } else {
                    Verdict::Different
                }
            }
            (Err(_), _) => Verdict::Refused,
            (Ok(_), _) => Verdict::Different,
        },
        Answer::Ok(line) => against(q, line, ours),
        Answer::Panic => Verdict::Different,
    }
}
