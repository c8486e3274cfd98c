//! What the library answers to a request.
use crate::lent::Lent;
use lintelow::{raw, Answer, Entry, Mode, Refusal, Version};
use oracle::published;
use oracle::request::{self, Request};
use std::{fmt, iter};

/// What a call is given. `s` from `at` on is `a`.
struct Asked<'q> {
    mode: Mode,
    op: u64,
    version: Version,
    a: &'q [u8],
    b: &'q [u8],
    s: &'q [u8],
    at: usize,
}

type Ask = for<'r> fn(Asked, &'r mut [u8], &'r mut [u8]) -> Result<Answer<'r>, Refusal>;

/// The calls that are compared, each with room for entries and for bytes lent to it.
const CALLS: [(u64, &str, Ask); 30] = [
    (1, "read_op_args", |q, e, p| raw::read_op_args(q.mode, q.op, q.version, q.a, e, p)),
    (2, "skip_op_args", |q, _, _| raw::skip_op_args(q.mode, q.op, q.version, q.a)),
    (3, "read_daemon_result", |q, e, p| raw::read_daemon_result(q.op, q.version, q.a, e, p)),
    (4, "skip_daemon_result", |q, _, _| raw::skip_daemon_result(q.op, q.version, q.a)),
    (5, "read_stderr_loop", |q, _, _| raw::read_stderr_loop(q.a)),
    (6, "read_stderr_with_error", |q, e, _| raw::read_stderr_with_error(q.mode, q.version, q.a, e)),
    (7, "parse_handshake", |q, e, _| raw::parse_handshake(q.a, q.b, e)),
    (8, "parse_daemon_handshake", |q, e, _| raw::parse_daemon_handshake(q.version, q.b, e)),
    (9, "read_u64", |q, _, _| raw::read_u64(q.s, q.at)),
    (10, "read_u32", |q, _, _| raw::read_u32(q.s, q.at)),
    (11, "read_bytes", |q, _, _| raw::read_bytes(q.s, q.at)),
    (12, "read_string", |q, _, _| raw::read_string(q.s, q.at)),
    (13, "skip_string", |q, _, _| raw::skip_string(q.s, q.at)),
    (14, "read_string_set", |q, e, _| raw::read_string_set(q.s, q.at, e)),
    (15, "skip_string_set", |q, _, _| raw::skip_string_set(q.s, q.at)),
    (16, "read_framed", |q, _, p| raw::read_framed(q.s, q.at, p)),
    (17, "skip_framed", |q, _, _| raw::skip_framed(q.s, q.at)),
    (18, "peek_u64", |q, _, _| raw::peek_u64(q.s, q.at)),
    (20, "write_u64", |q, _, p| raw::write_u64(p, q.op)),
    (21, "write_u32", |q, _, p| raw::write_u32(p, q.op as u32)),
    (22, "write_bytes", |q, _, p| raw::write_bytes(p, q.a)),
    (23, "write_string", |q, _, p| raw::write_string(p, q.a)),
    (24, "write_string_set", |q, _, p| raw::write_string_set(p, q.a, q.b, q.op as usize)),
    (26, "mode text", |q, _, p| raw::write_mode(p, q.op)),
    (27, "N paths", |q, _, p| raw::write_paths(p, q.op)),
    (28, "N overrides", |q, _, p| raw::write_overrides(p, q.op)),
    (30, "extract_store_path", |q, _, _| raw::extract_store_path(q.a)),
    (31, "op_has_client_framed_data", |q, _, _| raw::op_has_client_framed_data(q.op)),
    (33, "version from wire", |q, _, _| raw::version_from_wire(q.op)),
    (34, "write_op_args", write_op_args),
];

/// b is the record, the length of the entries, the entries and the payload. All of b is given as the record: what follows its numbers is not looked at.
fn write_op_args<'r>(q: Asked, _: &'r mut [u8], out: &'r mut [u8]) -> Result<Answer<'r>, Refusal> {
    let (length, rest) = match q.b.get(raw::RECORD..).and_then(<[u8]>::split_first_chunk) {
        Some((length, rest)) => (u64::from_le_bytes(*length) as usize, rest),
        None => (0, &[][..]),
    };
    let (entries, payload) = rest.split_at(length.min(rest.len()));
    raw::write_op_args(q.mode, q.op, q.version, q.b, q.a, entries, payload, out)
}

fn row(call: u64) -> Option<&'static (u64, &'static str, Ask)> {
    CALLS.iter().find(|&&(number, ..)| number == call)
}

pub fn is_compared(call: u64) -> bool {
    row(call).is_some()
}

/// The name of a call by its number, which has the mode in it.
pub fn name(number: u64) -> String {
    let (call, is_published) = request::call(number);
    let name = row(call).map_or("none", |&(_, name, _)| name);
    format!("{name}{}", if is_published { ", published" } else { "" })
}

/// The request, and in published mode too what it comes to there, where the call takes a mode.
pub fn in_both_modes(q: Request) -> impl Iterator<Item = Request> {
    let published = published::forms(q.clone()).into_iter().filter(|p| matches!(p.call, 1 | 2 | 6));
    iter::once(q).chain(published)
}

fn call<'r>(q: &Request, s: &[u8], at: usize, lent: &'r mut Lent) -> Result<Answer<'r>, Refusal> {
    let (_, _, ask) = row(q.call).expect("only calls that are compared are asked");
    let mode = if q.is_published { Mode::Published } else { Mode::Ported };
    let version = Version::new(q.major as u16, q.minor as u8);
    let (entries, room) = lent.parts();
    ask(Asked { mode, op: q.operation, version, a: &q.a, b: &q.b, s, at }, entries, room)
}

#[derive(PartialEq)]
pub struct Success {
    pub kind: u64,
    pub end: usize,
    pub end2: usize,
    pub numbers: [u64; 12],
    pub counts: [u64; 3],
    pub entries: Vec<Entry>,
    pub payload: Vec<u8>,
}

pub struct Said {
    pub answer: Result<Success, Refusal>,
    /// Is lent memory beyond what is reported as it was lent?
    pub is_kept: bool,
}

fn success(q: &Request, at: usize, a: Answer) -> Success {
    let mut entries: Vec<Entry> = a.entries.iter().collect();
    let mut numbers = a.numbers;
    if matches!((q.call, a.kind), (2, 2) | (11 | 12, _)) {
        entries.push(a.own_entry());
        numbers[1..3].fill(0);
    }
    // The payload's length, which the probe and so the oracle say as number 0 too.
    if q.call == 16 {
        numbers[0] += a.payload.len() as u64;
    }
    for entry in &mut entries {
        entry.start = entry.start.wrapping_sub(at);
    }
    Success { kind: a.kind, end: a.end.wrapping_sub(at), end2: a.end2, numbers, counts: a.counts, entries, payload: a.payload.to_vec() }
}

/// Calls that take a place are asked at places from 0 on, with other bytes before it.
pub const PLACES: usize = 5;

pub fn takes_place(call: u64) -> bool {
    matches!(call, 9..=18)
}

fn place(q: &Request) -> usize {
    if takes_place(q.call) {
        q.a.len() % PLACES
    } else {
        0
    }
}

pub fn ask(q: &Request, lent: &mut Lent) -> Said {
    ask_at(q, place(q), place(q), lent)
}

/// Is it the daemon's stream of a handshake that was refused?
pub fn is_daemons(q: &Request, r: &Refusal) -> bool {
    q.call == 8 || r.stream == 1
}

/// The same, with the stream of a refusal cut where it refuses.
pub fn ask_cut(q: &Request, r: &Refusal, lent: &mut Lent) -> Said {
    let mut cut = q.clone();
    let stream = if is_daemons(q, r) { &mut cut.b } else { &mut cut.a };
    stream.truncate(r.place);
    ask_at(&cut, place(q), place(q), lent)
}

/// At a place, with so many bytes before the stream: fewer than the place where it is cut below that.
pub fn ask_at(q: &Request, at: usize, before: usize, lent: &mut Lent) -> Said {
    let moved = [&[0xee; PLACES][..before], &q.a].concat();
    lent.fill(q.slots, q.room);
    let (answer, entries, payload) = match call(q, &moved, at, lent) {
        Ok(a) => {
            let (entries, payload) = (a.entries.len(), a.payload.len());
            (Ok(success(q, at, a)), entries, payload)
        }
        Err(r) => (Err(Refusal { place: r.place.wrapping_sub(at), ..r }), 0, 0),
    };
    Said { answer, is_kept: lent.is_kept_beyond(entries, payload) }
}

fn list<T: ToString>(xs: impl IntoIterator<Item = T>) -> String {
    let words: Vec<String> = xs.into_iter().map(|x| x.to_string()).collect();
    words.join(",")
}

/// As the probe says it.
impl fmt::Display for Said {
    fn fmt(&self, f: &mut fmt::Formatter) -> fmt::Result {
        let a = match &self.answer {
            Ok(a) => a,
            Err(r) => {
                let touched = if self.is_kept { "" } else { " touched" };
                return write!(f, "no {} {} {}{touched}", r.number, r.place, r.stream);
            }
        };
        let entries = a.entries.iter().map(|e| format!("{}:{}", e.start, e.length));
        write!(f, "ok kind={} end={} end2={}", a.kind, a.end, a.end2)?;
        write!(f, " n={} c={} e={} p=", list(a.numbers), list(a.counts), list(entries))?;
        a.payload.iter().try_for_each(|b| write!(f, "{b:02x}"))?;
        write!(f, " kept={}", self.is_kept as u8)
    }
}
