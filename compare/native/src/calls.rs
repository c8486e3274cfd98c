//! Calls that the library writes: nix-wire reads them to the same values, and its own writers write the same bytes.
use crate::judge::Verdict;
use crate::lent::Lent;
use crate::ours::{ask, Said};
use crate::tally::Tally;
use oracle::answer::{answer, Answer};
use oracle::calls::{streams, written};
use oracle::line::Line;
use oracle::request::Request;
use std::time::Instant;

const WRITE_OP_ARGS: u64 = 34;

const OUTPUT_FULL: u64 = 10;
const NO_ARGUMENTS: u64 = 13;

/// Of bytes that belong to no string; no text has it.
const BETWEEN: u8 = 0xff;

/// To write what nix-wire has read. The strings stand in the bytes from the last to the first.
fn request(read: &Request, line: &Line, room: usize) -> Request {
    let mut a = vec![BETWEEN];
    let mut entries = Vec::new();
    for s in line.strings.iter().rev() {
        entries.push([a.len() as u64, s.len() as u64]);
        a.extend(s);
        a.push(BETWEEN);
    }
    let entries: Vec<u64> = entries.into_iter().rev().flatten().collect();
    let numbers = line.numbers.iter().chain(&line.counts).copied().chain([8 * entries.len() as u64]).chain(entries.iter().copied());
    let mut b: Vec<u8> = numbers.flat_map(u64::to_le_bytes).collect();
    b.extend(&line.payload);
    Request { call: WRITE_OP_ARGS, room: room as u64, a, b, ..read.clone() }
}

/// The same but for where it ends.
fn is_same(line: &Line, again: &Line) -> bool {
    (line.kind, line.numbers, line.counts) == (again.kind, again.numbers, again.counts)
        && line.strings == again.strings
        && line.payload == again.payload
}

/// What nix-wire reads of it, up to its end, is what it read before.
fn reads_back(q: &Request, line: &Line, output: &[u8]) -> bool {
    let again = answer(&Request { call: 1, a: output.to_vec(), b: vec![], ..q.clone() });
    matches!(again, Answer::Ok(again) if again.end == output.len() && is_same(line, &again))
}

fn judge(q: &Request, line: &Line, theirs: Option<&[u8]>, ours: &Said) -> Verdict {
    match (&ours.answer, theirs) {
        _ if !ours.is_kept => Verdict::Different,
        (Err(r), None) if (r.number, r.place) == (NO_ARGUMENTS, 0) => Verdict::Refused,
        (Err(r), Some(theirs)) if (r.number, r.place) == (OUTPUT_FULL, 0) && theirs.len() as u64 > q.room => Verdict::Short,
        (Ok(a), Some(theirs)) if a.payload == theirs && a.end == theirs.len() && reads_back(q, line, &a.payload) => Verdict::Same,
        _ => Verdict::Different,
    }
}

// Exactly enough, one short in five times, or more.
fn room(index: usize, needed: usize) -> usize {
    match index % 5 {
        0 => needed.saturating_sub(1),
        1 => needed + 9,
        _ => needed,
    }
}

fn one(index: usize, read: &Request, lent: &mut Lent, tally: &mut Tally) {
    let Answer::Ok(line) = answer(read) else { panic!("nix-wire reads what is not damaged") };
    let theirs = written(read).expect("nix-wire writes what it has read");
    let q = request(read, &line, room(index, theirs.as_ref().map_or(0, Vec::len)));
    let ours = ask(&q, lent);
    let verdict = judge(&q, &line, theirs.as_deref(), &ours);
    tally.count(&q, verdict as usize);
    if verdict == Verdict::Different {
        let theirs = theirs.map_or(Line::of_kind(0), Line::written);
        tally.differs(index, &q, theirs.to_string(), ours.to_string());
    }
}

/// Is there no difference?
pub fn run(seed: u64, count: usize) -> bool {
    let began = Instant::now();
    let (mut lent, mut tally) = (Lent::new(), Tally::new(&Verdict::NAMES));
    for is_published in [false, true] {
        for (index, q) in streams(seed, is_published).take(count).enumerate() {
            one(index, &q, &mut lent, &mut tally);
        }
    }
    tally.print();
    tally.conclude(&format!("to write a call, read back by the Rust, of seed {seed}"), began)
}
