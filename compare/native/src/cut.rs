//! Streams that a call passes to an end: cut at any byte before it, they are refused by 1, and bytes behind it change nothing. Messages before an error may
//! end early: cut in them, a stream is passed where nix-wire passes it.
use crate::judge::{judge, Verdict};
use crate::lent::Lent;
use crate::limit::row;
use crate::ours::{ask_at, in_both_modes, name, takes_place, Said, Success, PLACES};
use crate::requests::by_threads;
use crate::tally::Tally;
use lintelow::raw;
use oracle::answer::{answer, Answer};
use oracle::dice::Dice;
use oracle::generate;
use oracle::request::Request;
use std::collections::BTreeSet;
use std::sync::Mutex;
use std::time::Instant;

const COLUMNS: [&str; 4] = ["whole", "cut short", "same", "DIFFERENT"];
const WHOLE: usize = 0;
const REFUSED: usize = 1;
const SAME: usize = 2;
const DIFFERENT: usize = 3;

const CUT_SHORT: u64 = 1;

const READ_STDERR_LOOP: u64 = 5;
const READ_STDERR_WITH_ERROR: u64 = 6;

// Bytes that are added, at most.
const TAIL: usize = 40;

/// What is due once a stream is changed.
enum Due<'w> {
    /// The refusal names the stream that is cut: 1 for the daemon's stream of a handshake, else 0.
    CutShort(u64),
    Same(&'w Success),
    /// By 1, or passed.
    AsRust,
}

impl Due<'_> {
    /// The verdict's column, where it is met.
    fn met(&self, verdict: Verdict, ours: &Said) -> Option<usize> {
        match (self, &ours.answer) {
            (Due::CutShort(stream), Err(r)) if verdict == Verdict::Refused && (r.number, r.stream) == (CUT_SHORT, *stream) => Some(REFUSED),
            (Due::Same(whole), Ok(a)) if verdict == Verdict::Same && a == *whole => Some(SAME),
            (Due::AsRust, Err(r)) if verdict == Verdict::Refused && (r.number, r.stream) == (CUT_SHORT, 0) => Some(REFUSED),
            (Due::AsRust, Ok(_)) if verdict == Verdict::Same => Some(SAME),
            _ => None,
        }
    }
}

/// A request whose streams are changed.
struct Changed<'l> {
    index: usize,
    q: Request,
    at: usize,
    /// Bytes before the stream: fewer than the place where the cut is below that.
    before: usize,
    lent: &'l mut Lent,
    tally: &'l mut Tally,
}

impl Changed<'_> {
    fn stream(&mut self, which: u64) -> &mut Vec<u8> {
        if which == 0 {
            &mut self.q.a
        } else {
            &mut self.q.b
        }
    }

    fn both(&mut self) -> (Answer, Said) {
        // nix-wire cannot be asked behind the end of a stream
        let rust = if self.before < self.at { Answer::No(None) } else { answer(&self.q) };
        (rust, ask_at(&self.q, self.at, self.before, self.lent))
    }

    fn differs(&mut self, rust: Answer, ours: Said) {
        self.tally.count(&self.q, DIFFERENT);
        let ours = format!("{ours}, at place {} with {} bytes before it", self.at, self.before);
        self.tally.differs(self.index, &self.q, rust.to_string(), ours);
    }

    fn hold(&mut self, due: &Due) {
        let (rust, ours) = self.both();
        match due.met(judge(&self.q, &rust, &ours), &ours) {
            Some(column) => self.tally.count(&self.q, column),
            None => self.differs(rust, ours),
        }
    }

    /// The answer to the streams as they are, where both sides pass them.
    fn whole(&mut self) -> Option<Success> {
        let (rust, ours) = self.both();
        match judge(&self.q, &rust, &ours) {
            Verdict::Same => {
                self.tally.count(&self.q, WHOLE);
                return ours.answer.ok();
            }
            // no text, or too few bytes for a number
            Verdict::Refused | Verdict::BadByte => {}
            _ => self.differs(rust, ours),
        }
        None
    }

    /// Nothing behind the end, then tails.
    fn lengthen(&mut self, which: u64, end: usize, whole: &Success) {
        let due = Due::Same(whole);
        if self.stream(which).len() > end {
            self.stream(which).truncate(end);
            self.hold(&due);
        }
        let again = [self.stream(which), &[1; TAIL][..]].concat();
        for tail in [vec![0; TAIL], vec![0xff; TAIL], Dice::new(self.index as u64).bytes(TAIL), again] {
            for n in 1..=TAIL {
                self.stream(which).extend(&tail[..n]);
                self.hold(&due);
                self.stream(which).truncate(end);
            }
        }
    }

    /// At every byte, also of those before the place.
    fn cut(&mut self, which: u64) {
        let due = Due::CutShort(which);
        let messages = messages(&self.q);
        while self.stream(which).pop().is_some() {
            let is_in_messages = self.stream(which).len() < messages;
            self.hold(if is_in_messages { &Due::AsRust } else { &due });
        }
        while self.before > 0 {
            self.before -= 1;
            self.hold(&due);
        }
        self.before = self.at;
    }

    fn each_stream(&mut self, whole: &Success) {
        let streams: &[u64] = match self.q.call {
            7 => &[0, 1],
            8 => &[1],
            _ => &[0],
        };
        for &which in streams {
            let end = if which == 0 { whole.end } else { whole.end2 };
            self.lengthen(which, end, whole);
            let uncut = self.stream(which).clone();
            self.cut(which);
            *self.stream(which) = uncut;
        }
    }
}

/// Where messages end and their error's block begins; 0 where the call has none.
fn messages(q: &Request) -> usize {
    match answer(&Request { call: READ_STDERR_LOOP, ..q.clone() }) {
        Answer::Ok(line) if q.call == READ_STDERR_WITH_ERROR => line.end,
        _ => 0,
    }
}

/// The number of call and mode, and operation and version, both versions, the place, or version, kind and up to two traces.
type Tried = (u64, [u64; 4]);

fn tried(q: &Request, at: usize, whole: &Success) -> Tried {
    let what = match q.call {
        1..=4 => [q.operation, q.major, q.minor, 0],
        READ_STDERR_WITH_ERROR => [q.major, q.minor, whole.kind, whole.counts[0].min(2)],
        7 | 8 => [q.major, q.minor, whole.numbers[2], whole.numbers[3]],
        _ => [at as u64, 0, 0, 0],
    };
    (q.number(), what)
}

fn one(index: usize, q: Request, lent: &mut Lent, tally: &mut Tally) -> Option<Tried> {
    let at = if takes_place(q.call) { index % PLACES } else { 0 };
    let mut changed = Changed { index, q, at, before: at, lent, tally };
    let whole = changed.whole()?;
    changed.each_stream(&whole);
    Some(tried(&changed.q, at, &whole))
}

// 1.9 to 1.38, 0.255, 2.0 and 65535.255.
const VERSIONS: usize = 33;

// Of these 1.9 to 1.25 and 0.255: errors have no traces there.
const WITHOUT_TRACES: usize = 18;

// Those that the library knows.
fn operations() -> usize {
    (0..1000).filter(|&op| raw::op_has_client_framed_data(op).is_ok()).count()
}

fn to_be_tried(number: u64) -> usize {
    match number {
        1..=4 | 65 | 66 => operations() * VERSIONS,
        6 => VERSIONS,
        70 => WITHOUT_TRACES + 3 * (VERSIONS - WITHOUT_TRACES),
        7 | 8 => VERSIONS * VERSIONS,
        9..=17 => PLACES,
        _ => 0,
    }
}

/// A stream that nobody passes is not cut: that must not look like success.
fn are_all_tried(all: &BTreeSet<Tried>) -> bool {
    let mut are_all = true;
    for number in 0..128 {
        let (there, due) = (all.iter().filter(|t| t.0 == number).count(), to_be_tried(number));
        if there != due {
            println!("native: {} passed streams of {there} operations, versions, pairs of versions or places, not of {due}", name(number));
            are_all = false;
        }
    }
    are_all
}

/// Is there no difference, and was all tried?
pub fn run(seed: u64, threads: usize) -> bool {
    let began = Instant::now();
    let rows = [3, 4, 14, 15].into_iter().flat_map(|call| [256, 257].map(|length| row(call, length, length, 0)));
    let all = Mutex::new(BTreeSet::new());
    let tally = by_threads(threads, generate::whole(seed).into_iter().chain(rows), &COLUMNS, |index, q, lent, tally| {
        for q in in_both_modes(q) {
            let tried = one(index, q, lent, tally);
            all.lock().expect("no thread fails while it adds one").extend(tried);
        }
    });
    tally.print();
    let are_all = are_all_tried(&all.into_inner().expect("no thread fails while it adds one"));
    tally.conclude(&format!("with streams whole, cut and lengthened, of seed {seed}"), began) && are_all
}
