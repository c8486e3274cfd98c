//! The requests of a seed, answered by both.
use crate::judge::{judge, Verdict};
use crate::lent::Lent;
use crate::ours::{ask, ask_cut, in_both_modes, Said};
use crate::tally::Tally;
use oracle::answer::{answer, Answer};
use oracle::generate;
use oracle::request::Request;
use std::sync::Mutex;
use std::thread;
use std::time::Instant;

// What a thread takes at a time.
const BATCH: usize = 256;

type Numbered = (usize, Request);

fn work(next: &Mutex<impl Iterator<Item = Numbered>>, mut tally: Tally, one: impl Fn(usize, Request, &mut Lent, &mut Tally)) -> Tally {
    let mut lent = Lent::new();
    loop {
        let batch: Vec<Numbered> = {
            let mut next = next.lock().expect("no thread fails while it takes requests");
            next.by_ref().take(BATCH).collect()
        };
        if batch.is_empty() {
            return tally;
        }
        for (index, q) in batch {
            one(index, q, &mut lent, &mut tally);
        }
    }
}

/// Cut at the bad byte, the stream is refused by 1 at the string's contents.
fn are_contents_cut(q: &Request, rust: &Answer, ours: &Said, lent: &mut Lent) -> bool {
    let (Answer::No(Some(bad)), Err(r)) = (rust, &ours.answer) else { return false };
    let cut = ask_cut(q, r, lent);
    let contents = r.place - bad.utf8_error().valid_up_to();
    cut.is_kept && cut.answer.is_err_and(|c| (c.number, c.place, c.stream) == (1, contents, r.stream))
}

pub fn one(index: usize, q: &Request, lent: &mut Lent, tally: &mut Tally) {
    let rust = answer(q);
    let ours = ask(q, lent);
    let mut verdict = judge(q, &rust, &ours);
    // where a place is due it is known
    let is_due = matches!(rust, Answer::Due(..));
    if verdict == Verdict::BadByte && !is_due && !are_contents_cut(q, &rust, &ours, lent) {
        verdict = Verdict::Different;
    }
    tally.count(q, verdict as usize);
    if verdict == Verdict::Different {
        tally.differs(index, q, rust.to_string(), ours.to_string());
    }
}

/// Each request by one of the threads.
pub fn by_threads(
    threads: usize,
    requests: impl Iterator<Item = Request> + Send,
    columns: &'static [&'static str],
    one: impl Fn(usize, Request, &mut Lent, &mut Tally) + Sync,
) -> Tally {
    let next = Mutex::new(requests.enumerate());
    let mut tally = Tally::new(columns);
    thread::scope(|s| {
        let workers: Vec<_> = (0..threads).map(|_| s.spawn(|| work(&next, Tally::new(columns), &one))).collect();
        for worker in workers {
            tally.add(worker.join().expect("a thread ends with its counts"));
        }
    });
    tally
}

/// Is there no difference?
pub fn run(seed: u64, count: usize, threads: usize) -> bool {
    let began = Instant::now();
    let requests = generate::requests(seed).take(count).flat_map(in_both_modes).chain(generate::published(seed, count));
    let tally = by_threads(threads, requests, &Verdict::NAMES, |index, q, lent, tally| one(index, &q, lent, tally));
    tally.print();
    tally.conclude(&format!("of seed {seed}"), began)
}
