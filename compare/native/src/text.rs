//! Text by the library against Rust's `from_utf8`, string for string.
use lintelow::{raw, Entry};
use std::ops::Range;
use std::str;
use std::sync::atomic::{AtomicUsize, Ordering};
use std::thread;
use std::time::Instant;

// The contents of a string stand behind its length.
const CONTENTS: usize = 8;

/// Strings of one length, as numbers with the first byte on top.
struct Part {
    length: usize,
    numbers: Range<u64>,
    stride: usize,
}

// What a thread takes at a time.
const PART: u64 = 1 << 20;

fn parts(length: usize, numbers: Range<u64>, stride: usize) -> impl Iterator<Item = Part> {
    let end = numbers.end;
    let step = PART * stride as u64;
    let part = move |start: u64| Part { length, numbers: start..end.min(start + step), stride };
    numbers.step_by(step as usize).map(part)
}

#[derive(Default)]
struct Tally {
    strings: u64,
    differences: u64,
    /// The shortest string first, and what the library said.
    smallest: Option<(usize, Vec<u8>, String)>,
}

impl Tally {
    fn add(&mut self, other: Tally) {
        self.strings += other.strings;
        self.differences += other.differences;
        self.smallest = self.smallest.take().into_iter().chain(other.smallest).min();
    }
}

/// A string of that length, with padding.
fn try_one(stream: &[u8], length: usize, tally: &mut Tally) {
    let contents = &stream[CONTENTS..CONTENTS + length];
    let text = str::from_utf8(contents);
    let said = raw::read_string(stream, 0);
    let is_right = match &said {
        Ok(a) => text.is_ok() && a.end == stream.len() && a.own_entry() == Entry { start: CONTENTS, length },
        Err(r) => text.is_err_and(|bad| (r.number, r.place, r.stream) == (3, CONTENTS + bad.valid_up_to(), 0)),
    };
    tally.strings += 1;
    if !is_right {
        tally.differences += 1;
        tally.add(Tally { smallest: Some((length, contents.to_vec(), format!("{said:?}"))), ..Tally::default() });
    }
}

fn try_all(part: &Part, tally: &mut Tally) {
    // No text has such a byte: were the padding looked at, all would be refused.
    let mut stream = [0xff; 16];
    stream[..CONTENTS].copy_from_slice(&(part.length as u64).to_le_bytes());
    let whole = if part.length == 0 { 8 } else { 16 };
    for x in part.numbers.clone().step_by(part.stride) {
        stream[CONTENTS..CONTENTS + part.length].copy_from_slice(&x.to_be_bytes()[8 - part.length..]);
        try_one(&stream[..whole], part.length, tally);
    }
}

/// How many longer strings are tried: short ones do not show what is done with many bytes at once.
const LONGER: usize = 1_000_000;
/// ASCII, then characters of every length from both ends of their ranges.
const WORDS: [&str; 18] = [
    "a",
    "/",
    "-1.0",
    "\u{7f}",
    "abcdefgh",
    "0123456789abcdef",
    "\u{80}",
    "é",
    "\u{7ff}",
    "\u{800}",
    "中",
    "\u{d7ff}",
    "\u{e000}",
    "\u{ffff}",
    "\u{10000}",
    "🙂",
    "\u{fffff}",
    "\u{10ffff}",
];
const OF_ASCII: usize = 6;
const MOST_WORDS: usize = 40;

/// Numbers that look like random ones, always the same.
struct Dice(u64);

impl Dice {
    fn below(&mut self, bound: usize) -> usize {
        self.0 = self.0.wrapping_mul(6_364_136_223_846_793_005).wrapping_add(1_442_695_040_888_963_407);
        (self.0 >> 33) as usize % bound
    }
}

/// One in three is of ASCII, and in every second one a byte is another, is left out or is the last.
fn longer(dice: &mut Dice) -> Vec<u8> {
    let kinds = if dice.below(3) == 0 { OF_ASCII } else { WORDS.len() };
    let mut text: Vec<u8> = (0..1 + dice.below(MOST_WORDS)).flat_map(|_| WORDS[dice.below(kinds)].bytes()).collect();
    let place = dice.below(text.len());
    match dice.below(6) {
        0 => text[place] = dice.below(256) as u8,
        1 => _ = text.remove(place),
        2 => text.truncate(place + 1),
        _ => {}
    }
    text
}

fn try_longer(tally: &mut Tally) {
    let mut dice = Dice(211);
    for _ in 0..LONGER {
        let text = longer(&mut dice);
        let mut stream = [&(text.len() as u64).to_le_bytes()[..], &text].concat();
        stream.resize(stream.len().next_multiple_of(8), 0xff);
        try_one(&stream, text.len(), tally);
    }
}

fn work(all: &[Part], next: &AtomicUsize) -> Tally {
    let mut tally = Tally::default();
    while let Some(part) = all.get(next.fetch_add(1, Ordering::Relaxed)) {
        try_all(part, &mut tally);
    }
    tally
}

/// Is there no difference?
pub fn run(stride: usize, threads: usize) -> bool {
    let began = Instant::now();
    let short = (0..=3).flat_map(|length| parts(length, 0..1 << (8 * length), 1));
    let all: Vec<Part> = short.chain(parts(4, 0xe0 << 24..1 << 32, stride)).collect();
    let next = AtomicUsize::new(0);
    let mut tally = Tally::default();
    thread::scope(|s| {
        let workers: Vec<_> = (0..threads).map(|_| s.spawn(|| work(&all, &next))).collect();
        for worker in workers {
            tally.add(worker.join().expect("a thread ends with its counts"));
        }
    });
    try_longer(&mut tally);
    if let Some((_, bytes, said)) = &tally.smallest {
        println!("the smallest that differs: {bytes:02x?}\nrust: {:?}\nours: {said}", str::from_utf8(bytes));
    }
    let which = if stride == 1 { "all".to_string() } else { format!("one in {stride}") };
    println!(
        "native: {} strings, all of up to three bytes, {which} of four from E0 on and {LONGER} longer ones, {} differences, {:.1} s",
        tally.strings,
        tally.differences,
        began.elapsed().as_secs_f64()
    );
    tally.differences == 0
}
