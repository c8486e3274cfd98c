//! Counts by call and verdict, and the smallest request that differs.
use crate::ours::name;
use oracle::request::Request;
use std::collections::BTreeMap;
use std::time::Instant;

struct Difference {
    length: usize,
    index: usize,
    which: String,
    hex: String,
    rust: String,
    ours: String,
}

impl Difference {
    fn size(&self) -> (usize, usize) {
        (self.length, self.index)
    }
}

pub struct Tally {
    /// The verdicts. The last is that of a difference.
    columns: &'static [&'static str],
    /// By the number of call and mode.
    counts: BTreeMap<u64, Vec<u64>>,
    smallest: Option<Difference>,
}

// No line is longer.
const LONGEST: usize = 1 << 20;

fn cut<S: AsRef<str>>(words: impl IntoIterator<Item = S>) -> String {
    let mut line = String::new();
    for word in words {
        if line.len() + word.as_ref().len() > LONGEST {
            return line + " and more";
        }
        line += word.as_ref();
    }
    line
}

impl Tally {
    pub fn new(columns: &'static [&'static str]) -> Tally {
        Tally { columns, counts: BTreeMap::new(), smallest: None }
    }

    fn row(&mut self, number: u64) -> &mut Vec<u64> {
        self.counts.entry(number).or_insert_with(|| vec![0; self.columns.len()])
    }

    pub fn count(&mut self, q: &Request, column: usize) {
        self.row(q.number())[column] += 1;
    }

    pub fn differs(&mut self, index: usize, q: &Request, rust: String, ours: String) {
        let mut raw = Vec::new();
        q.write(&mut raw).expect("memory takes what is written");
        self.keep(Difference {
            length: raw.len(),
            index,
            which: format!("request {index}, call {}, operation {}, version {}.{}", q.number(), q.operation, q.major, q.minor),
            hex: cut(raw.iter().map(|b| format!("{b:02x}"))),
            rust: cut([rust]),
            ours: cut([ours]),
        });
    }

    fn keep(&mut self, d: Difference) {
        if self.smallest.as_ref().is_none_or(|s| d.size() < s.size()) {
            self.smallest = Some(d);
        }
    }

    pub fn add(&mut self, other: Tally) {
        for (number, more) in other.counts {
            self.row(number).iter_mut().zip(more).for_each(|(x, y)| *x += y);
        }
        other.smallest.into_iter().for_each(|d| self.keep(d));
    }

    fn totals(&self) -> Vec<u64> {
        (0..self.columns.len()).map(|column| self.counts.values().map(|c| c[column]).sum()).collect()
    }

    fn differences(&self) -> u64 {
        self.totals()[self.columns.len() - 1]
    }

    /// The last line: is there no difference?
    pub fn conclude(&self, which: &str, began: Instant) -> bool {
        let all: u64 = self.totals().iter().sum();
        println!("\nnative: {all} requests {which}, {} differences, {:.1} s", self.differences(), began.elapsed().as_secs_f64());
        self.differences() == 0
    }

    pub fn print(&self) {
        let head: String = self.columns.iter().map(|name| format!("{name:>11}")).collect();
        println!("{:<39}{head}", "call");
        let line = |name: &str, counts: &[u64]| {
            let cells: String = counts.iter().map(|n| format!("{n:>11}")).collect();
            println!("{name:<39}{cells}");
        };
        for (&number, counts) in &self.counts {
            line(&format!("{number:>2} {}", name(number)), counts);
        }
        line("all", &self.totals());
        if let Some(d) = &self.smallest {
            println!("\nthe smallest of {} that differ, {}:\n{}\nrust: {}\nours: {}", self.differences(), d.which, d.hex, d.rust, d.ours);
        }
    }
}
