//! What nix-wire answered, in the probe's form. nix-wire has no entries: in their place stand the strings, `t=HEX,HEX,`, in reading order.
use anyhow::Result;
use std::fmt;
use std::string::FromUtf8Error;

#[derive(Default)]
pub struct Line {
    pub kind: u64,
    pub end: usize,
    pub end2: usize,
    pub numbers: [u64; 12],
    pub counts: [u64; 3],
    pub strings: Vec<Vec<u8>>,
    pub payload: Vec<u8>,
}

impl Line {
    pub fn of_kind(kind: u64) -> Line {
        Line { kind, ..Line::default() }
    }

    pub fn numbers(mut self, numbers: &[u64]) -> Line {
        self.numbers[..numbers.len()].copy_from_slice(numbers);
        self
    }

    pub fn string(mut self, s: String) -> Line {
        self.strings.push(s.into_bytes());
        self
    }

    /// A set, its count in the given place.
    pub fn set(mut self, i: usize, set: Vec<String>) -> Line {
        self.counts[i] = set.len() as u64;
        self.strings.extend(set.into_iter().map(String::into_bytes));
        self
    }

    pub fn pairs(mut self, pairs: Vec<(String, String)>) -> Line {
        self.counts[0] = pairs.len() as u64;
        for (x, y) in pairs {
            self = self.string(x).string(y);
        }
        self
    }

    pub fn payload(mut self, payload: Vec<u8>) -> Line {
        self.payload = payload;
        self
    }

    pub fn ending(mut self, end: usize) -> Line {
        self.end = end;
        self
    }

    pub fn written(bytes: Vec<u8>) -> Line {
        Line::default().ending(bytes.len()).payload(bytes)
    }
}

fn list(f: &mut fmt::Formatter, xs: &[u64]) -> fmt::Result {
    let words: Vec<String> = xs.iter().map(u64::to_string).collect();
    f.write_str(&words.join(","))
}

fn hex(f: &mut fmt::Formatter, bytes: &[u8]) -> fmt::Result {
    bytes.iter().try_for_each(|b| write!(f, "{b:02x}"))
}

impl fmt::Display for Line {
    fn fmt(&self, f: &mut fmt::Formatter) -> fmt::Result {
        write!(f, "ok kind={} end={} end2={} n=", self.kind, self.end, self.end2)?;
        list(f, &self.numbers)?;
        f.write_str(" c=")?;
        list(f, &self.counts)?;
        f.write_str(" t=")?;
        // a comma behind each, so that no string and one empty string differ
        for s in &self.strings {
            hex(f, s)?;
            f.write_str(",")?;
        }
        f.write_str(" p=")?;
        hex(f, &self.payload)
    }
}

pub enum Answer {
    Ok(Line),
    /// With the string that is no text, where that is why.
    No(Option<FromUtf8Error>),
    /// Refused by this number, at this place.
    Due(u64, usize),
    /// Outside the domain of the comparison.
    Out,
    /// A panic that the domain does not explain.
    Panic,
}

impl From<Result<Line>> for Answer {
    fn from(r: Result<Line>) -> Answer {
        r.map_or_else(|why| Answer::No(why.chain().find_map(|cause| cause.downcast_ref().cloned())), Answer::Ok)
    }
}

impl fmt::Display for Answer {
    fn fmt(&self, f: &mut fmt::Formatter) -> fmt::Result {
        match self {
            Answer::Ok(line) => line.fmt(f),
            Answer::No(_) => f.write_str("no"),
            // the whole line that the probe has to write
            Answer::Due(number, place) => write!(f, "no {number} {place} 0"),
            Answer::Out => f.write_str("out"),
            Answer::Panic => f.write_str("panic"),
        }
    }
}
