//! Requests from standard input, answered by the library in the probe's lines.
use crate::lent::Lent;
use crate::ours::{ask, is_compared};
use oracle::request::Request;
use std::io::{self, BufReader, BufWriter, Write};

pub fn run() -> io::Result<()> {
    let mut input = BufReader::new(io::stdin().lock());
    let mut out = BufWriter::new(io::stdout().lock());
    let mut lent = Lent::new();
    while let Some(q) = Request::read(&mut input)? {
        if is_compared(q.call) {
            writeln!(out, "{}", ask(&q, &mut lent))?;
        } else {
            writeln!(out, "no call")?;
        }
    }
    out.flush()
}
