//! `oracle generate SEED COUNT` writes requests for the probe, and `oracle published SEED COUNT` the same in published mode and more for what it reads
//! otherwise; `oracle answer` reads requests and writes what nix-wire answers, a line for each.
//! crates/probe/README.md has the form of requests and lines.
use oracle::request::Request;
use oracle::{answer, generate, published};
use std::io::{self, BufWriter, Write};

fn generate(word: &str, seed: u64, count: usize) -> io::Result<()> {
    let mut out = BufWriter::new(io::stdout().lock());
    let mut requests = generate::requests(seed).take(count);
    match word {
        "generate" => requests.try_for_each(|q| q.write(&mut out)),
        _ => requests.flat_map(published::forms).chain(generate::published(seed, count)).try_for_each(|q| q.write(&mut out)),
    }?;
    out.flush()
}

// Each line leaves at once: a count outside the domain can abort the process, and the lines before it must not be lost.
fn answer() -> io::Result<()> {
    let mut input = io::stdin().lock();
    let mut out = io::stdout().lock();
    while let Some(q) = Request::read(&mut input)? {
        writeln!(out, "{}", answer::answer(&q))?;
    }
    Ok(())
}

fn main() -> io::Result<()> {
    answer::silence();
    let words: Vec<String> = std::env::args().skip(1).collect();
    let words: Vec<&str> = words.iter().map(String::as_str).collect();
    match words[..] {
        ["answer"] => answer(),
        [word @ ("generate" | "published"), seed, count] => match (seed.parse(), count.parse()) {
            (Ok(seed), Ok(count)) => generate(word, seed, count),
            _ => usage(),
        },
        _ => usage(),
    }
}

fn usage() -> ! {
    eprintln!("usage: oracle answer | oracle generate SEED COUNT | oracle published SEED COUNT");
    std::process::exit(2)
}
