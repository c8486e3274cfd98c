//! nix-wire and the static library in one process.
//! `native requests SEED COUNT THREADS` holds their answers against each other, over the requests of `oracle generate SEED COUNT`, and of `oracle published`
//! those that take a mode.
//! `native text STRIDE THREADS` holds the library's text against Rust's `from_utf8`: all strings of up to three bytes, of those of four that begin with
//! E0 or above every STRIDE-th, and longer ones.
//! `native limit` holds their answers to strings and chunks of the limit and above, and to long strings in a row, against each other.
//! `native calls SEED COUNT` has calls written by the library, in both modes, reads them by nix-wire, and holds them against what its writers write.
//! `native cut SEED THREADS` cuts streams that the library passes, in both modes, at every byte, and adds bytes behind them.
//! `native answer` reads requests in the probe's form and writes the library's answers in the probe's lines.
//! Exit status: 0 no difference, 1 a difference, 2 bad usage.
#![feature(alloc_error_hook)]
mod calls;
mod cut;
mod judge;
mod lent;
mod limit;
mod lines;
mod memory;
mod ours;
mod requests;
mod tally;
mod text;

use std::process::ExitCode;

fn main() -> ExitCode {
    oracle::answer::silence();
    memory::panic_without();
    let words: Vec<String> = std::env::args().skip(1).collect();
    let words: Vec<&str> = words.iter().map(String::as_str).collect();
    let number = |word: &str| word.parse().ok().filter(|&n: &usize| n > 0);
    let is_fine = match words[..] {
        ["requests", seed, count, threads] => match (seed.parse(), number(count), number(threads)) {
            (Ok(seed), Some(count), Some(threads)) => requests::run(seed, count, threads),
            _ => usage(),
        },
        ["text", stride, threads] => match (number(stride), number(threads)) {
            (Some(stride), Some(threads)) => text::run(stride, threads),
            _ => usage(),
        },
        ["limit"] => limit::run(),
        ["calls", seed, count] => match (seed.parse(), number(count)) {
            (Ok(seed), Some(count)) => calls::run(seed, count),
            _ => usage(),
        },
        ["cut", seed, threads] => match (seed.parse(), number(threads)) {
            (Ok(seed), Some(threads)) => cut::run(seed, threads),
            _ => usage(),
        },
        ["answer"] => lines::run().is_ok(),
        _ => usage(),
    };
    if is_fine {
        ExitCode::SUCCESS
    } else {
        ExitCode::FAILURE
    }
}

fn usage() -> ! {
    eprintln!(
        "usage: native requests SEED COUNT THREADS | native text STRIDE THREADS | native limit | native calls SEED COUNT | native cut SEED THREADS | \
         native answer"
    );
    std::process::exit(2)
}
