//! `bench full|quick SAMPLES FOLDER [WORD]` reads and skips the same streams, and the calls of the recordings in the folder, by Lintelow and by nix-wire,
//! in this one process, and reads and writes calls by Lintelow: all rows, or those with the word in their name or their table's. It writes how many rows
//! there are, and of each what it is and then its figures, for ../run, which makes tables of them.
mod calls;
mod clock;
mod measure;
mod memory;
mod ours;
mod poll;
mod replies;
mod rows;
mod streams;
mod theirs;

use calls::recorded;
use measure::Effort;
use rows::Row;
use std::path::Path;
use std::time::Duration;
use streams::Shape;

const VERSION: (u16, u8) = (1, 38);

#[derive(Clone, Copy, PartialEq, Eq)]
enum Call {
    Read,
    Skip,
}

#[derive(Clone, Copy, PartialEq, Eq)]
enum Through {
    /// The reply to an operation, by the operation's layout.
    Reply,
    /// A set or framed data by its own call.
    Wire,
}

trait Side {
    fn needs_preparing(&self) -> bool;
    /// What comes before a pass and is not timed: room that is cleared, a reader that stands at the start.
    fn prepare(&mut self);
    /// All replies of the stream, or all calls.
    fn pass(&mut self);
}

/// QueryAllValidPaths replies with a set, NarFromPath with framed data.
fn operation(shape: Shape) -> u64 {
    match shape {
        Shape::Set => 23,
        Shape::Framed => 38,
    }
}

fn stop(why: &str) -> ! {
    eprintln!("{why}");
    std::process::exit(2)
}

fn main() {
    let words: Vec<String> = std::env::args().skip(1).collect();
    let words: Vec<&str> = words.iter().map(String::as_str).collect();
    let [how @ ("full" | "quick"), samples, folder, ref word @ ..] = words[..] else { stop("usage: bench full|quick SAMPLES FOLDER [WORD]") };
    let samples = samples.parse().ok().filter(|&samples| samples > 0).unwrap_or_else(|| stop("the number of samples must be 1 or more"));
    let is_full = how == "full";
    let effort = Effort { samples, enough: Duration::from_millis(if is_full { 4 } else { 2 }) };
    let recordings = recorded::all(Path::new(folder)).unwrap_or_else(|why| stop(&format!("the recordings can't be read: {why}")));
    let mut rows: Vec<Row> = calls::rows(&recordings).into_iter().chain(replies::rows(is_full)).collect();
    rows.retain(|row| word.iter().all(|word| row.has(word)));
    rows::measure(rows, effort);
}
