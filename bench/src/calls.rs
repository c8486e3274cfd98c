//! Calls one by one, as a recorder makes them: at the C boundary, by the crate's layer `raw`, and by nix-wire.
mod boundary;
mod handshakes;
mod layer;
pub mod recorded;
mod same;
mod short;
mod text;
mod theirs;
mod written;

use crate::measure::{self, Effort};
use crate::memory::{self, Allocated};
use crate::rows::{Figures, Row};
use crate::Side;
use boundary::Boundary;
use layer::Layer;
use lintelow::raw::ENTRY;
use lintelow::Version;
use recorded::Recording;
use std::hint::black_box;

#[derive(Clone, Copy, PartialEq, Eq)]
pub enum What {
    ReadArguments,
    SkipArguments,
    StderrWithError,
    StderrLoop,
    ReadReply,
    SkipReply,
    Handshake,
    DaemonHandshake,
}

/// What is asked of which bytes, the call's own part of a stream.
#[derive(Clone, Copy)]
pub struct Call<'s> {
    pub op: u64,
    pub version: Version,
    /// Of a handshake what the daemon says.
    pub bytes: &'s [u8],
    /// What the client says, of both sides of a handshake.
    pub client: &'s [u8],
}

/// Calls of one kind.
pub struct Calls<'s> {
    pub what: What,
    pub calls: Vec<Call<'s>>,
    /// How many more there were, which the sides do not read.
    pub left_out: usize,
}

/// Room that is enough for any of the calls. It is lent to one after the other, and not cleared between them.
struct Room {
    entries: Vec<u8>,
    payload: Vec<u8>,
}

impl Room {
    fn enough(calls: &[Call]) -> Room {
        let longest = calls.iter().map(|call| call.bytes.len() + call.client.len()).max().unwrap_or_default();
        // A kept string has a length of eight bytes in the stream, and a payload's bytes stand there too.
        Room { entries: vec![0; longest / 8 * ENTRY], payload: vec![0; longest] }
    }
}

trait Caller {
    fn prepare(&mut self) {}
    /// Makes the calls in their order, and notes where each ended: of both sides of a handshake the sum.
    fn make(&mut self, ends: &mut [usize]);
}

struct Pass<'s> {
    caller: Box<dyn Caller + 's>,
    ends: Vec<usize>,
}

impl<'s> Pass<'s> {
    fn new(calls: &Calls, caller: Box<dyn Caller + 's>) -> Pass<'s> {
        Pass { caller, ends: vec![0; calls.calls.len()] }
    }
}

impl Side for Pass<'_> {
    /// The Rust's readers are made for each pass, so its passes are timed one by one. Ours are too: what that does to the processor, all sides bear.
    fn needs_preparing(&self) -> bool {
        true
    }

    fn prepare(&mut self) {
        self.caller.prepare();
    }

    fn pass(&mut self) {
        self.caller.make(&mut self.ends);
        black_box(&self.ends);
    }
}

/// The sides, by their places in what is measured.
const BOUNDARY: usize = 0;
const LAYER: usize = 1;
const THEIRS: usize = 2;

fn allocated(side: &mut dyn Side) -> Allocated {
    side.prepare();
    memory::allocated(|| side.pass())
}

/// What comes of measuring the three sides on the same calls.
fn figures(calls: &Calls, effort: Effort) -> Figures {
    let mut boundary = Pass::new(calls, Box::new(Boundary::new(calls)));
    let mut layer = Pass::new(calls, Box::new(Layer::new(calls)));
    let mut theirs = Pass::new(calls, theirs::caller(calls));
    let allocations = allocated(&mut boundary).number + allocated(&mut layer).number;
    allocated(&mut theirs);
    assert!(boundary.ends == theirs.ends && layer.ends == theirs.ends, "all sides end each call at the same byte");
    let times = measure::measure(&mut [&mut boundary, &mut layer, &mut theirs], effort);
    let number = calls.calls.len() as f64;
    let each = |side| times.median(side) / number;
    let (at_boundary, by_layer) = (times.ratio(THEIRS, BOUNDARY), times.ratio(THEIRS, LAYER));
    vec![
        ("calls", number),
        ("left_out", calls.left_out as f64),
        ("boundary", each(BOUNDARY)),
        ("raw", each(LAYER)),
        ("theirs", each(THEIRS)),
        ("boundary_ratio", at_boundary.median),
        ("ratio", by_layer.median),
        ("low", by_layer.low),
        ("high", by_layer.high),
        ("allocations", allocations as f64),
    ]
}

/// All tables of calls.
pub fn rows(recordings: &[Recording]) -> Vec<Row<'_>> {
    let tables = [recorded::rows(recordings), short::rows(), handshakes::rows(recordings), text::rows(), written::rows(recordings)];
    tables.into_iter().flatten().collect()
}
