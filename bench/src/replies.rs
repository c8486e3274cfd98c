//! Sets and framed data of many sizes, in replies and by their own calls.
use crate::measure::{self, Effort};
use crate::memory;
use crate::ours::Ours;
use crate::rows::{Figures, Row};
use crate::streams::{Shape, Stream};
use crate::theirs::Theirs;
use crate::{Call, Side, Through};

/// Small enough for the cache that a core has to itself, and large enough for it to be no matter of one call.
const CACHED: usize = 1 << 20;
/// More than that cache.
const LARGE: usize = 64 << 20;
const SIZES: [(Shape, usize); 8] = [
    (Shape::Set, 8),
    (Shape::Set, 60),
    (Shape::Set, 1_000),
    (Shape::Set, 1 << 20),
    (Shape::Framed, 64),
    (Shape::Framed, 4_096),
    (Shape::Framed, 32_768),
    (Shape::Framed, 1 << 20),
];
/// The strings of a set that grows, each of 60 bytes.
const STRINGS: [usize; 8] = [1, 4, 16, 64, 256, 1_024, 4_096, 16_384];
/// The payload of framed data that grows, and the longest chunk of it.
const PAYLOAD: [usize; 10] = [64, 256, 1 << 10, 4 << 10, 16 << 10, 64 << 10, 256 << 10, 1 << 20, 4 << 20, 16 << 20];
const CHUNK: usize = 32_768;

fn figures(stream: &Stream, through: Through, call: Call, effort: Effort) -> Figures {
    let (ours, theirs) = (&mut Ours::new(stream, through, call), &mut Theirs::new(stream, through, call));
    ours.prepare();
    let our_memory = memory::allocated(|| ours.pass());
    theirs.prepare();
    let their_memory = memory::allocated(|| theirs.pass());
    assert!(ours.end() == stream.bytes.len() && theirs.end() == stream.bytes.len(), "both pass over all of the stream");
    if call == Call::Read {
        assert!(ours.contents() == theirs.contents(), "both read the same");
    }
    let times = measure::measure(&mut [ours, theirs], effort);
    let ratio = times.ratio(1, 0);
    vec![
        ("size", stream.size as f64),
        ("pieces", stream.pieces() as f64),
        ("replies", stream.replies as f64),
        ("ours", times.median(0)),
        ("theirs", times.median(1)),
        ("ratio", ratio.median),
        ("low", ratio.low),
        ("high", ratio.high),
        ("allocations", our_memory.number as f64),
        ("room", ours.room() as f64),
        ("their_allocations", their_memory.number as f64),
        ("their_bytes", their_memory.bytes as f64),
    ]
}

/// Reading and skipping of a stream, which is made for each.
fn both(table: &'static str, through: Through, what: &str, stream: impl Fn() -> Stream + Copy + 'static) -> [Row<'static>; 2] {
    [("read", Call::Read), ("skip", Call::Skip)]
        .map(|(done, call)| Row::new(table, format!("{done} {what}"), move |effort| figures(&stream(), through, call, effort)))
}

/// With a comma before each three digits.
fn grouped(number: usize) -> String {
    if number < 1_000 {
        return number.to_string();
    }
    format!("{},{:03}", grouped(number / 1_000), number % 1_000)
}

fn sized(shape: Shape, size: usize) -> String {
    match shape {
        Shape::Set => format!("set, {} bytes a string", grouped(size)),
        Shape::Framed => format!("framed, {} bytes a chunk", grouped(size)),
    }
}

fn of_about(table: &'static str, through: Through, (shape, size): (Shape, usize), total: usize) -> [Row<'static>; 2] {
    both(table, through, &sized(shape, size), move || Stream::of_one_reply(shape, size, total))
}

/// Where a reply is short there are many in a pass: else it would be too short for the clock.
fn growing_set(strings: usize) -> [Row<'static>; 2] {
    let stream = move || Stream::new(Shape::Set, 60, strings, (4_096 / strings).max(1));
    both("growing set", Through::Reply, &format!("{} string{}", grouped(strings), if strings == 1 { "" } else { "s" }), stream)
}

fn growing_framed(payload: usize) -> [Row<'static>; 2] {
    let chunk = payload.min(CHUNK);
    let stream = move || Stream::new(Shape::Framed, chunk, payload / chunk, (262_144 / payload).max(1));
    both("growing framed", Through::Reply, &format!("{} bytes", grouped(payload)), stream)
}

pub fn rows(with_large: bool) -> Vec<Row<'static>> {
    let growing = STRINGS.into_iter().flat_map(growing_set).chain(PAYLOAD.into_iter().flat_map(growing_framed));
    let tables = [("reply", Through::Reply), ("wire", Through::Wire)];
    let cached = tables.into_iter().flat_map(|(table, through)| SIZES.into_iter().flat_map(move |sized| of_about(table, through, sized, CACHED)));
    let large = [(Shape::Set, 60), (Shape::Framed, CHUNK)].into_iter().filter(|_| with_large);
    let large = large.flat_map(|sized| of_about("large", Through::Reply, sized, LARGE));
    let single = |size| both("single", Through::Reply, &sized(Shape::Set, size), move || Stream::new(Shape::Set, size, 1, CACHED / 100));
    growing.chain(cached).chain(large).chain([8, 60].into_iter().flat_map(single)).collect()
}
