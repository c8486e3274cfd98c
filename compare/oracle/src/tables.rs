//! Requests that every run begins with: each operation at each version, each pair of versions in a handshake, each string of a layout made bad text, lengths
//! around the limits, strings at the edges of text. Then those that are asked in both modes for error blocks.
use crate::damage::{change_number, LIMIT, NO_POSITIONS};
use crate::dice::Dice;
use crate::layouts::{self, Block, Version};
use crate::request::Request;
use crate::stream::{Stream, EDGES};

/// A stream that the call takes whole, for all calls but the handshakes.
pub fn fill(s: &mut Stream, call: u64, op: u64, v: Version) {
    match call {
        1 | 2 => layouts::arguments(s, op, v, call == 2),
        3 | 4 => layouts::reply(s, op, v),
        5 | 6 => layouts::stderr(s),
        9 | 10 | 18 => {
            let n = s.dice.below(14);
            s.bytes = s.dice.bytes(n);
        }
        11..=13 => s.quiet(),
        14 | 15 => s.set(),
        _ => s.framed(),
    }
}

/// Nothing damaged, and room for what a reader keeps.
pub fn undamaged(mut s: Stream, call: u64, operation: u64, (major, minor): Version) -> Request {
    fill(&mut s, call, operation, (major, minor));
    let (slots, room) = (s.kept as u64, s.payload as u64);
    Request { call, operation, major, minor, slots, room, a: s.bytes, ..Request::default() }
}

fn operations(dice: &mut Dice, is_tidy: bool) -> Vec<Request> {
    let mut all = Vec::new();
    for call in 1..=4 {
        for op in layouts::OPERATIONS {
            for v in layouts::versions() {
                all.push(undamaged(Stream::new(dice, is_tidy), call, op, v));
            }
        }
    }
    all
}

/// On the wire a major has eight bits.
pub fn wire_versions() -> Vec<Version> {
    layouts::versions().into_iter().map(|(major, minor)| (major.min(255), minor)).collect()
}

struct Handshake {
    request: Request,
    client_lengths: Vec<usize>,
    daemon_lengths: Vec<usize>,
}

fn handshake(dice: &mut Dice, call: u64, client: Version, daemon: Version) -> Handshake {
    let mut s = Stream::new(dice, true);
    layouts::client(&mut s, client, client.min(daemon));
    let (a, kept, client_lengths) = (s.bytes, s.kept, s.lengths);
    let mut s = Stream::new(dice, true);
    layouts::daemon(&mut s, daemon, client.min(daemon));
    let (b, slots, daemon_lengths) = (s.bytes, (kept + s.kept) as u64, s.lengths);
    let request = Request { call, major: client.0, minor: client.1, slots, a, b, ..Request::default() };
    Handshake { request, client_lengths, daemon_lengths }
}

fn handshakes(dice: &mut Dice) -> Vec<Request> {
    let mut all = Vec::new();
    for daemon in wire_versions() {
        for client in wire_versions() {
            all.push(handshake(dice, 7, client, daemon).request);
        }
        // the version that the caller knows is not off the wire
        for client in layouts::versions() {
            all.push(handshake(dice, 8, client, daemon).request);
        }
    }
    all
}

// A length, then fewer bytes than it asks for, as many, or more: with and without padding, and with a number behind it that can end framed data.
fn lengths(_: &mut Dice) -> Vec<Request> {
    let mut all = Vec::new();
    for call in 11..=17 {
        for length in (0..=17).chain([LIMIT - 1, LIMIT, LIMIT + 1, 1 << 32, 1 << 63, u64::MAX]) {
            let contents = if length <= 17 { length as usize } else { 0 };
            let padded = contents.div_ceil(8) * 8;
            for there in [0, contents.saturating_sub(1), contents, padded.saturating_sub(1), padded, contents + 8, padded + 8] {
                let mut a = if call == 14 || call == 15 { 1u64.to_le_bytes().to_vec() } else { vec![] };
                a.extend(length.to_le_bytes());
                a.resize(a.len() + there, if there > padded { 0 } else { b'x' });
                all.push(Request { call, slots: 1, room: 17, a, ..Request::default() });
            }
        }
    }
    all
}

// No text begins with it.
const BAD: u8 = 0xff;

// The same stream once for each string that is not empty, with that one made bad text: some are read and refused, some passed over.
fn each_bad(q: Request, lengths: &[usize], is_daemon: bool) -> Vec<Request> {
    let stream = if is_daemon { &q.b } else { &q.a };
    let filled = lengths.iter().filter(|&&at| stream[at..at + 8] != [0; 8]);
    let bad = |&at: &usize| {
        let mut q = q.clone();
        let stream = if is_daemon { &mut q.b } else { &mut q.a };
        stream[at + 8] = BAD;
        q
    };
    filled.map(bad).collect()
}

pub fn bad_strings(dice: &mut Dice, call: u64, operation: u64, (major, minor): Version) -> Vec<Request> {
    let mut s = Stream::new(dice, true);
    fill(&mut s, call, operation, (major, minor));
    let (slots, room, lengths) = (s.kept as u64, s.payload as u64, s.lengths);
    let q = Request { call, operation, major, minor, slots, room, a: s.bytes, ..Request::default() };
    each_bad(q, &lengths, false)
}

fn bad_texts(dice: &mut Dice) -> Vec<Request> {
    let mut all = Vec::new();
    for call in 1..=4 {
        for operation in layouts::OPERATIONS {
            // below and above the gates of AddToStore and of path infos
            for minor in [9, 15, 20, 24, 30, 38] {
                all.extend(bad_strings(dice, call, operation, (1, minor)));
            }
        }
    }
    for i in 0..40 {
        let mut s = Stream::new(dice, true);
        fill(&mut s, 6, 0, (1, 38));
        let (slots, lengths) = (s.kept as u64, s.lengths);
        all.extend(each_bad(Request { call: 5 + i % 2, slots, a: s.bytes, ..Request::default() }, &lengths, false));
        let q = handshake(dice, 7 + i % 2, (1, 38), (1, 38));
        all.extend(each_bad(q.request.clone(), &q.client_lengths, false));
        all.extend(each_bad(q.request, &q.daemon_lengths, true));
    }
    all
}

// Characters of two, three and four bytes with each octet at an edge, behind letters that move them along.
fn texts(_: &mut Dice) -> Vec<Request> {
    let pairs = [[0x80, 0x80], [0xbf, 0xbf], [0x7f, 0x80], [0xc0, 0x80], [0x80, 0x7f], [0x80, 0xc0]];
    let mut strings: Vec<Vec<u8>> = EDGES.iter().map(|&x| vec![x]).collect();
    for x in EDGES.into_iter().filter(|&x| x >= 0xc0) {
        for y in EDGES {
            match x {
                0xc0..=0xdf => strings.push(vec![x, y]),
                0xe0..=0xef => strings.extend([0x7f, 0x80, 0xbf, 0xc0].map(|z| vec![x, y, z])),
                _ => strings.extend(pairs.map(|[z, w]| vec![x, y, z, w])),
            }
        }
    }
    let moved = strings.into_iter().enumerate().map(|(i, s)| [vec![b'a'; i % 17], s].concat());
    let request = |s: Vec<u8>| {
        let padding = vec![0; s.len().div_ceil(8) * 8 - s.len()];
        let a = [(s.len() as u64).to_le_bytes().to_vec(), s, padding].concat();
        Request { call: 12, a, ..Request::default() }
    };
    moved.map(request).collect()
}

pub fn requests(dice: &mut Dice) -> Vec<Request> {
    let mut all = operations(dice, true);
    all.extend(handshakes(dice));
    all.extend(bad_texts(dice));
    all.extend(lengths(dice));
    all.extend(texts(dice));
    all
}

/// Messages and an error, with slots for what that block keeps.
struct Erred {
    request: Request,
    lengths: Vec<usize>,
    positions: Vec<usize>,
}

fn erred(mut s: Stream, block: Block, (major, minor): Version) -> Erred {
    layouts::error(&mut s, block);
    let slots = s.kept as u64;
    Erred { request: Request { call: 6, major, minor, slots, a: s.bytes, ..Request::default() }, lengths: s.lengths, positions: s.positions }
}

const BLOCKS: [Block; 6] = [Block::Ported, Block::Traced(0), Block::Traced(1), Block::Traced(2), Block::Traced(5), Block::Short];

// The version before traces, and the first with them.
const GATE: [Version; 2] = [(1, 25), (1, 26)];

/// Versions on both sides of the gate, and some with bits that do not count.
pub fn error_versions() -> Vec<Version> {
    let others = [(0, 0), (0, 26), (1, 0), (1, 8), (1, 39), (1, 255), (2, 25), (256, 0), (65535, 0), (65537, 281), (65537, 282), (65536, 282)];
    layouts::versions().into_iter().chain(others).collect()
}

fn with_position(q: &Request, at: usize, x: u64) -> Request {
    let mut q = q.clone();
    change_number(&mut q.a, at, x);
    q
}

/// Each block at each version: whole, each string made bad text, each position another number, too few slots. Around the gate also cut at every byte.
pub fn errors(dice: &mut Dice) -> Vec<Request> {
    let mut all = Vec::new();
    for v in error_versions() {
        for block in BLOCKS {
            let Erred { request: q, lengths, positions } = erred(Stream::new(dice, true), block, v);
            for at in positions {
                all.push(with_position(&q, at, NO_POSITIONS[all.len() % NO_POSITIONS.len()]));
            }
            all.extend((0..q.slots).map(|slots| Request { slots, ..q.clone() }));
            all.push(q.clone());
            all.extend(each_bad(q, &lengths, false));
        }
    }
    for v in GATE {
        for block in BLOCKS {
            let q = erred(Stream::new(dice, true), block, v).request;
            all.extend((0..q.a.len()).map(|n| Request { a: q.a[..n].to_vec(), ..q.clone() }));
        }
    }
    all
}

// How many streams of one field there are for each call.
const FIELDS: usize = 200;

/// Streams to be passed: of each operation at each version, of each pair of versions, of one field, and of each error block at each version. Half of them are
/// untidy, and may be refused by a call that looks at text.
pub fn whole(dice: &mut Dice) -> Vec<Request> {
    let mut all = handshakes(dice);
    for call in 9..=17 {
        for i in 0..FIELDS {
            all.push(undamaged(Stream::new(dice, i % 2 == 0), call, 0, (0, 0)));
        }
    }
    for is_tidy in [true, false, true, false] {
        all.extend(operations(dice, is_tidy));
    }
    for is_tidy in [true, false] {
        for v in layouts::versions() {
            all.extend(BLOCKS.map(|block| erred(Stream::new(dice, is_tidy), block, v).request));
        }
    }
    all
}
