//! The tables, then without end requests of all calls, damaged as often as not, with room that is enough, exactly enough or one short.
use crate::damage::{damage, damage_error};
use crate::dice::Dice;
use crate::layouts::{self, Block, Version};
use crate::request::Request;
use crate::stream::{rough, text, Stream};
use crate::{published, tables};

pub fn requests(seed: u64) -> impl Iterator<Item = Request> {
    let mut dice = Dice::new(seed);
    let first = tables::requests(&mut dice);
    first.into_iter().chain(std::iter::repeat_with(move || any(&mut dice)))
}

// Of those that published mode reads otherwise, for each call and version.
const DAMAGED: usize = 10;

/// Requests for what published mode reads otherwise, beside so many of ported mode.
pub fn published(seed: u64, count: usize) -> impl Iterator<Item = Request> {
    otherwise(seed).chain(errors(seed, count / ERRORS))
}

// Arguments at every version: whole, each string made bad text, damaged.
fn otherwise(seed: u64) -> impl Iterator<Item = Request> {
    let dice = &mut Dice::new(seed);
    let mut all = Vec::new();
    for (call, operation) in [(1, 47), (2, 47), (3, 41), (4, 41)] {
        for v in layouts::versions() {
            all.push(tables::undamaged(Stream::new(dice, true), call, operation, v));
            all.extend(tables::bad_strings(dice, call, operation, v));
            all.extend((0..DAMAGED).map(|_| damaged(dice, call, operation, v)));
        }
    }
    all.into_iter().flat_map(published::forms).filter(|p| matches!(p.operation, 30 | 42))
}

// There is one by chance for so many requests of ported mode.
const ERRORS: usize = 10;

// Error blocks, in both modes: a block of the one is often asked in the other.
fn errors(seed: u64, count: usize) -> impl Iterator<Item = Request> {
    let mut dice = Dice::new(seed);
    let first = tables::errors(&mut dice);
    let all = first.into_iter().chain(std::iter::repeat_with(move || error(&mut dice)).take(count));
    all.flat_map(|q| [q.clone(), Request { is_published: true, ..q }])
}

fn error_version(dice: &mut Dice) -> Version {
    match dice.below(4) {
        0 => (dice.below(3) as u64, dice.below(256) as u64),
        1 => (1, 24 + dice.below(4) as u64),
        2 => (dice.below(65536) as u64, dice.below(256) as u64),
        _ => dice.pick(&tables::error_versions()),
    }
}

fn error(dice: &mut Dice) -> Request {
    let (major, minor) = error_version(dice);
    let mut s = Stream::new(dice, false);
    let block = match s.dice.below(6) {
        0 => Block::Ported,
        1 => Block::Short,
        _ => Block::Traced(s.many()),
    };
    layouts::error(&mut s, block);
    damage_error(&mut s);
    if s.dice.one_in(2) {
        damage(&mut s);
    }
    let (a, kept) = (s.bytes, s.kept);
    let slots = if dice.one_in(6) { dice.below(kept + 1) as u64 } else { lent(dice, kept) };
    Request { call: 6, major, minor, slots, a, ..Request::default() }
}

/// Streams to be passed whole.
pub fn whole(seed: u64) -> Vec<Request> {
    tables::whole(&mut Dice::new(seed))
}

fn any(dice: &mut Dice) -> Request {
    match dice.below(100) {
        0..=54 => with_stream(dice, 1, 4),
        55..=63 => with_stream(dice, 5, 6),
        64..=73 => handshake(dice),
        74..=86 => with_stream(dice, 9, 18),
        87..=95 => writer(dice),
        _ => test(dice),
    }
}

// Exactly enough, one short, or more.
fn lent(dice: &mut Dice, need: usize) -> u64 {
    match dice.below(6) {
        0 | 1 => need as u64,
        2 => need.saturating_sub(1) as u64,
        _ => (need + dice.below(9)) as u64,
    }
}

fn operation(dice: &mut Dice) -> u64 {
    if dice.one_in(50) {
        return dice.below(60) as u64;
    }
    dice.pick(&layouts::OPERATIONS)
}

fn with_stream(dice: &mut Dice, first: u64, last: u64) -> Request {
    let call = first + dice.below((last - first + 1) as usize) as u64;
    let operation = operation(dice);
    let v = dice.pick(&layouts::versions());
    damaged(dice, call, operation, v)
}

fn damaged(dice: &mut Dice, call: u64, operation: u64, (major, minor): Version) -> Request {
    let mut s = Stream::new(dice, false);
    tables::fill(&mut s, call, operation, (major, minor));
    damage(&mut s);
    let (a, kept, payload) = (s.bytes, s.kept, s.payload);
    Request { call, operation, major, minor, slots: lent(dice, kept), room: lent(dice, payload), a, ..Request::default() }
}

fn handshake(dice: &mut Dice) -> Request {
    // the gates stand at the end of the list
    let versions = tables::wire_versions();
    let late = versions.len() - 1 - dice.below(versions.len().min(10));
    let (client, daemon) = (dice.pick(&versions), versions[late]);
    let is_client_broken = dice.one_in(2);
    let mut s = Stream::new(dice, false);
    layouts::client(&mut s, client, client.min(daemon));
    if is_client_broken {
        damage(&mut s);
    }
    let (a, kept) = (s.bytes, s.kept);
    let mut s = Stream::new(dice, false);
    layouts::daemon(&mut s, daemon, client.min(daemon));
    if !is_client_broken {
        damage(&mut s);
    }
    let (b, kept) = (s.bytes, kept + s.kept);
    let call = 7 + dice.below(2) as u64;
    Request { call, major: client.0, minor: client.1, slots: lent(dice, kept), a, b, ..Request::default() }
}

fn padded(n: usize) -> usize {
    8 + n.div_ceil(8) * 8
}

fn writer(dice: &mut Dice) -> Request {
    let call = dice.pick(&[20, 21, 22, 23, 23, 24, 24, 26, 27, 28]);
    let operation = dice.number();
    let a = if dice.one_in(4) { rough(dice) } else { text(dice) };
    let need = match call {
        20 => 8,
        21 => 4,
        22 | 23 => padded(a.len()),
        24 => return set_writer(dice),
        26 if operation < 3 => 6 - operation as usize / 2,
        26 => operation.to_string().len(),
        27 => operation.to_string().len() + 6,
        _ => operation.to_string().len() + 10,
    };
    Request { call, operation, room: lent(dice, need), a, ..Request::default() }
}

// Parts of one text, which may overlap; sometimes one that passes its end, or a count that does.
fn set_writer(dice: &mut Dice) -> Request {
    let a = text(dice);
    let n = dice.below(5);
    let (mut b, mut need) = (Vec::new(), 8);
    for _ in 0..n {
        let start = dice.below(a.len() + 1);
        let len = dice.below(a.len() - start + 1) + dice.one_in(20) as usize;
        b.extend((start as u64).to_le_bytes());
        b.extend((len as u64).to_le_bytes());
        need += padded(len);
    }
    let cut = b.len() - if dice.one_in(20) { dice.below(b.len() + 1) } else { 0 };
    b.truncate(cut);
    let operation = n as u64 + dice.one_in(20) as u64;
    Request { call: 24, operation, room: lent(dice, need), a, b, ..Request::default() }
}

fn test(dice: &mut Dice) -> Request {
    match dice.below(4) {
        0 | 1 => Request { call: 30, a: store_path(dice), ..Request::default() },
        2 => Request { call: 31, operation: operation(dice), ..Request::default() },
        _ => Request { call: 33, operation: if dice.one_in(2) { dice.next() } else { dice.number() }, ..Request::default() },
    }
}

fn store_path(dice: &mut Dice) -> Vec<u8> {
    let mut path = b"/nix/store/".to_vec();
    let whole = 40 + dice.below(8);
    path.extend(if dice.one_in(3) { rough(dice) } else { text(dice) });
    path.resize(whole, b'y');
    if dice.one_in(4) {
        let at = dice.below(12);
        path[at] ^= 1 << dice.below(8);
    }
    path
}
