//! Streams by the layouts of document 01, in its order. Only the generator uses them: a mistake here makes requests that are refused, not answers that are wrong.
use crate::dice::Dice;
use crate::stream::Stream;

pub type Version = (u64, u64);

pub const OPERATIONS: [u64; 37] =
    [1, 6, 7, 8, 9, 10, 11, 12, 13, 14, 18, 19, 20, 21, 22, 23, 26, 28, 29, 30, 31, 32, 33, 34, 35, 36, 37, 38, 39, 40, 41, 42, 43, 44, 45, 46, 47];

/// 1.9 to 1.38, which has every gate and its neighbours, and versions of other majors.
pub fn versions() -> Vec<Version> {
    (9..=38).map(|minor| (1, minor)).chain([(0, 255), (2, 0), (65535, 255)]).collect()
}

/// Arguments; those of `skip_op_args` stop before framed data.
pub fn arguments(s: &mut Stream, op: u64, v: Version, is_skipped: bool) {
    match op {
        30 | 32 | 40 => s.set(),
        31 => {
            s.set();
            if v >= (1, 27) {
                s.flag();
            }
        }
        9 | 46 => {
            s.set();
            s.n();
        }
        19 => {
            s.ns(10);
            if v >= (1, 10) {
                s.n();
            }
            if v >= (1, 12) {
                s.n();
                s.pairs();
            }
        }
        7 if v < (1, 25) => {
            s.s();
            s.ns(2);
            s.quiet();
        }
        7 => {
            s.s();
            s.s();
            s.set();
            s.flag();
        }
        44 | 35 => {
            s.flag();
            s.flag();
        }
        20 => {
            s.n();
            s.set();
            s.ns(5);
        }
        47 => {
            s.s();
            s.s();
        }
        37 => {
            s.s();
            s.set();
        }
        8 => {
            s.s();
            s.s();
            s.set();
        }
        13 | 14 | 23 | 34 | 36 | 39 => {}
        _ => s.s(),
    }
    if [7, 44, 45].contains(&op) && !is_skipped {
        s.framed();
    }
}

fn info(s: &mut Stream, v: Version) {
    s.s();
    s.s();
    s.set();
    s.ns(2);
    if v >= (1, 16) {
        s.flag();
        s.set();
        s.s();
    }
}

fn build_result(s: &mut Stream, v: Version) {
    s.n();
    s.quiet();
    if v >= (1, 29) {
        s.ns(4);
    }
    if v >= (1, 37) {
        for _ in 0..2 {
            if s.flag() {
                s.n();
            }
        }
    }
    if v >= (1, 28) {
        s.quiet_pairs();
    }
}

pub fn reply(s: &mut Stream, op: u64, v: Version) {
    match op {
        19 | 39 | 42 | 44 => {}
        20 => s.ns(3),
        8 | 18 | 29 | 47 => s.s(),
        7 if v < (1, 25) => s.s(),
        7 => {
            s.quiet();
            info(s, v);
        }
        26 => {
            if s.flag() {
                info(s, v);
            }
        }
        38 if v < (1, 23) => {}
        38 => s.framed(),
        6 | 22 | 23 | 28 | 31 | 32 | 33 | 43 => s.set(),
        14 | 41 => s.pairs(),
        21 => {
            if s.flag() {
                s.s();
                s.set();
                s.ns(2);
            }
        }
        30 => s.groups(|s| {
            s.s();
            s.s();
            s.quiet_set();
            s.ns(2);
        }),
        40 => {
            s.set();
            s.set();
            s.set();
            s.ns(2);
        }
        36 => build_result(s, v),
        46 => s.groups(|s| {
            s.quiet();
            build_result(s, v);
        }),
        _ => s.n(),
    }
}

pub const LAST: u64 = 0x616c7473;
pub const ERROR: u64 = 0x63787470;
const NEXT: u64 = 0x6f6c6d67;
const WRITE: u64 = 0x64617416;
const READ: u64 = 0x64617461;
const START_ACTIVITY: u64 = 0x53545254;
const STOP_ACTIVITY: u64 = 0x53544f50;
const RESULT: u64 = 0x52534c54;

fn fields(s: &mut Stream) {
    s.groups(|s| {
        if s.flag() {
            s.quiet();
        } else {
            s.n();
        }
    });
}

fn message(s: &mut Stream) {
    let code = s.dice.pick(&[NEXT, WRITE, READ, START_ACTIVITY, STOP_ACTIVITY, RESULT]);
    s.put(code);
    match code {
        NEXT | WRITE => s.quiet(),
        START_ACTIVITY => {
            s.ns(3);
            s.quiet();
            fields(s);
            s.n();
        }
        RESULT => {
            s.ns(2);
            fields(s);
        }
        _ => s.n(),
    }
}

/// An error block: nix-wire's; the published source's from 1.26 on, with so many traces; the one below.
#[derive(Clone, Copy)]
pub enum Block {
    Ported,
    Traced(usize),
    Short,
}

fn error_block(s: &mut Stream, block: Block) {
    s.s();
    s.n();
    if let Block::Short = block {
        return;
    }
    s.s();
    s.s();
    if let Block::Traced(n) = block {
        s.position();
        s.some_groups(n, |s| {
            s.position();
            s.s();
        });
    } else if s.flag() {
        s.quiet();
        s.ns(2);
    }
}

fn messages(s: &mut Stream) {
    for _ in 0..s.dice.below(5) {
        message(s);
    }
}

/// Messages, then an error with its block.
pub fn error(s: &mut Stream, block: Block) {
    messages(s);
    s.put(ERROR);
    error_block(s, block);
}

/// Messages, then Last, an error with its block, a number that is no code, a code with a bit too many, or the end.
pub fn stderr(s: &mut Stream) {
    messages(s);
    match s.dice.below(8) {
        0..=2 => s.put(LAST),
        3..=5 => {
            s.put(ERROR);
            error_block(s, Block::Ported);
        }
        6 => s.put(LAST | 1 << 32),
        _ => {}
    }
}

pub const CLIENT_MAGIC: u64 = 0x6e697863;
pub const DAEMON_MAGIC: u64 = 0x6478696f;

// Bits above the sixteenth count for nothing.
fn version(s: &mut Stream, v: Version) {
    let above = if s.is_tidy || s.dice.below(4) > 0 { 0 } else { s.dice.next() << 16 };
    s.put(above | v.0 << 8 | v.1);
}

pub fn client(s: &mut Stream, own: Version, negotiated: Version) {
    s.put(CLIENT_MAGIC);
    version(s, own);
    if negotiated >= (1, 38) {
        s.set();
    }
    if negotiated >= (1, 14) && s.flag() {
        s.n();
    }
    if negotiated >= (1, 11) {
        s.n();
    }
}

pub fn daemon(s: &mut Stream, own: Version, negotiated: Version) {
    s.put(DAEMON_MAGIC);
    version(s, own);
    if negotiated >= (1, 38) {
        s.set();
    }
    if negotiated >= (1, 33) {
        s.s();
    }
    if negotiated >= (1, 35) {
        s.n();
    }
    s.put(LAST);
}

/// Words of a few bits, some of them codes: what no layout expects.
pub fn words(dice: &mut Dice) -> Vec<u8> {
    let mut bytes = Vec::new();
    for _ in 0..dice.below(14) {
        let x = match dice.below(10) {
            0 => dice.pick(&[LAST, ERROR, NEXT, RESULT, START_ACTIVITY, CLIENT_MAGIC, DAEMON_MAGIC]),
            1 => dice.next(),
            2 => dice.pick(&[7, 8, 9, 16, 17]),
            _ => dice.below(3) as u64,
        };
        bytes.extend(x.to_le_bytes());
    }
    bytes.truncate(bytes.len() - if dice.one_in(3) { dice.below(8).min(bytes.len()) } else { 0 });
    bytes
}
