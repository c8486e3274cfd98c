//! What can become of a stream on its way.
use crate::layouts;
use crate::stream::Stream;

/// The limit of lengths, and one more.
pub const LIMIT: u64 = 268435456;

/// What no position may be: a bit in each byte, and numbers that could be told for 0.
pub const NO_POSITIONS: [u64; 10] = [1, 2, 1 << 8, 1 << 16, 1 << 24, 1 << 32, 1 << 40, 1 << 48, 1 << 63, u64::MAX];

pub fn change_number(bytes: &mut [u8], at: usize, x: u64) {
    bytes[at..at + 8].copy_from_slice(&x.to_le_bytes());
}

fn number_at(bytes: &[u8], at: usize) -> u64 {
    u64::from_le_bytes(bytes[at..at + 8].try_into().expect("a number stands there"))
}

fn change_length(s: &mut Stream) {
    if s.lengths.is_empty() {
        return;
    }
    let at = s.dice.pick(&s.lengths);
    let now = number_at(&s.bytes, at);
    let near = [now + 1, now.saturating_sub(1), now + 8, now.saturating_sub(8)];
    let x = match s.dice.below(3) {
        0 => s.dice.pick(&[0, 1, 7, 8, 9]),
        1 => s.dice.pick(&near),
        _ => s.dice.pick(&[LIMIT - 1, LIMIT, LIMIT + 1, 1 << 32, 1 << 63, u64::MAX, s.bytes.len() as u64]),
    };
    change_number(&mut s.bytes, at, x);
}

fn change_one(s: &mut Stream, places: &[usize], numbers: &[u64]) {
    if !places.is_empty() {
        let (at, x) = (s.dice.pick(places), s.dice.pick(numbers));
        change_number(&mut s.bytes, at, x);
    }
}

/// A position that is not 0, or a count that no stream has: around an error nix-wire makes no room for so many.
pub fn damage_error(s: &mut Stream) {
    match s.dice.below(16) {
        0..=3 => change_one(s, &s.positions.clone(), &NO_POSITIONS),
        4 => change_one(s, &s.counts.clone(), &[1 << 32, 1 << 61, 1 << 63, u64::MAX]),
        _ => {}
    }
}

// Never above the stream's length: such counts are outside the domain.
fn change_count(s: &mut Stream) {
    if s.counts.is_empty() {
        return;
    }
    let at = s.dice.pick(&s.counts);
    let now = number_at(&s.bytes, at);
    let len = s.bytes.len() as u64;
    let x = s.dice.pick(&[0, 1, now + 1, now.saturating_sub(1), 2 * now, len / 8, len]);
    change_number(&mut s.bytes, at, x.min(len));
}

/// A byte changed, a length changed, a count changed, other words altogether, cut short, gone on; or nothing.
pub fn damage(s: &mut Stream) {
    match s.dice.below(100) {
        0..=17 if !s.bytes.is_empty() => {
            let at = s.dice.below(s.bytes.len());
            s.bytes[at] = if s.dice.one_in(2) { s.dice.next() as u8 } else { s.bytes[at] ^ 1 << s.dice.below(8) };
        }
        18..=39 => change_length(s),
        40..=51 => change_count(s),
        52..=59 => s.bytes = layouts::words(s.dice),
        _ => {}
    }
    match s.dice.below(10) {
        0 | 1 => {
            let n = s.dice.below(s.bytes.len() + 1);
            s.bytes.truncate(n);
        }
        2 => {
            let n = s.bytes.len().saturating_sub(1 + s.dice.below(8));
            s.bytes.truncate(n);
        }
        3 | 4 => {
            let n = s.dice.below(20);
            let more = s.dice.bytes(n);
            s.bytes.extend(more);
        }
        _ => {}
    }
}
