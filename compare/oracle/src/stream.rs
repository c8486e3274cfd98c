//! A stream that is put together piece by piece. It remembers where lengths, counts and positions stand, and how many strings and payload bytes a reader
//! keeps.
use crate::dice::Dice;

/// The first and last of each row of RFC 3629, section 4, and their neighbours: bytes of which random strings are often almost text.
pub const EDGES: [u8; 25] = [
    0x00, 0x41, 0x7f, 0x80, 0x8f, 0x90, 0x9f, 0xa0, 0xbf, 0xc0, 0xc1, 0xc2, 0xdf, 0xe0, 0xe1, 0xec, 0xed, 0xee, 0xef, 0xf0, 0xf1, 0xf3, 0xf4, 0xf5,
    0xff,
];

const LETTERS: [char; 12] = ['a', '/', '\0', '\u{7f}', '\u{80}', '\u{7ff}', '\u{800}', '\u{d7ff}', '\u{e000}', '\u{ffff}', '\u{10000}', '\u{10ffff}'];

/// Lengths on both sides of the padding's steps, and now and then a long string.
fn length(dice: &mut Dice) -> usize {
    match dice.below(12) {
        0 => 0,
        1..=4 => dice.pick(&[1, 7, 8, 9, 15, 16, 17]),
        5 if dice.one_in(8) => dice.below(1000),
        _ => dice.below(40),
    }
}

pub fn text(dice: &mut Dice) -> Vec<u8> {
    let n = length(dice);
    let plain = if dice.one_in(2) { n } else { dice.below(n + 1) };
    let mut s: String = (0..plain).map(|_| (b'a' + dice.below(26) as u8) as char).collect();
    while s.len() < n {
        s.push(dice.pick(&LETTERS));
    }
    s.into_bytes()
}

/// Seldom text: letters, then edges, then perhaps letters again.
pub fn rough(dice: &mut Dice) -> Vec<u8> {
    let mut s = vec![b'a'; if dice.one_in(2) { 0 } else { dice.below(24) }];
    for _ in 0..1 + dice.below(6) {
        s.push(dice.pick(&EDGES));
    }
    s.resize(s.len() + if dice.one_in(3) { dice.below(16) } else { 0 }, b'z');
    s
}

pub struct Stream<'a> {
    pub dice: &'a mut Dice,
    /// Only text, and padding of zeros.
    pub is_tidy: bool,
    pub bytes: Vec<u8>,
    pub lengths: Vec<usize>,
    pub counts: Vec<usize>,
    pub positions: Vec<usize>,
    pub kept: usize,
    pub payload: usize,
}

impl Stream<'_> {
    pub fn new(dice: &mut Dice, is_tidy: bool) -> Stream<'_> {
        Stream { dice, is_tidy, bytes: vec![], lengths: vec![], counts: vec![], positions: vec![], kept: 0, payload: 0 }
    }

    pub fn put(&mut self, x: u64) {
        self.bytes.extend(x.to_le_bytes());
    }

    pub fn n(&mut self) {
        let x = self.dice.number();
        self.put(x);
    }

    pub fn ns(&mut self, n: usize) {
        (0..n).for_each(|_| self.n());
    }

    /// A number, and whether it is a yes.
    pub fn flag(&mut self) -> bool {
        let x = self.dice.pick(&[0, 1, 1, 2, 1 << 32, u64::MAX]);
        self.put(x);
        x != 0
    }

    /// How many of something there are.
    pub fn many(&mut self) -> usize {
        if self.dice.one_in(30) {
            self.dice.below(40)
        } else {
            self.dice.below(4)
        }
    }

    fn count(&mut self, n: usize) {
        self.counts.push(self.bytes.len());
        self.put(n as u64);
    }

    /// The position of an error or of a trace.
    pub fn position(&mut self) {
        self.positions.push(self.bytes.len());
        self.put(0);
    }

    /// A string that no reader keeps.
    pub fn quiet(&mut self) {
        let s = if !self.is_tidy && self.dice.one_in(12) { rough(self.dice) } else { text(self.dice) };
        self.string(&s);
    }

    pub fn string(&mut self, s: &[u8]) {
        self.lengths.push(self.bytes.len());
        self.put(s.len() as u64);
        self.bytes.extend(s);
        let padding = (8 - s.len() % 8) % 8;
        let filler = if self.is_tidy { vec![0; padding] } else { self.dice.bytes(padding) };
        self.bytes.extend(filler);
    }

    pub fn s(&mut self) {
        self.quiet();
        self.kept += 1;
    }

    pub fn set(&mut self) {
        self.groups(Stream::s);
    }

    pub fn quiet_set(&mut self) {
        self.groups(Stream::quiet);
    }

    pub fn pairs(&mut self) {
        self.groups(|s| {
            s.s();
            s.s();
        });
    }

    pub fn quiet_pairs(&mut self) {
        self.groups(|s| {
            s.quiet();
            s.quiet();
        });
    }

    /// A count, and so many of what is put.
    pub fn groups(&mut self, put: impl Fn(&mut Self)) {
        let n = self.many();
        self.some_groups(n, put);
    }

    pub fn some_groups(&mut self, n: usize, put: impl Fn(&mut Self)) {
        self.count(n);
        (0..n).for_each(|_| put(self));
    }

    pub fn framed(&mut self) {
        for _ in 0..self.dice.below(4) {
            let n = match self.dice.below(20) {
                // nix-wire skips by 8192 bytes
                0 => self.dice.pick(&[8191, 8192, 8193, 16384]),
                1..=8 => self.dice.pick(&[1, 7, 8, 9]),
                _ => 1 + self.dice.below(100),
            };
            self.chunk(n);
        }
        self.put(0);
    }

    pub fn chunk(&mut self, n: usize) {
        self.lengths.push(self.bytes.len());
        self.put(n as u64);
        let chunk = self.dice.bytes(n);
        self.bytes.extend(chunk);
        self.payload += n;
    }
}
