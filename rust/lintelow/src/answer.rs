//! What a call answers: a record of numbers, with entries and payload in the caller's room, or a refusal.
use std::error::Error;
use std::fmt;
use std::str;

/// The bytes that an entry takes in lent room: start and length.
pub const ENTRY: usize = 16;

/// The bytes of a record: twelve numbers and three counts.
pub const RECORD: usize = 120;

/// Where the contents of a string stand in its stream.
#[derive(Debug, Clone, Copy, PartialEq, Eq)]
pub struct Entry {
    pub start: usize,
    pub length: usize,
}

impl Entry {
    #[inline]
    fn read(bytes: &[u8]) -> Entry {
        Entry { start: number(bytes, 0) as usize, length: number(bytes, 1) as usize }
    }

    /// The contents, as a part of the stream that was read. Panics where another stream is too short for it.
    #[inline]
    pub fn bytes(self, stream: &[u8]) -> &[u8] {
        &stream[self.start..][..self.length]
    }

    /// The contents as text. Panics where they are none, which a kept string of the stream that was read never is.
    #[inline]
    pub fn text(self, stream: &[u8]) -> &str {
        str::from_utf8(self.bytes(stream)).expect("a kept string of this stream, which was judged to be text")
    }
}

/// The entries of an answer, in reading order, as they stand in the room that was lent for them.
#[derive(Clone, Copy, PartialEq, Eq)]
pub struct Entries<'r>(pub(crate) &'r [u8]);

impl<'r> Entries<'r> {
    #[inline]
    pub fn len(self) -> usize {
        self.0.len() / ENTRY
    }

    #[inline]
    pub fn is_empty(self) -> bool {
        self.len() == 0
    }

    #[inline]
    pub fn get(self, index: usize) -> Option<Entry> {
        self.0.chunks_exact(ENTRY).nth(index).map(Entry::read)
    }

    /// The entries as a writer takes them.
    #[inline]
    pub fn as_bytes(self) -> &'r [u8] {
        self.0
    }

    #[inline]
    pub fn iter(self) -> impl Iterator<Item = Entry> + 'r {
        self.0.chunks_exact(ENTRY).map(Entry::read)
    }
}

impl fmt::Debug for Entries<'_> {
    fn fmt(&self, f: &mut fmt::Formatter) -> fmt::Result {
        f.debug_list().entries(self.iter()).finish()
    }
}

/// A success; include/lintelow.h lists kinds, numbers and counts.
#[derive(Debug, Clone, Copy, PartialEq, Eq)]
pub struct Answer<'r> {
    pub kind: u64,
    /// Where the stream was left; of a handshake the client's.
    pub end: usize,
    /// Where the daemon's stream of a handshake was left.
    pub end2: usize,
    pub numbers: [u64; 12],
    pub counts: [u64; 3],
    pub entries: Entries<'r>,
    pub payload: &'r [u8],
}

impl Answer<'_> {
    /// The one entry of a call that is lent no room for entries: it stands in the answer itself, as numbers 1 and 2.
    #[inline]
    pub fn own_entry(&self) -> Entry {
        Entry { start: self.numbers[1] as usize, length: self.numbers[2] as usize }
    }

    /// Numbers and counts as [`raw::write_op_args`](crate::raw::write_op_args) takes them.
    pub fn record(&self) -> [u8; RECORD] {
        record(&self.numbers, &self.counts)
    }
}

/// Why a call refused, and where. Nothing that was lent has changed.
#[derive(Debug, Clone, Copy, PartialEq, Eq, Hash)]
pub struct Refusal {
    /// 1 to 15; [`Refusal::meaning`] says what it means.
    pub number: u64,
    /// The place in the part of the stream that was given; of refusals 11 and 12, and of a set or call that is written, an index or a count.
    /// Of 3 it is where the string's text ends: cut there, the stream is refused by 1 at the string's contents.
    pub place: usize,
    /// 1 for the daemon's stream of a handshake, else 0.
    pub stream: u64,
}

impl Refusal {
    pub fn meaning(&self) -> &'static str {
        match self.number {
            1 => "cut short: a number, contents, padding or chunk needs more bytes than remain",
            2 => "too long: a length above 268435456",
            3 => "bad text: a decoded string isn't RFC 3629 text",
            4 => "no entry room: a kept string has no slot",
            5 => "no payload room: a chunk doesn't fit in what is left",
            6 => "magic: not the client's",
            7 => "magic: not the daemon's",
            8 => "not Last: the handshake's final number differs",
            9 => "unknown operation: number not in the table",
            10 => "output full: a writer's whole output doesn't fit",
            11 => "no such entry: index not below the slots, or count above them",
            12 => "bad entry: start + length passes the end of the bytes",
            13 => "no arguments: none are known for this operation and version",
            14 => "not of the shape: a number, flag, count or payload that the shape or version lacks isn't 0 or empty, or a flag is above 1",
            15 => "nonzero position: a position in an error block isn't 0",
            _ => "a number without a meaning",
        }
    }
}

impl fmt::Display for Refusal {
    fn fmt(&self, f: &mut fmt::Formatter) -> fmt::Result {
        let stream = if self.stream == 1 { " of the daemon's stream" } else { "" };
        write!(f, "refusal {} at {}{stream}: {}", self.number, self.place, self.meaning())
    }
}

impl Error for Refusal {}

/// Numbers and counts, one after the other.
pub(crate) fn record(numbers: &[u64; 12], counts: &[u64; 3]) -> [u8; RECORD] {
    let mut bytes = [0; RECORD];
    for (place, number) in bytes.chunks_exact_mut(8).zip(numbers.iter().chain(counts)) {
        place.copy_from_slice(&number.to_le_bytes());
    }
    bytes
}

/// The little-endian number that stands at an index in rows of eight bytes.
#[inline]
fn number(bytes: &[u8], index: usize) -> u64 {
    let bytes = &bytes[8 * index..][..8];
    u64::from_le_bytes(bytes.try_into().expect("eight bytes"))
}
