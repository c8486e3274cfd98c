//! Streams of replies that are all alike, so that both sides read the same bytes and a reply's place follows from its index.
use std::ops::Range;

#[derive(Clone, Copy, PartialEq, Eq)]
pub enum Shape {
    Set,
    Framed,
}

pub struct Stream {
    pub shape: Shape,
    /// The bytes of a string or a chunk.
    pub size: usize,
    /// Strings or chunks in a reply.
    pub count: usize,
    pub replies: usize,
    pub bytes: Vec<u8>,
}

impl Stream {
    /// One reply, of about so many bytes.
    pub fn of_one_reply(shape: Shape, size: usize, total: usize) -> Stream {
        Stream::new(shape, size, (total / piece(shape, size)).max(1), 1)
    }

    pub fn new(shape: Shape, size: usize, count: usize, replies: usize) -> Stream {
        let mut bytes = Vec::new();
        for reply in 0..replies {
            if shape == Shape::Set {
                bytes.extend((count as u64).to_le_bytes());
            }
            for index in 0..count {
                bytes.extend((size as u64).to_le_bytes());
                bytes.extend(contents(reply + index, size));
                bytes.resize(bytes.len() + padding(shape, size), 0);
            }
            if shape == Shape::Framed {
                bytes.extend([0; 8]);
            }
        }
        Stream { shape, size, count, replies, bytes }
    }

    pub fn reply(&self, index: usize) -> Range<usize> {
        let each = self.bytes.len() / self.replies;
        index * each..(index + 1) * each
    }

    /// Strings or chunks in all.
    pub fn pieces(&self) -> usize {
        self.count * self.replies
    }
}

/// ASCII, as store paths are, another at each index.
fn contents(index: usize, size: usize) -> impl Iterator<Item = u8> {
    const LETTERS: &[u8] = b"0123456789abcdfghijklmnpqrsvwxyz-.";
    (0..size).map(move |i| LETTERS[(7 * index + i) % LETTERS.len()])
}

fn padding(shape: Shape, size: usize) -> usize {
    match shape {
        Shape::Set => size.next_multiple_of(8) - size,
        Shape::Framed => 0,
    }
}

fn piece(shape: Shape, size: usize) -> usize {
    8 + size + padding(shape, size)
}
