//! Lintelow's side: the calls with lent room.
use crate::streams::{Shape, Stream};
use crate::{operation, Call, Side, Through};
use lintelow::raw::{self, ENTRY};
use lintelow::{Answer, Refusal, Version};
use std::hint::black_box;

const VERSION: Version = Version::new(crate::VERSION.0, crate::VERSION.1);

pub struct Ours<'s> {
    stream: &'s Stream,
    through: Through,
    call: Call,
    entries: Vec<u8>,
    payload: Vec<u8>,
    end: usize,
}

impl<'s> Ours<'s> {
    pub fn new(stream: &'s Stream, through: Through, call: Call) -> Ours<'s> {
        let room = |shape, each| vec![0; if call == Call::Read && stream.shape == shape { stream.pieces() * each } else { 0 }];
        let (entries, payload) = (room(Shape::Set, ENTRY), room(Shape::Framed, stream.size));
        Ours { stream, through, call, entries, payload, end: 0 }
    }

    pub fn room(&self) -> usize {
        self.entries.len() + self.payload.len()
    }

    /// Where the last pass ended.
    pub fn end(&self) -> usize {
        self.end
    }

    /// What was read, from the room that was lent for it.
    pub fn contents(&self) -> Vec<Vec<u8>> {
        if self.stream.shape == Shape::Framed {
            return self.payload.chunks(self.payload.len() / self.stream.replies).map(<[u8]>::to_vec).collect();
        }
        let number = |entry: &[u8], index: usize| u64::from_le_bytes(entry[8 * index..][..8].try_into().expect("eight bytes")) as usize;
        let string = |(index, entry): (usize, &[u8])| {
            let reply = &self.stream.bytes[self.stream.reply(index / self.stream.count)];
            reply[number(entry, 0)..][..number(entry, 1)].to_vec()
        };
        self.entries.chunks(ENTRY).enumerate().map(string).collect()
    }
}

fn call<'r>(shape: Shape, through: Through, call: Call, s: &[u8], entries: &'r mut [u8], payload: &'r mut [u8]) -> Result<Answer<'r>, Refusal> {
    match (through, call, shape) {
        (Through::Reply, Call::Read, _) => raw::read_daemon_result(operation(shape), VERSION, s, entries, payload),
        (Through::Reply, Call::Skip, _) => raw::skip_daemon_result(operation(shape), VERSION, s),
        (Through::Wire, Call::Read, Shape::Set) => raw::read_string_set(s, 0, entries),
        (Through::Wire, Call::Skip, Shape::Set) => raw::skip_string_set(s, 0),
        (Through::Wire, Call::Read, Shape::Framed) => raw::read_framed(s, 0, payload),
        (Through::Wire, Call::Skip, Shape::Framed) => raw::skip_framed(s, 0),
    }
}

impl Side for Ours<'_> {
    fn needs_preparing(&self) -> bool {
        self.room() > 0
    }

    fn prepare(&mut self) {
        self.entries.fill(0);
        self.payload.fill(0);
    }

    fn pass(&mut self) {
        let mut at = 0;
        let (slots, room) = (self.entries.len() / self.stream.replies, self.payload.len() / self.stream.replies);
        for reply in 0..self.stream.replies {
            let entries = &mut self.entries[reply * slots..][..slots];
            let payload = &mut self.payload[reply * room..][..room];
            let answer = call(self.stream.shape, self.through, self.call, &self.stream.bytes[at..], entries, payload).expect("a good stream");
            at += black_box(answer).end;
        }
        self.end = at;
    }
}
