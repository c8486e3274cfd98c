//! nix-wire's side: its own reader in memory.
use crate::poll::good;
use crate::streams::{Shape, Stream};
use crate::{operation, Call, Side, Through};
use nix_wire::answer::{over, position, Reader};
use nix_wire::handshake::ProtocolVersion;
use nix_wire::ops::Op;
use nix_wire::protocol;
use nix_wire::script::ResultData;
use std::hint::black_box;
use std::pin::pin;

const VERSION: ProtocolVersion = ProtocolVersion::new(crate::VERSION.0, crate::VERSION.1);

enum Answer {
    Reply(ResultData),
    Strings(Vec<String>),
    Bytes(Vec<u8>),
}

pub struct Theirs<'s> {
    stream: &'s Stream,
    through: Through,
    call: Call,
    reader: Reader,
    /// Kept until the next pass is prepared, so that no freeing is timed.
    answers: Vec<Answer>,
}

impl<'s> Theirs<'s> {
    pub fn new(stream: &'s Stream, through: Through, call: Call) -> Theirs<'s> {
        Theirs { stream, through, call, reader: over(&[]), answers: Vec::with_capacity(stream.replies) }
    }

    /// Where the last pass ended.
    pub fn end(&self) -> usize {
        position(&self.reader)
    }

    /// What was read, each string or all chunks of a reply.
    pub fn contents(&self) -> Vec<Vec<u8>> {
        let strings = |set: &[String]| set.iter().map(|s| s.clone().into_bytes()).collect();
        let each = |answer: &Answer| match answer {
            Answer::Reply(ResultData::StringSet(set)) | Answer::Strings(set) => strings(set),
            Answer::Reply(ResultData::Framed(bytes)) | Answer::Bytes(bytes) => vec![bytes.clone()],
            Answer::Reply(_) => unreachable!("another operation's reply"),
        };
        self.answers.iter().flat_map(each).collect()
    }
}

fn read(shape: Shape, through: Through, op: Op, r: &mut Reader) -> Answer {
    match (through, shape) {
        (Through::Reply, _) => Answer::Reply(good(pin!(protocol::read_daemon_result(op, VERSION, r)))),
        (Through::Wire, Shape::Set) => Answer::Strings(good(pin!(r.read_string_set()))),
        (Through::Wire, Shape::Framed) => Answer::Bytes(good(pin!(r.read_framed()))),
    }
}

fn skip(shape: Shape, through: Through, op: Op, r: &mut Reader) {
    match (through, shape) {
        (Through::Reply, _) => good(pin!(protocol::skip_daemon_result(op, VERSION, r))),
        (Through::Wire, Shape::Set) => _ = black_box(good(pin!(r.skip_string_set()))),
        (Through::Wire, Shape::Framed) => _ = black_box(good(pin!(r.skip_framed()))),
    }
}

impl Side for Theirs<'_> {
    fn needs_preparing(&self) -> bool {
        true
    }

    fn prepare(&mut self) {
        self.answers.clear();
        self.reader = over(&self.stream.bytes);
    }

    fn pass(&mut self) {
        let op = Op::from_u64(operation(self.stream.shape)).expect("an operation");
        for _ in 0..self.stream.replies {
            match self.call {
                Call::Read => self.answers.push(read(self.stream.shape, self.through, op, &mut self.reader)),
                Call::Skip => skip(self.stream.shape, self.through, op, &mut self.reader),
            }
        }
    }
}
