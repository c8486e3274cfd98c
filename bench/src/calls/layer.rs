//! Our side by the crate for Rust, its layer `raw`.
use super::{Call, Caller, Calls, Room, What};
use lintelow::{raw, Answer, Mode, Refusal};
use std::hint::black_box;

pub struct Layer<'s> {
    what: What,
    calls: &'s [Call<'s>],
    room: Room,
}

impl<'s> Layer<'s> {
    pub fn new(calls: &'s Calls) -> Layer<'s> {
        Layer { what: calls.what, calls: &calls.calls, room: Room::enough(&calls.calls) }
    }

    fn call(&mut self, call: &Call) -> usize {
        let Call { op, version, bytes, client } = *call;
        let Room { entries, payload } = &mut self.room;
        match self.what {
            What::ReadArguments => taken(raw::read_op_args(Mode::Ported, op, version, bytes, entries, payload)),
            What::SkipArguments => taken(raw::skip_op_args(Mode::Ported, op, version, bytes)),
            What::StderrWithError => taken(raw::read_stderr_with_error(Mode::Ported, version, bytes, entries)),
            What::StderrLoop => taken(raw::read_stderr_loop(bytes)),
            What::ReadReply => taken(raw::read_daemon_result(op, version, bytes, entries, payload)),
            What::SkipReply => taken(raw::skip_daemon_result(op, version, bytes)),
            What::Handshake => taken_of_both(raw::parse_handshake(client, bytes, entries)),
            What::DaemonHandshake => taken_of_both(raw::parse_daemon_handshake(version, bytes, entries)),
        }
    }
}

/// What every caller takes of an answer: kind, entries and payload, and the end.
fn taken(answer: Result<Answer, Refusal>) -> usize {
    let answer = answer.expect("a call that is read");
    black_box((answer.kind, answer.entries, answer.payload));
    answer.end
}

/// Of a handshake, which has an end in each stream.
fn taken_of_both(answer: Result<Answer, Refusal>) -> usize {
    taken(answer) + answer.map_or(0, |answer| answer.end2)
}

impl Caller for Layer<'_> {
    fn make(&mut self, ends: &mut [usize]) {
        for (call, end) in self.calls.iter().zip(ends) {
            *end = self.call(call);
        }
    }
}
