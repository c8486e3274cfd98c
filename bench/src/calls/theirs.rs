//! nix-wire's side: a reader of its own for each call, or two for a handshake, with the call's bytes.
use super::{Call, Caller, Calls, What};
use crate::poll::good;
use nix_wire::answer::{over, position, Reader};
use nix_wire::handshake::ProtocolVersion;
use nix_wire::ops::Op;
use nix_wire::protocol;
use std::pin::pin;

/// What a call is read from.
trait Source {
    fn of(call: &Call) -> Self;
    fn end(&self) -> usize;
}

impl Source for Reader {
    fn of(call: &Call) -> Reader {
        over(call.bytes)
    }

    fn end(&self) -> usize {
        position(self)
    }
}

/// The client's and the daemon's stream.
impl Source for (Reader, Reader) {
    fn of(call: &Call) -> (Reader, Reader) {
        (over(call.client), over(call.bytes))
    }

    fn end(&self) -> usize {
        position(&self.0) + position(&self.1)
    }
}

/// A type for each way to ask: with one for all, each call would bear the largest answer and the largest future.
struct Theirs<'s, F, S, T> {
    calls: &'s [Call<'s>],
    asked: Vec<(Op, ProtocolVersion)>,
    ask: F,
    sources: Vec<S>,
    /// Kept until the next pass is prepared, so that no freeing is timed.
    answers: Vec<T>,
}

pub fn caller<'s>(calls: &'s Calls) -> Box<dyn Caller + 's> {
    match calls.what {
        What::ReadArguments => by(calls, |op, version, r: &mut Reader| good(pin!(protocol::read_op_args(op, version, r)))),
        What::SkipArguments => by(calls, |op, version, r: &mut Reader| good(pin!(protocol::skip_op_args(op, version, r)))),
        What::StderrWithError => by(calls, |_, _, r: &mut Reader| good(pin!(protocol::read_stderr_with_error(r)))),
        What::StderrLoop => by(calls, |_, _, r: &mut Reader| good(pin!(protocol::read_stderr_loop(r)))),
        What::ReadReply => by(calls, |op, version, r: &mut Reader| good(pin!(protocol::read_daemon_result(op, version, r)))),
        What::SkipReply => by(calls, |op, version, r: &mut Reader| good(pin!(protocol::skip_daemon_result(op, version, r)))),
        What::Handshake => by(calls, |_, _, (client, daemon): &mut (Reader, Reader)| good(pin!(protocol::parse_handshake(client, daemon)))),
        What::DaemonHandshake => by(calls, |_, version, r: &mut Reader| good(pin!(protocol::parse_daemon_handshake(r, version)))),
    }
}

fn by<'s, S: Source + 's, T: 's>(calls: &'s Calls, ask: impl Fn(Op, ProtocolVersion, &mut S) -> T + 's) -> Box<dyn Caller + 's> {
    let asked = |call: &Call| {
        let op = Op::from_u64(call.op).expect("an operation");
        (op, ProtocolVersion::new(call.version.major, call.version.minor))
    };
    let asked: Vec<_> = calls.calls.iter().map(asked).collect();
    let (sources, answers) = (Vec::with_capacity(asked.len()), Vec::with_capacity(asked.len()));
    Box::new(Theirs { calls: &calls.calls, asked, ask, sources, answers })
}

impl<F: Fn(Op, ProtocolVersion, &mut S) -> T, S: Source, T> Caller for Theirs<'_, F, S, T> {
    fn prepare(&mut self) {
        self.answers.clear();
        self.sources.clear();
        self.sources.extend(self.calls.iter().map(S::of));
    }

    fn make(&mut self, ends: &mut [usize]) {
        for ((&(op, version), source), end) in self.asked.iter().zip(&mut self.sources).zip(ends) {
            self.answers.push((self.ask)(op, version, source));
            *end = source.end();
        }
    }
}
