//! Whether both sides read a call, and that they read the same.
use super::{Call, Room, What};
use lintelow::{raw, Answer, Mode, Refusal};
use nix_wire::answer::{self, Answer as Theirs};
use nix_wire::line::Line;
use nix_wire::ops::Op;
use nix_wire::request::Request;

/// The number that the comparison with the Rust has for it.
fn number(what: What) -> u64 {
    match what {
        What::ReadArguments => 1,
        What::SkipArguments => 2,
        What::ReadReply => 3,
        What::SkipReply => 4,
        What::StderrLoop => 5,
        What::StderrWithError => 6,
        What::Handshake => 7,
        What::DaemonHandshake => 8,
    }
}

fn is_handshake(what: What) -> bool {
    matches!(what, What::Handshake | What::DaemonHandshake)
}

fn ours<'r>(what: What, call: &Call, room: &'r mut Room) -> Result<Answer<'r>, Refusal> {
    let Call { op, version, bytes, client } = *call;
    let Room { entries, payload } = room;
    match what {
        What::ReadArguments => raw::read_op_args(Mode::Ported, op, version, bytes, entries, payload),
        What::SkipArguments => raw::skip_op_args(Mode::Ported, op, version, bytes),
        What::ReadReply => raw::read_daemon_result(op, version, bytes, entries, payload),
        What::SkipReply => raw::skip_daemon_result(op, version, bytes),
        What::StderrLoop => raw::read_stderr_loop(bytes),
        What::StderrWithError => raw::read_stderr_with_error(Mode::Ported, version, bytes, entries),
        What::Handshake => raw::parse_handshake(client, bytes, entries),
        What::DaemonHandshake => raw::parse_daemon_handshake(version, bytes, entries),
    }
}

fn theirs(what: What, call: &Call) -> Option<Line> {
    let (major, minor) = (call.version.major.into(), call.version.minor.into());
    let (a, b) = if is_handshake(what) { (call.client, call.bytes) } else { (call.bytes, call.client) };
    let request = Request { call: number(what), operation: call.op, major, minor, a: a.to_vec(), b: b.to_vec(), ..Request::default() };
    match answer::answer(&request) {
        Theirs::Ok(line) => Some(line),
        _ => None,
    }
}

/// The text that nix-wire answers where it skips arguments.
fn text(call: &Call) -> Option<String> {
    lintelow::skip_op_args(Mode::Ported, call.op, call.version, call.bytes).ok()?.0.text()
}

fn agree(what: What, call: &Call, ours: &Answer, theirs: &Line) -> bool {
    let all = (ours.kind, ours.end, ours.end2) == (theirs.kind, theirs.end, theirs.end2);
    if what == What::SkipArguments {
        return all && text(call).map(String::into_bytes).as_slice() == theirs.strings;
    }
    // The client's features stand in its own stream.
    let of_client = if what == What::Handshake { ours.counts[0] as usize } else { 0 };
    let stream = |index| if index < of_client { call.client } else { call.bytes };
    let strings = ours.entries.iter().enumerate().map(|(index, entry)| entry.bytes(stream(index)));
    all && (ours.numbers, ours.counts) == (theirs.numbers, theirs.counts) && ours.payload == theirs.payload && strings.eq(&theirs.strings)
}

/// Whether the sides read the call: not if they have no such operation or refuse it, or if its arguments are none of those that are read.
pub fn is_read(what: What, call: &Call) -> bool {
    if Op::from_u64(call.op).is_none() {
        return false;
    }
    let mut room = Room::enough(&[*call]);
    match (ours(what, call, &mut room), theirs(what, call)) {
        (Ok(ours), Some(theirs)) => {
            assert!(agree(what, call, &ours, &theirs), "both read the same");
            ours.kind != 0 || !matches!(what, What::ReadArguments | What::SkipArguments)
        }
        (Err(_), None) => false,
        _ => panic!("one side reads what the other refuses"),
    }
}
