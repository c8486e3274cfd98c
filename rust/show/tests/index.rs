//! The byte ranges that are shown, against the sessions' indexes, which an independent decoder made by what the daemons really send. They are equal but
//! where published mode, as the Rust and document 01, reads something else: those calls stand here, with what is done instead.
mod common;

use common::*;
use lintelow_show::{Options, Status};
use std::fs;

/// A call of an index: a line of index.tsv.
struct Indexed {
    op: u64,
    version: String,
    arguments: (usize, usize),
    messages: (usize, usize),
    outcome: (usize, usize),
    is_error: bool,
    fixed_end: usize,
    name: String,
}

fn index(session: &str) -> Vec<Indexed> {
    let text = fs::read_to_string(captures().join(session).join("index.tsv")).unwrap();
    let calls = text.lines().filter(|line| !line.starts_with('#')).map(|line| {
        let cells: Vec<&str> = line.split('\t').collect();
        let number = |cell: usize| cells[cell].parse().unwrap();
        Indexed {
            op: cells[0].parse().unwrap(),
            version: cells[1].to_owned(),
            arguments: (number(2), number(3)),
            messages: (number(4), number(5)),
            outcome: (number(6), number(7)),
            is_error: cells[8] == "error",
            fixed_end: number(9),
            name: cells[10].to_owned(),
        }
    });
    calls.collect()
}

/// What becomes of a call that a daemon sends otherwise.
#[derive(Debug, PartialEq, Eq, Clone, Copy)]
enum Difference {
    /// The reply or error block is read to another end.
    Ends(usize),
    /// It is refused, by a number at a place of the daemon's stream.
    Refused(u64, usize),
    /// The arguments are not read.
    Unfollowed,
    /// There is no such operation.
    Unknown,
    /// The handshake is refused, by a number: no call is read.
    NoHandshake(u64),
}

/// The sessions with such a call; docs/DIFFERENCES.md explains each.
const DIFFERENCES: [(&str, usize, Difference); 6] = [
    // Reply 20 is a set and two numbers, and read as three numbers: the set's count, and the length and first eight bytes of its path.
    ("n28-delete-0", 2, Difference::Ends(328)),
    // Reply 38 is a bare archive, and read as framed: its first string's length as a chunk's, its padding as part of the next length.
    ("n28-nglog-0", 2, Difference::Refused(1, 93)),
    // A message that is not text.
    ("fb28cmax-nb-0", 5, Difference::Refused(3, 2550)),
    // Arguments that neither the Rust nor 01 reads.
    ("n28-remotebuild-0", 4, Difference::Unfollowed),
    // HasSubstitutes, which nix-wire does not have.
    ("hand28c25-0", 3, Difference::Unknown),
    // Another protocol.
    ("srv28-copyclosure-0", 1, Difference::NoHandshake(6)),
];

/// The failed calls whose errors end elsewhere with --ported: from 1.26 on the count of traces is left over, and below it a message and a number are read
/// as a type and a level.
const PORTED_ERRORS: [(&str, usize, Difference); 3] =
    [("n28-fail-0", 5, Difference::Ends(2736)), ("tr28-trace1-0", 5, Difference::Ends(1552)), ("n23-fail-0", 5, Difference::Refused(1, 2496))];

fn difference(list: &[(&str, usize, Difference)], session: &str, call: usize) -> Option<Difference> {
    list.iter().find(|(name, index, _)| (*name, *index) == (session, call)).map(|(_, _, what)| *what)
}

#[test]
fn ranges_are_those_of_the_index() {
    for session in names() {
        let (client, daemon) = streams(&session);
        let (_, json) = told(&client, &daemon, &as_json());
        same_as_indexed(&session, &json, index(&session), &DIFFERENCES);
    }
}

/// Holds what is told of a session against its index, up to a difference that stops it.
fn same_as_indexed(session: &str, json: &str, index: Vec<Indexed>, differences: &[(&str, usize, Difference)]) {
    let mut lines = json.lines();
    let handshake = lines.next().unwrap();
    for (number, mut indexed) in (1..).zip(index) {
        let difference = difference(differences, session, number);
        if let Some(Difference::NoHandshake(refusal)) = difference {
            assert!(
                handshake.starts_with(&format!("{{\"event\":\"refusal\",\"call\":null,\"op\":null,\"part\":\"handshake\",\"refusal\":{refusal},"))
            );
            break;
        }
        if difference == Some(Difference::Unknown) {
            indexed.name = "unknown".to_owned();
        }
        let line = lines.next().unwrap_or_else(|| panic!("{session} has no call {number}"));
        same_call(session, number, line, &indexed);
        match difference {
            None => same_ranges(session, number, line, &indexed),
            Some(Difference::Ends(end)) => {
                assert_ne!(indexed.outcome.1, end, "{session}, call {number}: no difference");
                same_ranges(session, number, line, &Indexed { outcome: (indexed.outcome.0, end), ..indexed });
            }
            Some(Difference::Refused(refusal, place)) => {
                same_arguments(session, number, line, &indexed);
                assert_eq!(range_after(line, "\"messages\":{\"range\":"), Some(indexed.messages), "{session}, call {number}: {line}");
                let stop = lines.next().unwrap();
                assert!(stop.starts_with("{\"event\":\"refusal\""), "{session}: {stop}");
                assert_eq!(number_after(stop, "\"refusal\":"), Some(refusal as usize), "{session}: {stop}");
                assert_eq!(number_after(stop, "\"stream\":\"daemon\",\"place\":"), Some(place), "{session}: {stop}");
                assert!((indexed.outcome.0..=indexed.outcome.1).contains(&place));
                break;
            }
            Some(Difference::Unfollowed | Difference::Unknown) => {
                let stop = lines.next().unwrap();
                assert!(stop.starts_with("{\"event\":\"unfollowed\""), "{session}: {stop}");
                assert!(stop.contains(&format!("\"known\":{},", difference == Some(Difference::Unfollowed))), "{session}: {stop}");
                assert_eq!(number_after(stop, "\"client\":"), Some(indexed.arguments.0), "{session}: {stop}");
                assert_eq!(number_after(stop, "\"daemon\":"), Some(indexed.messages.0), "{session}: {stop}");
                break;
            }
            Some(Difference::NoHandshake(_)) => (),
        }
    }
}

/// A session is whole where no call differs: nothing is left over.
#[test]
fn sessions_without_a_difference_are_read_to_the_last_byte() {
    for session in names() {
        if DIFFERENCES.iter().any(|(name, _, _)| *name == session) {
            continue;
        }
        let (client, daemon) = streams(&session);
        let (_, json) = told(&client, &daemon, &as_json());
        let expected = format!("{{\"event\":\"end\",\"calls\":{},\"left\":[{1},{1}]}}", index(&session).len(), daemon.len());
        assert_eq!(json.lines().last(), Some(expected.as_str()), "{session}");
    }
}

/// With --ported the arguments of these calls are read to this end, which is not the index's. What is left over is taken for the next call.
#[test]
fn arguments_that_only_published_mode_reads() {
    for (session, number, end) in [("hand226c38-0", 13, 920), ("n226-mix2-2", 3, 352), ("n28c29-cacopyng-0", 2, 272)] {
        let (client, daemon) = streams(session);
        let (_, json) = told(&client, &daemon, &Options { ported: true, ..as_json() });
        let lines: Vec<&str> = json.lines().collect();
        let indexed = index(session).remove(number - 1);
        assert_ne!(indexed.arguments.1, end, "{session}: no difference");
        let ported = Indexed { arguments: (indexed.arguments.0, end), fixed_end: end, ..indexed };
        same_call(session, number, lines[number], &ported);
        same_ranges(session, number, lines[number], &ported);
        assert_eq!(range_after(lines[number + 1], "\"number\":"), Some((end, end + 8)), "{session}: {}", lines[number + 1]);
    }
}

#[test]
fn errors_that_only_published_mode_reads() {
    for (session, ..) in PORTED_ERRORS {
        let (client, daemon) = streams(session);
        let (_, json) = told(&client, &daemon, &Options { ported: true, ..as_json() });
        same_as_indexed(session, &json, index(session), &PORTED_ERRORS);
    }
}

/// This session has calls of four operations that nix-wire does not have. Without their bytes it is read to its end: a call fails, and one follows it.
#[test]
fn a_session_without_the_calls_that_are_unknown() {
    let session = "hand28c25-0";
    let (client, daemon) = streams(session);
    let mut known = index(session);
    let (mut said, mut answered) = (client[..known[0].arguments.0 - 8].to_vec(), daemon[..known[0].messages.0].to_vec());
    known.retain(|call| ![3, 4, 5, 16].contains(&call.op));
    for call in &mut known {
        let (start, end) = (call.arguments.0 - 8, call.arguments.1);
        let (by, daemon_by) = (start - said.len(), call.messages.0 - answered.len());
        said.extend(&client[start..end]);
        answered.extend(&daemon[call.messages.0..call.outcome.1]);
        call.arguments = (call.arguments.0 - by, end - by);
        call.fixed_end -= by;
        call.messages = (call.messages.0 - daemon_by, call.messages.1 - daemon_by);
        call.outcome = (call.outcome.0 - daemon_by, call.outcome.1 - daemon_by);
    }
    let outcomes: Vec<_> = known[14..].iter().map(|call| (call.name.as_str(), call.is_error)).collect();
    assert_eq!(outcomes, [("EnsurePath", true), ("IsValidPath", false)]);
    let (status, json) = told(&said, &answered, &as_json());
    same_as_indexed(session, &json, known, &[]);
    assert_eq!(status, Status::Read);
    assert_eq!(json.lines().last(), Some(format!("{{\"event\":\"end\",\"calls\":16,\"left\":[{0},{0}]}}", answered.len()).as_str()));
}

/// Where the client's recording ends with a call, that many calls are told, and the rest of the daemon's bytes are left over.
#[test]
fn a_session_cut_behind_a_call() {
    for session in names() {
        let (client, daemon) = streams(&session);
        for (number, indexed) in (1..).zip(index(&session)) {
            if difference(&DIFFERENCES, &session, number).is_some() {
                break;
            }
            let (_, json) = told(&client[..indexed.arguments.1], &daemon, &as_json());
            let expected = format!("{{\"event\":\"end\",\"calls\":{number},\"left\":[{},{}]}}", indexed.outcome.1, daemon.len());
            assert_eq!(json.lines().last(), Some(expected.as_str()), "{session}, call {number}");
        }
    }
}

fn same_call(session: &str, number: usize, line: &str, indexed: &Indexed) {
    let Indexed { op, version, name, .. } = indexed;
    let start = indexed.arguments.0;
    let expected = format!(
        "{{\"event\":\"call\",\"call\":{number},\"op\":{op},\"name\":\"{name}\",\"version\":\"{version}\",\"number\":[{},{start}]",
        start - 8
    );
    assert!(line.starts_with(&expected), "{session}: {line}\nis not {expected}");
}

fn same_arguments(session: &str, number: usize, line: &str, indexed: &Indexed) {
    assert_eq!(range_after(line, "\"arguments\":{\"range\":"), Some(indexed.arguments), "{session}, call {number}: {line}");
    assert_eq!(number_after(line, "\"fixed_end\":"), Some(indexed.fixed_end), "{session}, call {number}: {line}");
}

fn same_ranges(session: &str, number: usize, line: &str, indexed: &Indexed) {
    same_arguments(session, number, line, indexed);
    assert_eq!(range_after(line, "\"messages\":{\"range\":"), Some(indexed.messages), "{session}, call {number}: {line}");
    let outcome = if indexed.is_error { "\"error\":{\"range\":" } else { "\"reply\":{\"range\":" };
    assert_eq!(range_after(line, outcome), Some(indexed.outcome), "{session}, call {number}: {line}");
}
