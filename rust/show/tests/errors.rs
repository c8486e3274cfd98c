//! Calls that failed: their errors in every view, by version and mode, and the calls that follow them.
mod common;

use common::*;
use lintelow_show::{Options, Status};

const SYNC_WITH_GC: u64 = 13;

fn string(text: &str) -> Vec<u8> {
    let mut bytes = [numbers(&[text.len() as u64]), text.as_bytes().to_vec()].concat();
    bytes.resize(bytes.len().next_multiple_of(8), 0);
    bytes
}

/// An error as daemons send it from 1.26 on.
fn traced(message: &str, traces: &[&str]) -> Vec<u8> {
    let mut block = [string("Error"), numbers(&[3]), string("name"), string(message), numbers(&[0, traces.len() as u64])].concat();
    traces.iter().for_each(|trace| block.extend([numbers(&[0]), string(trace)].concat()));
    block
}

/// A session of one call that fails and one that does not, with where the error's block stands.
fn failed(minor: u64, block: &[u8]) -> (Vec<u8>, Vec<u8>, usize, usize) {
    let (mut client, mut daemon) = handshake(minor);
    client.extend(numbers(&[SYNC_WITH_GC, SYNC_WITH_GC]));
    daemon.extend(numbers(&[ERROR]));
    let start = daemon.len();
    daemon.extend(block);
    let end = daemon.len();
    daemon.extend(numbers(&[LAST, 7]));
    (client, daemon, start, end)
}

fn in_words() -> Options {
    Options::default()
}

fn summary(json: bool) -> Options {
    Options { json, summary: true, ..Options::default() }
}

/// Messages and traces are told in their order, whole, and nothing in them reaches a terminal.
#[test]
fn traces_in_every_view() {
    let long = "while building ".repeat(20);
    let (client, daemon, start, end) = failed(26, &traced(&long, &["first\n\u{1b}[31m", "", &long]));
    let words = format!(
        "  error      daemon {start}..{end}\n    type Error\n    level 3\n    name name\n    message \"{long}\"\n    trace \"first\\n\\u{{1b}}[31m\"\n    trace \"\"\n    trace \"{long}\"\n"
    );
    let error = format!(
        "\"error\":{{\"range\":[{start},{end}],\"type\":\"Error\",\"level\":3,\"name\":\"name\",\"message\":\"{long}\",\"traces\":[\"first\\u000a\\u001b[31m\",\"\",\"{long}\"],\"exit_status\":null}}}}"
    );
    for (options, expected) in [
        (in_words(), format!("  messages   daemon {}..{start}  1, ended by Error\n{words}\ncall 2: 13 SyncWithGC", start - 8)),
        (summary(false), format!("\n\ncall 1: 13 SyncWithGC  version 1.26, client 32..40\n{words}\nend  2 calls")),
        (as_json(), format!("\"terminal\":\"Error\"}},{error}\n")),
        (summary(true), format!("\"failed\":[{{\"call\":1,\"op\":13,\"name\":\"SyncWithGC\",{error}],\"client_bytes\":48,")),
    ] {
        let (status, told) = told(&client, &daemon, &options);
        assert_eq!(status, Status::Read);
        assert!(told.contains(&expected), "{told}\nhas not\n{expected}");
    }
}

/// Below 1.26 there is a message and an exit status: no type, level or name is told in words.
#[test]
fn exit_statuses_in_every_view() {
    let (client, daemon, start, end) = failed(25, &[string("it failed"), numbers(&[100])].concat());
    let words = format!("  error      daemon {start}..{end}\n    exit status 100\n    message \"it failed\"\n\n");
    let error = format!(
        "\"error\":{{\"range\":[{start},{end}],\"type\":\"\",\"level\":0,\"name\":\"\",\"message\":\"it failed\",\"traces\":[],\"exit_status\":100}}}}"
    );
    for (options, expected) in [(in_words(), &words), (summary(false), &words), (as_json(), &error), (summary(true), &error)] {
        let (status, told) = told(&client, &daemon, &options);
        assert_eq!(status, Status::Read);
        assert!(told.contains(expected), "{told}\nhas not\n{expected}");
    }
}

#[test]
fn a_summary_without_errors_has_none() {
    let (client, daemon) = handshake(34);
    let (_, json) = told(&client, &daemon, &summary(true));
    assert!(json.contains(",\"failed\":[],"), "{json}");
}

/// Every failed call is told, in the order of the session.
#[test]
fn two_failed_calls() {
    let (mut client, mut daemon) = handshake(34);
    for message in ["once", "twice"] {
        client.extend(numbers(&[SYNC_WITH_GC]));
        daemon.extend([numbers(&[ERROR]), traced(message, &[])].concat());
    }
    for (options, before) in
        [(in_words(), "    message "), (summary(false), "    message "), (as_json(), "\"message\":"), (summary(true), "\"message\":")]
    {
        let (status, told) = told(&client, &daemon, &options);
        assert_eq!(status, Status::Read);
        let messages: Vec<&str> = told.split(before).skip(1).map(|rest| rest.trim_start_matches('"')).collect();
        assert!(matches!(messages[..], [first, second] if first.starts_with("once") && second.starts_with("twice")), "{told}");
    }
}

/// With --ported an error has neither, and what is left over of it is not taken for the next call's reply.
#[test]
fn errors_as_nix_wire_reads_them() {
    let (client, daemon, start, end) = failed(34, &traced("it failed", &["a trace"]));
    let (status, json) = told(&client, &daemon, &Options { ported: true, ..as_json() });
    let left = end - 32;
    assert_eq!(status, Status::Unended);
    let error = format!(
        "\"error\":{{\"range\":[{start},{left}],\"type\":\"Error\",\"level\":3,\"name\":\"name\",\"message\":\"it failed\",\"traces\":[],\"exit_status\":null}}"
    );
    assert!(json.contains(&error), "{json}\nhas not\n{error}");
    assert_eq!(json.lines().last(), Some(format!("{{\"event\":\"unended\",\"call\":2,\"op\":13,\"daemon\":{left}}}").as_str()));
}

#[test]
fn a_position_that_is_not_0() {
    let block = traced("it failed", &["a trace"]);
    for back in [40, 24] {
        let mut block = block.clone();
        let at = block.len() - back;
        block[at] = 1;
        let (client, daemon, start, _) = failed(34, &block);
        let place = start + at;
        let (status, words) = told(&client, &daemon, &in_words());
        assert_eq!(status, Status::Refused);
        let expected = format!(
            "\nrefused by 15  nonzero position: a position in an error block isn't 0\n  in the error block of call 1, 13 SyncWithGC, the daemon's stream (daemon.bin), at byte {place}\n"
        );
        assert!(words.contains(&expected), "{words}\nhas not\n{expected}");
        assert!(words.contains(&format!("\n    {place} [01]00 00 00 00 00 00 00  ........\n")), "{words}");
        let (status, json) = told(&client, &daemon, &as_json());
        assert_eq!(status, Status::Refused);
        let expected = format!(
            "{{\"event\":\"refusal\",\"call\":1,\"op\":13,\"part\":\"error\",\"refusal\":15,\"meaning\":\"nonzero position: a position in an error block isn't 0\",\"stream\":\"daemon\",\"place\":{place}}}"
        );
        assert_eq!(json.lines().last(), Some(expected.as_str()));
    }
}

/// A call that is put behind the failed one of a recorded session. With --ported it is lost, at this place.
#[test]
fn a_call_behind_a_recorded_error() {
    for (name, ported, lost_at) in [
        ("n23-fail-0", Status::Refused, "\"refusal\":2,\"meaning\":\"too long: a length above 268435456\",\"stream\":\"daemon\",\"place\":2496}"),
        ("n28-fail-0", Status::Unended, "{\"event\":\"unended\",\"call\":6,\"op\":13,\"daemon\":2736}"),
        ("tr28-trace1-0", Status::Unended, "{\"event\":\"unended\",\"call\":6,\"op\":13,\"daemon\":1552}"),
    ] {
        let (mut client, mut daemon) = streams(name);
        let start = daemon.len();
        client.extend(numbers(&[SYNC_WITH_GC]));
        daemon.extend(numbers(&[LAST, 7]));
        let (status, json) = told(&client, &daemon, &as_json());
        assert_eq!(status, Status::Read, "{name}");
        let lines: Vec<&str> = json.lines().collect();
        let reply = format!(
            "\"messages\":{{\"range\":[{start},{0}],\"count\":1,\"terminal\":\"Last\"}},\"reply\":{{\"range\":[{0},{1}],\"kind\":\"U64\",\"number\":7}}}}",
            start + 8,
            start + 16
        );
        assert!(lines[6].ends_with(&reply), "{name}: {}", lines[6]);
        assert_eq!(lines[7], format!("{{\"event\":\"end\",\"calls\":6,\"left\":[{0},{0}]}}", start + 16), "{name}");

        let (status, json) = told(&client, &daemon, &Options { ported: true, ..as_json() });
        assert_eq!(status, ported, "{name}");
        assert!(json.trim_end().ends_with(lost_at), "{name}: {json}");
    }
}
