//! Every operation, every kind of arguments and replies, and the calls that can't be followed.
mod common;

use common::*;
use lintelow_show::{Options, Status};
use std::collections::BTreeSet;
use std::fs;
use std::path::Path;

/// The kinds that a section of docs/SHOW.md lists, in the first cells of its table.
fn documented(from: &str, to: &str) -> BTreeSet<String> {
    let document = fs::read_to_string(Path::new(env!("CARGO_MANIFEST_DIR")).join("../../docs/SHOW.md")).unwrap();
    let section = document.split_once(from).unwrap().1.split_once(to).unwrap().0;
    let first_cells = section.lines().filter(|line| line.starts_with("| `")).map(|line| line.split('|').nth(1).unwrap());
    first_cells.flat_map(|cell| cell.split(',')).map(|kind| kind.trim().trim_matches('`').to_owned()).collect()
}

fn kind(line: &str, part: &str) -> Option<String> {
    let rest = line.split_once(part)?.1.split_once("\"kind\":\"")?.1;
    Some(rest.split_once('"')?.0.to_owned())
}

/// Streams of zeros, and of ones (where a flag is true, a count 1, a string one character), have calls of every kind.
#[test]
fn every_kind_is_told_and_documented() {
    let (mut arguments, mut replies) = (BTreeSet::new(), BTreeSet::new());
    for op in 0..=48 {
        for minor in [14, 16, 24, 25, 26, 34, 38] {
            for number in [0, 1] {
                let answer = [vec![LAST], vec![number; 64]].concat();
                let (_, json) = told_call(minor, op, &[number; 64], &answer, &as_json());
                let call = json.lines().nth(1).unwrap();
                assert!(call.starts_with(&format!("{{\"event\":\"call\",\"call\":1,\"op\":{op},")), "{call}");
                arguments.extend(kind(call, "\"arguments\":"));
                replies.extend(kind(call, "\"reply\":"));
                let (_, words) = told_call(minor, op, &[number; 64], &answer, &Options::default());
                assert!(words.contains(&format!("call 1: {op} ")), "{words}");
            }
        }
    }
    assert_eq!(arguments, documented("Kinds of arguments", "Kinds of replies"));
    assert_eq!(replies, documented("Kinds of replies", "Flags are"));
}

#[test]
fn calls_that_cannot_be_followed() {
    let known = [36, 39];
    for (minor, op) in [(34, 36), (38, 39), (24, 7), (34, 2), (34, 48), (34, u64::MAX)] {
        let (status, json) = told_call(minor, op, &[0; 64], &[LAST; 64], &as_json());
        assert_eq!(status, Status::Unfollowed, "{op} at 1.{minor}");
        let last = json.lines().last().unwrap();
        assert!(last.starts_with(&format!("{{\"event\":\"unfollowed\",\"call\":1,\"op\":{op},")), "{last}");
        assert!(last.contains(&format!("\"known\":{}", known.contains(&op) || op == 7)), "{last}");
        let (_, words) = told_call(minor, op, &[0; 64], &[LAST; 64], &Options::default());
        assert!(words.contains("can't follow  call 1: "), "{words}");
    }
    let (status, _) = told_call(25, 7, &[0; 5], &[LAST, 0, 0, 0, 0, 0, 0, 0, 0, 0], &as_json());
    assert_eq!(status, Status::Read, "AddToStore from 1.25 on");
}

#[test]
fn an_operation_number_cut_short() {
    let (mut client, daemon) = handshake(34);
    let place = client.len();
    client.extend([19, 0, 0]);
    let (status, json) = told(&client, &daemon, &as_json());
    assert_eq!(status, Status::Refused);
    let expected = "{\"event\":\"refusal\",\"call\":1,\"op\":null,\"part\":\"number\",\"refusal\":1,";
    let last = json.lines().last().unwrap();
    assert!(last.starts_with(expected) && last.ends_with(&format!("\"stream\":\"client\",\"place\":{place}}}")), "{last}");
}

#[test]
fn modes_by_their_text() {
    for (mode, text) in [(0, "normal"), (1, "repair"), (2, "check"), (77, "77")] {
        let (_, json) = told_call(34, 9, &[0, mode], &[LAST, 1], &as_json());
        assert!(json.contains(&format!("\"mode\":\"{text}\"")), "{json}");
    }
}
