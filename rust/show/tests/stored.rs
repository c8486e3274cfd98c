//! What the program prints of each recorded session, against a stored output. With STORE set in the environment the outputs are stored anew; tests/index.rs
//! then holds their byte ranges against the sessions' indexes.
mod common;

use common::*;
use std::env;
use std::fs;
use std::path::Path;

/// The sessions that do not end with status 0.
const STATUS: [(&str, i32); 5] = [("fb28cmax-nb-0", 1), ("hand28c25-0", 3), ("n28-nglog-0", 1), ("n28-remotebuild-0", 3), ("srv28-copyclosure-0", 1)];

/// The sessions that nix-wire loses at a call, and how they end with --ported. Where that is status 0 bytes are left over.
const PORTED: [(&str, i32); 6] =
    [("hand226c38-0", 3), ("n226-mix2-2", 3), ("n23-fail-0", 1), ("n28-fail-0", 0), ("n28c29-cacopyng-0", 1), ("tr28-trace1-0", 0)];

fn compare(options: &[&str], extension: &str) {
    for name in names() {
        let expected = STATUS.iter().find(|(known, _)| *known == name).map_or(0, |(_, status)| *status);
        same_as_stored(&name, options, extension, expected);
    }
}

fn same_as_stored(name: &str, options: &[&str], extension: &str, expected: i32) {
    let output = program().args(options).arg(captures().join(name)).output().unwrap();
    assert_eq!(status(&output), expected, "{name}");
    assert!(output.stderr.is_empty(), "{name}: {}", String::from_utf8_lossy(&output.stderr));
    let file = Path::new(env!("CARGO_MANIFEST_DIR")).join("tests/stored").join(format!("{name}.{extension}"));
    if env::var_os("STORE").is_some() {
        fs::write(&file, &output.stdout).unwrap();
    }
    let stored = fs::read_to_string(&file).unwrap_or_else(|why| panic!("{}: {why}", file.display()));
    assert_eq!(printed(&output), stored, "{name}: not what {} has", file.display());
}

#[test]
fn words() {
    compare(&[], "txt");
}

#[test]
fn json() {
    compare(&["--json"], "json");
}

#[test]
fn summary() {
    compare(&["--summary"], "summary");
}

/// Those have outputs of their own; of the others each is the same with --ported.
#[test]
fn ported() {
    for (name, status) in PORTED {
        for (options, extension) in
            [(&["--ported"][..], "ported.txt"), (&["--ported", "--json"], "ported.json"), (&["--ported", "--summary"], "ported.summary")]
        {
            same_as_stored(name, options, extension, status);
        }
    }
    for name in names().iter().filter(|name| PORTED.iter().all(|(lost, _)| lost != name)) {
        let json = |options: &[&str]| program().args(options).arg(captures().join(name)).output().unwrap();
        assert_eq!(json(&["--json", "--ported"]), json(&["--json"]), "{name}");
    }
}

#[test]
fn a_summary_as_json_has_the_summary_and_the_last_event() {
    let output = program().args(["--summary", "--json"]).arg(captures().join("n28-delete-0")).output().unwrap();
    let lines: Vec<&str> = printed(&output).lines().collect();
    let [summary, end] = lines[..] else { panic!("{lines:?}") };
    assert!(summary.starts_with("{\"event\":\"summary\",\"operations\":[{\"op\":19,\"name\":\"SetOptions\",\"calls\":1,"), "{summary}");
    assert!(summary.ends_with("\"client_bytes\":272,\"daemon_bytes\":392}"), "{summary}");
    assert_eq!(end, "{\"event\":\"end\",\"calls\":2,\"left\":[328,392]}");
}

#[test]
fn full_words_leave_nothing_out() {
    let lines = |options: &[&str]| {
        let output = program().args(options).arg(captures().join("n28-remotebuild-0")).output().unwrap();
        printed(&output).lines().filter(|line| line.contains(" = ") || line.contains("and 45 more")).count()
    };
    assert_eq!((lines(&[]), lines(&["--full"])), (13, 57));
}
