//! The recorded sessions of captures/, and the program as a user runs it.
#![allow(dead_code)]
use lintelow_show::{tell, Options, Progress, Status, Style};
use std::fs;
use std::path::{Path, PathBuf};
use std::process::{Command, Output};

pub fn captures() -> PathBuf {
    Path::new(env!("CARGO_MANIFEST_DIR")).join("../../captures")
}

/// The folders of captures/ by name, in order.
pub fn names() -> Vec<String> {
    let folders = fs::read_dir(captures()).unwrap().map(|entry| entry.unwrap()).filter(|entry| entry.path().is_dir());
    let mut names: Vec<String> = folders.map(|entry| entry.file_name().into_string().unwrap()).collect();
    names.sort();
    assert_eq!(names.len(), 19, "folders of captures/");
    names
}

pub fn streams(name: &str) -> (Vec<u8>, Vec<u8>) {
    let read = |file| fs::read(captures().join(name).join(file)).unwrap();
    (read("client.bin"), read("daemon.bin"))
}

pub fn program() -> Command {
    Command::new(env!("CARGO_BIN_EXE_lintelow-show"))
}

pub fn status(output: &Output) -> i32 {
    output.status.code().expect("the program ended by itself")
}

pub fn printed(output: &Output) -> &str {
    std::str::from_utf8(&output.stdout).unwrap()
}

pub fn as_json() -> Options {
    Options { json: true, ..Options::default() }
}

/// What is told of two streams in memory, and how that ends.
pub fn told(client: &[u8], daemon: &[u8], options: &Options) -> (Status, String) {
    let mut out = Vec::new();
    let style = Style { colour: false, full: options.full };
    let mut no_progress = Progress::new(None::<Vec<u8>>, false, 0);
    let status = tell(client, daemon, options, style, &mut out, &mut no_progress).unwrap();
    (status, String::from_utf8(out).unwrap())
}

/// A range `[start,end]` that follows some text in a JSON line.
pub fn range_after(line: &str, text: &str) -> Option<(usize, usize)> {
    let rest = &line[line.find(text)? + text.len()..];
    let (start, rest) = rest.strip_prefix('[')?.split_once(',')?;
    let (end, _) = rest.split_once(']')?;
    Some((start.parse().ok()?, end.parse().ok()?))
}

/// A number that follows some text in a JSON line.
pub fn number_after(line: &str, text: &str) -> Option<usize> {
    let rest = &line[line.find(text)? + text.len()..];
    rest[..rest.find(|c: char| !c.is_ascii_digit()).unwrap_or(rest.len())].parse().ok()
}

pub const LAST: u64 = 0x616c7473;
pub const ERROR: u64 = 0x63787470;

pub fn numbers(numbers: &[u64]) -> Vec<u8> {
    numbers.iter().flat_map(|number| number.to_le_bytes()).collect()
}

/// What client and daemon say in a handshake at version 1.`minor`, 1.14 or later.
pub fn handshake(minor: u64) -> (Vec<u8>, Vec<u8>) {
    let version = 0x100 | minor;
    let (mut client, mut daemon) = (vec![0x6e697863, version], vec![0x6478696f, version]);
    if minor >= 38 {
        client.push(0);
        daemon.push(0);
    }
    client.extend([0, 0]);
    if minor >= 33 {
        daemon.push(0);
    }
    if minor >= 35 {
        daemon.push(1);
    }
    daemon.push(LAST);
    (numbers(&client), numbers(&daemon))
}

/// What is told of a session of one call.
pub fn told_call(minor: u64, op: u64, arguments: &[u64], answer: &[u64], options: &Options) -> (Status, String) {
    let (mut client, mut daemon) = handshake(minor);
    client.extend(numbers(&[op]));
    client.extend(numbers(arguments));
    daemon.extend(numbers(answer));
    told(&client, &daemon, options)
}
