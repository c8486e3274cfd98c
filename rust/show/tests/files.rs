//! Files: those that can't be read, and those of gigabytes.
mod common;

use common::*;
use std::fs::{self, File};
use std::io::{Seek, SeekFrom, Write};
use std::path::{Path, PathBuf};
use std::process::{Command, Output, Stdio};

fn folder(name: &str) -> PathBuf {
    let folder = Path::new(env!("CARGO_TARGET_TMPDIR")).join(name);
    let _ = fs::remove_dir_all(&folder);
    fs::create_dir_all(&folder).unwrap();
    folder
}

/// Nothing is shown, and one line says why.
fn complains(output: &Output, of: &str) {
    let said = String::from_utf8_lossy(&output.stderr);
    assert_eq!(status(output), 2, "{said}");
    assert!(output.stdout.is_empty());
    assert!(said.starts_with("show: ") && said.contains(of) && said.ends_with('\n') && said.lines().count() == 1, "{said}");
}

#[test]
fn files_that_are_missing_or_no_files() {
    let folder = folder("missing");
    complains(&program().arg(&folder).output().unwrap(), "client.bin");
    fs::write(folder.join("client.bin"), b"").unwrap();
    complains(&program().arg(&folder).output().unwrap(), "daemon.bin");
    fs::create_dir(folder.join("daemon.bin")).unwrap();
    complains(&program().arg(&folder).output().unwrap(), "daemon.bin");
    complains(&program().arg(folder.join("client.bin")).output().unwrap(), "client.bin/client.bin");
    complains(&program().output().unwrap(), "name a folder");
    complains(&program().arg("--nothing").output().unwrap(), "--nothing");
}

#[test]
fn empty_files_are_refused_in_the_handshake() {
    let folder = folder("empty");
    for file in ["client.bin", "daemon.bin"] {
        fs::write(folder.join(file), b"").unwrap();
    }
    let output = program().arg(&folder).output().unwrap();
    assert_eq!((status(&output), output.stderr.len()), (1, 0));
    assert!(printed(&output).contains("refused by 1"), "{}", printed(&output));
}

#[test]
fn a_reader_that_stops_early_is_no_error() {
    let mut shown = program().arg(captures().join("n28-build-0")).stdout(Stdio::piped()).stderr(Stdio::piped()).spawn().unwrap();
    drop(shown.stdout.take());
    let output = shown.wait_with_output().unwrap();
    assert!(output.stderr.is_empty(), "{}", String::from_utf8_lossy(&output.stderr));
}

/// What can't be mapped is read in.
#[test]
fn a_stream_from_a_pipe() {
    let folder = folder("pipe");
    let name = "n28-build-0";
    std::os::unix::fs::symlink("/dev/stdin", folder.join("client.bin")).unwrap();
    fs::copy(captures().join(name).join("daemon.bin"), folder.join("daemon.bin")).unwrap();
    let mut shown = program().arg(&folder).stdin(Stdio::piped()).stdout(Stdio::piped()).spawn().unwrap();
    shown.stdin.take().unwrap().write_all(&streams(name).0).unwrap();
    let expected = program().arg(captures().join(name)).output().unwrap();
    let output = shown.wait_with_output().unwrap();
    // `rt ci` wants no links in the checkout
    fs::remove_dir_all(&folder).unwrap();
    assert_eq!(printed(&output), printed(&expected));
}

const CHUNK: u64 = 268_435_456;

/// Appends framed data of that many chunks of the largest size, of which the disk keeps only the lengths.
fn sparse_payload(file: &mut File, chunks: u64) {
    for _ in 0..chunks {
        file.write_all(&CHUNK.to_le_bytes()).unwrap();
        file.seek(SeekFrom::Current(CHUNK as i64)).unwrap();
    }
    file.write_all(&0u64.to_le_bytes()).unwrap();
}

/// Payloads of 4 GiB on both sides, shown with at most 64 MiB of memory of the program's own.
#[test]
fn payloads_of_gigabytes_are_not_copied() {
    let folder = folder("gigabytes");
    let (client, daemon) = streams("n28-remotebuild-0");
    let mut said = File::create(folder.join("client.bin")).unwrap();
    said.write_all(&client[..32]).unwrap();
    said.write_all(&numbers(&[44, 0, 1])).unwrap();
    sparse_payload(&mut said, 16);
    said.write_all(&numbers(&[38, 0])).unwrap();
    let mut answered = File::create(folder.join("daemon.bin")).unwrap();
    answered.write_all(&daemon[..40]).unwrap();
    answered.write_all(&numbers(&[LAST, LAST])).unwrap();
    sparse_payload(&mut answered, 16);

    let output =
        Command::new("sh").args(["-c", "ulimit -d 65536 && exec \"$0\" \"$1\"", env!("CARGO_BIN_EXE_lintelow-show")]).arg(&folder).output().unwrap();
    fs::remove_dir_all(&folder).unwrap();
    assert_eq!(status(&output), 0, "{}", String::from_utf8_lossy(&output.stderr));
    let shown = printed(&output);
    assert_eq!(shown.matches("payload 4294967296 bytes: 00 00").count(), 2, "{shown}");
    assert!(shown.contains("end  2 calls; client 4294967504 bytes, daemon 4294967488 bytes"), "{shown}");
    assert!(!shown.contains("left over"), "{shown}");
}
