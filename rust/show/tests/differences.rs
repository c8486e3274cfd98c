//! The tables of docs/DIFFERENCES.md, "Where daemons send something else": each call, over the bytes that stand there, answers what stands there in each
//! mode, and what is read as a whole is written to these bytes.
use lintelow::*;
use std::fmt::Debug;
use std::fs;
use std::path::Path;

/// The bytes that a cell writes as numbers, text in quotes and hexadecimal.
fn bytes(cell: &str) -> Vec<u8> {
    let mut bytes = Vec::new();
    for word in cell.split(' ') {
        if let Some(text) = word.strip_prefix('"').and_then(|rest| rest.strip_suffix('"')) {
            bytes.extend(text.bytes());
        } else if let Some(hex) = word.strip_prefix('x') {
            bytes.extend((0..hex.len()).step_by(2).map(|at| u8::from_str_radix(&hex[at..at + 2], 16).unwrap()));
        } else {
            bytes.extend(word.parse::<u64>().unwrap().to_le_bytes());
        }
    }
    bytes
}

const MODES: [Mode; 2] = [Mode::Ported, Mode::Published];

/// A call as the tables write it: its name, its operation but for errors, and its version.
struct Call<'c> {
    name: &'c str,
    op: u64,
    version: Version,
}

impl Call<'_> {
    fn of(cell: &str) -> Call<'_> {
        let words: Vec<&str> = cell.split(' ').collect();
        let (name, op, version) = match words[..] {
            [name, op, version] => (name, op.parse().unwrap(), version),
            [name, version] => (name, 0, version),
            _ => panic!("a table has a call {cell}"),
        };
        let (major, minor) = version.split_once('.').unwrap();
        Call { name, op, version: Version::new(major.parse().unwrap(), minor.parse().unwrap()) }
    }

    /// What it answers over a stream, as the tables write it.
    fn answer(&self, mode: Mode, stream: &[u8]) -> String {
        let Call { name, op, version } = *self;
        match name {
            "read_op_args" => match read_op_args(mode, op, version, stream) {
                Ok((Some(call), end)) => told(Ok((call, end)), stream),
                other => told(other, stream),
            },
            "skip_op_args" => told(skip_op_args(mode, op, version, stream), stream),
            "read_daemon_result" => told(read_daemon_result(op, version, stream), stream),
            "read_stderr_with_error" => {
                told(read_stderr_with_error(mode, version, stream).map(|(_, info, end)| (info.expect("an error"), end)), stream)
            }
            other => panic!("a table has a call {other}"),
        }
    }
}

fn told(answer: Result<(impl Debug, usize), Refusal>, stream: &[u8]) -> String {
    match answer {
        Ok((said, end)) => format!("{said:?}, end {end} of {}", stream.len()),
        Err(refusal) => format!("refused by {} at {} of {}", refusal.number, refusal.place, stream.len()),
    }
}

/// The rows under a heading, each by its cells: one of code without its backticks.
fn rows(heading: &str) -> Vec<Vec<String>> {
    let document = fs::read_to_string(Path::new(env!("CARGO_MANIFEST_DIR")).join("../../docs/DIFFERENCES.md")).unwrap();
    let (_, section) = document.split_once(heading).unwrap();
    let (section, _) = section.split_once("\n### ").unwrap_or((section, ""));
    let rows = section.lines().filter(|line| line.starts_with("| ") && line.contains('`'));
    rows.map(|row| row.split('|').map(|cell| cell.trim().trim_matches('`').to_owned()).collect()).collect()
}

#[test]
fn what_published_mode_reads() {
    let rows = rows("### What published mode reads\n");
    for row in &rows {
        let (call, stream) = (Call::of(&row[5]), bytes(&row[6]));
        assert_eq!(MODES.map(|mode| call.answer(mode, &stream)), row[7..9], "{row:?}");
    }
    assert_eq!(rows.len(), 11, "rows of the table");
}

#[test]
fn what_both_modes_read_as_the_rust_does() {
    let rows = rows("### What both modes read as the Rust does\n");
    for row in &rows {
        let (call, stream) = (Call::of(&row[5]), bytes(&row[6]));
        for mode in MODES {
            assert_eq!(call.answer(mode, &stream), row[7], "{mode:?}: {row:?}");
        }
    }
    assert_eq!(rows.len(), 13, "rows of the table");
}

/// Each mode writes what it reads, and refuses the call of the other.
#[test]
fn what_each_mode_writes() {
    for row in rows("### What published mode reads\n").iter().filter(|row| row[5].starts_with("read_op_args")) {
        let (Call { op, version, .. }, stream) = (Call::of(&row[5]), bytes(&row[6]));
        let [ported, published] = MODES.map(|mode| read_op_args(mode, op, version, &stream).unwrap());
        for (mode, (call, end)) in MODES.into_iter().zip([&ported, &published]) {
            assert_eq!(write_op_args(mode, call.as_ref().unwrap(), version).as_deref(), Ok(&stream[..*end]), "{row:?}");
        }
        if ported != published {
            let number = |mode, call: Option<OpCall>| write_op_args(mode, &call.unwrap(), version).unwrap_err().number;
            assert_eq!((number(Mode::Ported, published.0), number(Mode::Published, ported.0)), (14, 14), "{row:?}");
        }
    }
}
