//! The calls of the recorded sessions, written back from what was read: their own bytes, where these are in the writer's form.
mod bytes;

use bytes::framed;
use lintelow::*;
use std::fs;
use std::ops::Range;
use std::path::Path;

/// A call of a recording, where its index says that it stands.
struct Recorded {
    op: u64,
    version: Version,
    arguments: Vec<u8>,
    /// Where framed data begins, or the arguments end.
    fixed_end: usize,
}

/// The calls of a recording; none where it is of another protocol.
fn calls(folder: &Path) -> Vec<Recorded> {
    let (client, daemon) = (fs::read(folder.join("client.bin")).unwrap(), fs::read(folder.join("daemon.bin")).unwrap());
    let Ok((info, ..)) = parse_handshake(&client, &daemon) else { return Vec::new() };
    let index = fs::read_to_string(folder.join("index.tsv")).unwrap();
    let lines = index.lines().filter(|line| !line.starts_with('#')).map(|line| {
        let cells: Vec<&str> = line.split('\t').collect();
        let number = |cell: usize| cells[cell].parse::<usize>().unwrap();
        let (start, end) = (number(2), number(3));
        Recorded { op: number(0) as u64, version: info.negotiated_version, arguments: client[start..end].to_vec(), fixed_end: number(9) - start }
    });
    lines.collect()
}

impl Recorded {
    /// The flags or obsolete numbers that the fixed arguments end with, and the greatest number that the writer has there.
    fn last_numbers(&self) -> (Range<usize>, u64) {
        let (count, most) = match self.op {
            7 => (1, 1),
            31 if self.version >= Version::new(1, 27) => (1, 1),
            35 | 44 => (2, 1),
            20 => (3, 0),
            _ => (0, 0),
        };
        (self.fixed_end - 8 * count..self.fixed_end, most)
    }

    fn has_framed_data(&self) -> bool {
        [7, 44, 45].contains(&self.op)
    }
}

fn padding(entry: Entry) -> Range<usize> {
    entry.start + entry.length..entry.start + entry.length.next_multiple_of(8)
}

fn in_chunks(payload: &[u8], size: usize) -> Vec<u8> {
    framed(&payload.chunks(size).collect::<Vec<_>>())
}

/// Zero padding, flags of 0 or 1, obsolete numbers of 0, and chunks of 32768 bytes.
fn in_the_writers_form(call: &Recorded, answer: &Answer) -> bool {
    let (fixed, chunks) = call.arguments.split_at(call.fixed_end);
    let (numbers, most) = call.last_numbers();
    answer.entries.iter().all(|entry| fixed[padding(entry)].iter().all(|&byte| byte == 0))
        && fixed[numbers].chunks(8).all(|number| u64::from_le_bytes(number.try_into().unwrap()) <= most)
        && (!call.has_framed_data() || chunks == in_chunks(answer.payload, 32768))
}

/// The same call with other padding, other numbers for true, obsolete numbers that are not 0, and short chunks.
fn in_another_form(call: &Recorded) -> Recorded {
    let arguments = with_room(call.arguments.len(), |entries, payload| {
        let answer = raw::read_op_args(Mode::Published, call.op, call.version, &call.arguments, entries, payload)?;
        let (mut arguments, chunks) = (call.arguments[..call.fixed_end].to_vec(), &call.arguments[call.fixed_end..]);
        answer.entries.iter().for_each(|entry| arguments[padding(entry)].fill(0xff));
        let (numbers, most) = call.last_numbers();
        for number in arguments[numbers].chunks_mut(8).filter(|number| most == 0 || number[0] != 0) {
            number.fill(0xff);
        }
        arguments.extend(if call.has_framed_data() { in_chunks(answer.payload, 100) } else { chunks.to_vec() });
        Ok(arguments)
    });
    Recorded { arguments: arguments.unwrap(), ..*call }
}

#[derive(Debug, Clone, Copy, PartialEq, Eq)]
enum Written {
    /// Its own bytes.
    Same,
    /// Other bytes, which say the same.
    OtherForm,
    /// Its arguments are not read.
    NotRead,
}

fn write_back(mode: Mode, call: &Recorded) -> Written {
    let Recorded { op, version, arguments, .. } = call;
    let written = with_room(arguments.len(), |entries, payload| {
        let answer = raw::read_op_args(mode, *op, *version, arguments, entries, payload)?;
        let mut out = vec![0; 2 * arguments.len() + 64];
        let written = raw::write_op_args(mode, *op, *version, &answer.record(), arguments, answer.entries.as_bytes(), answer.payload, &mut out);
        if answer.kind == 0 {
            assert_eq!(written, Err(Refusal { number: 13, place: 0, stream: 0 }));
            return Ok(Written::NotRead);
        }
        assert_eq!(answer.end, arguments.len(), "operation {op}");
        let written = written?.payload;
        let (read, _) = read_op_args(mode, *op, *version, arguments)?;
        assert!(write_op_args(mode, read.as_ref().unwrap(), *version).as_deref() == Ok(written), "operation {op}, by its owned call");
        if in_the_writers_form(call, &answer) {
            assert!(written == arguments, "operation {op}");
            return Ok(Written::Same);
        }
        assert!(written != arguments, "operation {op}");
        assert!(read_op_args(mode, *op, *version, written) == Ok((read, written.len())), "operation {op}");
        Ok(Written::OtherForm)
    });
    written.unwrap_or_else(|refusal| panic!("operation {op}: {refusal}"))
}

/// The calls of captures/ but for the one of another protocol, and for four of operations that nix-wire does not have.
fn all_calls() -> Vec<Recorded> {
    let captures = Path::new(env!("CARGO_MANIFEST_DIR")).join("../../captures");
    let folders = fs::read_dir(captures).unwrap().map(|entry| entry.unwrap().path()).filter(|path| path.is_dir());
    let is_known = |call: &Recorded| wire::op_has_client_framed_data(call.op).is_ok();
    let (calls, others): (Vec<Recorded>, Vec<Recorded>) = folders.flat_map(|folder| calls(&folder)).partition(is_known);
    assert_eq!(others.iter().map(|call| call.op).collect::<Vec<_>>(), [3, 4, 5, 16]);
    calls
}

fn counted(mode: Mode, calls: impl Iterator<Item = Recorded>) -> [usize; 3] {
    let written: Vec<Written> = calls.map(|call| write_back(mode, &call)).collect();
    [Written::Same, Written::OtherForm, Written::NotRead].map(|what| written.iter().filter(|&&written| written == what).count())
}

#[test]
fn every_call_that_reads_is_written_back() {
    assert_eq!(counted(Mode::Published, all_calls().into_iter()), [124, 0, 1]);
}

/// nix-wire reads a beginning of four calls, as another kind.
#[test]
fn in_ported_mode_four_are_not() {
    let whole = |call: &Recorded| match read_op_args(Mode::Ported, call.op, call.version, &call.arguments).unwrap() {
        (Some(_), end) => end == call.arguments.len(),
        (None, _) => true,
    };
    let (whole, mut others): (Vec<Recorded>, Vec<Recorded>) = all_calls().into_iter().partition(whole);
    others.sort_by_key(|call| (call.op, call.version));
    let expected = [(30, 25), (30, 38), (30, 38), (42, 29)].map(|(op, minor)| (op, Version::new(1, minor)));
    assert_eq!(others.iter().map(|call| (call.op, call.version)).collect::<Vec<_>>(), expected);
    assert_eq!(counted(Mode::Ported, whole.into_iter()), [120, 0, 1]);
}

/// 32 have no such thing: no padding, no flag that is true, no payload.
#[test]
fn another_form_is_written_in_ours() {
    assert_eq!(counted(Mode::Published, all_calls().iter().map(in_another_form)), [32, 92, 1]);
}
