//! Calls written from what was read of them, beside the time of reading them: both at the C boundary, by the functions of include/lintelow.h.
use super::boundary::{number, Boundary, BLOCK, END, MODE};
use super::recorded::{self, Recording};
use super::short::{self, Stream};
use super::{allocated, Call, Caller, Calls, Pass, Room, What};
use crate::measure::{self, Effort};
use crate::rows::{Figures, Row};
use lintelow::raw::{self, RECORD};
use lintelow::{Mode, Version};

extern "C" {
    fn lintelow_write_op_args(
        mode: u8,
        op: u64,
        major: u16,
        minor: u8,
        record: *const u8,
        record_len: usize,
        bytes: *const u8,
        bytes_len: usize,
        entries: *const u8,
        entries_len: usize,
        payload: *const u8,
        payload_len: usize,
        out: *mut u8,
        out_len: usize,
        block: *mut u8,
        block_len: usize,
    ) -> u64;
}

/// A call, and what is read of it.
struct Found<'s> {
    call: Call<'s>,
    record: [u8; RECORD],
    entries: Vec<u8>,
    strings: Vec<&'s [u8]>,
    payload: Vec<u8>,
}

impl<'s> Found<'s> {
    fn of(call: &Call<'s>) -> Found<'s> {
        let mut room = Room::enough(&[*call]);
        let answer =
            raw::read_op_args(Mode::Ported, call.op, call.version, call.bytes, &mut room.entries, &mut room.payload).expect("a call that is read");
        Found {
            call: *call,
            record: answer.record(),
            entries: answer.entries.as_bytes().to_vec(),
            strings: answer.entries.iter().map(|entry| entry.bytes(call.bytes)).collect(),
            payload: answer.payload.to_vec(),
        }
    }
}

struct Writer<'s> {
    found: Vec<Found<'s>>,
    out: Vec<u8>,
    block: [u8; BLOCK],
}

impl<'s> Writer<'s> {
    fn new(calls: &Calls<'s>) -> Writer<'s> {
        let found: Vec<Found> = calls.calls.iter().map(Found::of).collect();
        // One chunk that was read may become several of 32768 bytes, with eight for the length of each.
        let longest = calls.calls.iter().map(|call| call.bytes.len()).max().unwrap_or_default();
        let mut writer = Writer { found, out: vec![0; longest + longest / 4096 + 64], block: [0; BLOCK] };
        (0..writer.found.len()).for_each(|index| writer.reads_back(index));
        writer
    }

    /// What is written is read as what was read before.
    fn reads_back(&mut self, index: usize) {
        let end = self.write(index);
        let found = &self.found[index];
        let call = Call { bytes: &self.out[..end], ..found.call };
        let again = Found::of(&call);
        assert!(found.record == again.record && found.strings == again.strings && found.payload == again.payload, "what is written reads back");
    }

    /// How many bytes a call has.
    fn write(&mut self, index: usize) -> usize {
        let Found { call: Call { op, version: Version { major, minor }, bytes, .. }, record, entries, payload, .. } = &self.found[index];
        // SAFETY: the declaration is that of the header; each pointer goes with the length of its own slice, and what is lent overlaps nothing.
        let refusal = unsafe {
            lintelow_write_op_args(
                MODE,
                *op,
                *major,
                *minor,
                record.as_ptr(),
                record.len(),
                bytes.as_ptr(),
                bytes.len(),
                entries.as_ptr(),
                entries.len(),
                payload.as_ptr(),
                payload.len(),
                self.out.as_mut_ptr(),
                self.out.len(),
                self.block.as_mut_ptr(),
                BLOCK,
            )
        };
        assert!(refusal == 0, "a call that is written");
        number(&self.block, END)
    }
}

impl Caller for Writer<'_> {
    fn make(&mut self, ends: &mut [usize]) {
        for (index, end) in ends.iter_mut().enumerate() {
            *end = self.write(index);
        }
    }
}

/// What comes of measuring reading and writing on the same calls.
fn figures(calls: &Calls, effort: Effort) -> Figures {
    let mut read = Pass::new(calls, Box::new(Boundary::new(calls)));
    let mut written = Pass::new(calls, Box::new(Writer::new(calls)));
    let allocations = allocated(&mut read).number + allocated(&mut written).number;
    let number = calls.calls.len() as f64;
    let bytes: usize = written.ends.iter().sum();
    let times = measure::measure(&mut [&mut read, &mut written], effort);
    let (each, ratio) = (|side| times.median(side) / number, times.ratio(0, 1));
    vec![
        ("calls", number),
        ("left_out", calls.left_out as f64),
        ("bytes", bytes as f64 / number),
        ("read", each(0)),
        ("written", each(1)),
        ("ratio", ratio.median),
        ("low", ratio.low),
        ("high", ratio.high),
        ("allocations", allocations as f64),
    ]
}

pub fn rows(recordings: &[Recording]) -> Vec<Row<'_>> {
    let of_recordings = move |effort| figures(&recorded::calls(recordings, What::ReadArguments), effort);
    let alike = short::arguments()
        .into_iter()
        .map(|(name, op, part)| Row::new("written", name, move |effort| figures(&Stream::alike(op, &part).asked(What::ReadArguments), effort)));
    [Row::new("written", "of recorded sessions, as they came", of_recordings)].into_iter().chain(alike).collect()
}
