//! Our side at the C boundary: the functions of include/lintelow.h, with a block and rooms lent to them, and nothing else.
use super::{Call, Caller, Calls, Room, What};
use lintelow::{Mode, Version};

/// Readers by operation and version, and of arguments by mode.
macro_rules! of_an_operation {
    ($($function:ident($($mode:ident)?);)*) => {
        extern "C" {
            $(fn $function(
                $($mode: u8,)?
                op: u64,
                major: u16,
                minor: u8,
                s: *const u8,
                s_len: usize,
                entries: *mut u8,
                entries_len: usize,
                payload: *mut u8,
                payload_len: usize,
                block: *mut u8,
                block_len: usize,
            ) -> u64;)*
        }
    };
}

of_an_operation! {
    lintelow_read_op_args(mode);
    lintelow_read_daemon_result();
}

extern "C" {
    fn lintelow_skip_op_args(mode: u8, op: u64, major: u16, minor: u8, s: *const u8, s_len: usize, block: *mut u8, block_len: usize) -> u64;
    fn lintelow_read_stderr_with_error(
        mode: u8,
        major: u16,
        minor: u8,
        s: *const u8,
        s_len: usize,
        entries: *mut u8,
        entries_len: usize,
        block: *mut u8,
        block_len: usize,
    ) -> u64;
    fn lintelow_read_stderr_loop(s: *const u8, s_len: usize, block: *mut u8, block_len: usize) -> u64;
    fn lintelow_skip_daemon_result(op: u64, major: u16, minor: u8, s: *const u8, s_len: usize, block: *mut u8, block_len: usize) -> u64;
    fn lintelow_parse_handshake(
        client: *const u8,
        client_len: usize,
        daemon: *const u8,
        daemon_len: usize,
        entries: *mut u8,
        entries_len: usize,
        block: *mut u8,
        block_len: usize,
    ) -> u64;
    fn lintelow_parse_daemon_handshake(
        major: u16,
        minor: u8,
        daemon: *const u8,
        daemon_len: usize,
        entries: *mut u8,
        entries_len: usize,
        block: *mut u8,
        block_len: usize,
    ) -> u64;
}

/// That of the Rust, which it is measured against.
pub const MODE: u8 = Mode::Ported as u8;
pub const BLOCK: usize = 200;
/// Where the block has the end, and that of the daemon's stream of a handshake.
pub const END: usize = 8 * 4;
const END2: usize = 8 * 5;

/// The number that stands at a place of a block.
pub fn number(block: &[u8; BLOCK], place: usize) -> usize {
    u64::from_le_bytes(*block[place..].first_chunk().expect("eight bytes")) as usize
}

pub struct Boundary<'s> {
    what: What,
    calls: &'s [Call<'s>],
    room: Room,
    block: [u8; BLOCK],
}

impl<'s> Boundary<'s> {
    pub fn new(calls: &'s Calls) -> Boundary<'s> {
        Boundary { what: calls.what, calls: &calls.calls, room: Room::enough(&calls.calls), block: [0; BLOCK] }
    }

    /// What the function returns: 0, or the number of a refusal.
    fn call(&mut self, call: &Call) -> u64 {
        let Call { op, version: Version { major, minor }, bytes, client } = *call;
        let (s, length, block) = (bytes.as_ptr(), bytes.len(), self.block.as_mut_ptr());
        let (entries, slots) = (self.room.entries.as_mut_ptr(), self.room.entries.len());
        let (payload, room) = (self.room.payload.as_mut_ptr(), self.room.payload.len());
        // SAFETY: the declarations are those of the header; each pointer goes with the length of its own slice, and what is lent overlaps nothing.
        unsafe {
            match self.what {
                What::ReadArguments => lintelow_read_op_args(MODE, op, major, minor, s, length, entries, slots, payload, room, block, BLOCK),
                What::SkipArguments => lintelow_skip_op_args(MODE, op, major, minor, s, length, block, BLOCK),
                What::StderrWithError => lintelow_read_stderr_with_error(MODE, major, minor, s, length, entries, slots, block, BLOCK),
                What::StderrLoop => lintelow_read_stderr_loop(s, length, block, BLOCK),
                What::ReadReply => lintelow_read_daemon_result(op, major, minor, s, length, entries, slots, payload, room, block, BLOCK),
                What::SkipReply => lintelow_skip_daemon_result(op, major, minor, s, length, block, BLOCK),
                What::Handshake => lintelow_parse_handshake(client.as_ptr(), client.len(), s, length, entries, slots, block, BLOCK),
                What::DaemonHandshake => lintelow_parse_daemon_handshake(major, minor, s, length, entries, slots, block, BLOCK),
            }
        }
    }
}

impl Caller for Boundary<'_> {
    fn make(&mut self, ends: &mut [usize]) {
        for (call, end) in self.calls.iter().zip(ends) {
            assert!(self.call(call) == 0, "a call that is read");
            *end = number(&self.block, END);
            if matches!(self.what, What::Handshake | What::DaemonHandshake) {
                *end += number(&self.block, END2);
            }
        }
    }
}
