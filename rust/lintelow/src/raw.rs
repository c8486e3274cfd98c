//! The library's calls as they are: room is lent, nothing is allocated, and answers are numbers and entries.
//!
//! Lent room for entries is bytes, [`ENTRY`] for each slot. A refusal leaves it as it was, and a success writes only what the answer reports.
//!
//! This is the one module with `unsafe`. Each call is sound for the same reasons:
//! - A slice's pointer goes with its own length, so what the library reads and writes through it is that slice. An empty slice's pointer may dangle; the
//!   library takes any pointer with length 0.
//! - The library reads what is shared and writes only what is lent by `&mut`; by Rust's borrowing no lent slice overlaps another one.
//! - It is proved to end without a fault for every content, length and number, and keeps no pointer.
//! - It writes all 200 bytes of a block that has as many, whatever it answers, so that nobody has to clear one before.
//! - The declarations are those of `include/lintelow.h`.
use crate::answer::{Answer, Refusal};
use crate::types::{Mode, Version};
use block::Block;

mod block;
mod wire;

pub use crate::answer::{ENTRY, RECORD};
pub use wire::*;

extern "C" {
    fn lintelow_write_op_args(
        mode: u8,
        op: u64,
        major: u16,
        minor: u8,
        record: *const u8,
        record_len: usize,
        bytes: *const u8,
        bytes_len: usize,
        entries: *const u8,
        entries_len: usize,
        payload: *const u8,
        payload_len: usize,
        out: *mut u8,
        out_len: usize,
        block: *mut u8,
        block_len: usize,
    ) -> u64;
    fn lintelow_read_stderr_loop(s: *const u8, s_len: usize, block: *mut u8, block_len: usize) -> u64;
    fn lintelow_read_stderr_with_error(
        mode: u8,
        major: u16,
        minor: u8,
        s: *const u8,
        s_len: usize,
        entries: *mut u8,
        entries_len: usize,
        block: *mut u8,
        block_len: usize,
    ) -> u64;
    fn lintelow_parse_handshake(
        client: *const u8,
        client_len: usize,
        daemon: *const u8,
        daemon_len: usize,
        entries: *mut u8,
        entries_len: usize,
        block: *mut u8,
        block_len: usize,
    ) -> u64;
    fn lintelow_parse_daemon_handshake(
        major: u16,
        minor: u8,
        daemon: *const u8,
        daemon_len: usize,
        entries: *mut u8,
        entries_len: usize,
        block: *mut u8,
        block_len: usize,
    ) -> u64;
}

/// Readers by operation and version, and of arguments by mode.
macro_rules! of_an_operation {
    ($($(#[$doc:meta])* $name:ident($($mode:ident)?) = $function:ident;)*) => {
        extern "C" {
            $(fn $function(
                $($mode: u8,)?
                op: u64,
                major: u16,
                minor: u8,
                s: *const u8,
                s_len: usize,
                entries: *mut u8,
                entries_len: usize,
                payload: *mut u8,
                payload_len: usize,
                block: *mut u8,
                block_len: usize,
            ) -> u64;)*
        }
        $($(#[$doc])*
        #[inline]
        pub fn $name<'r>(
            $($mode: Mode,)?
            op: u64,
            version: Version,
            s: &[u8],
            entries: &'r mut [u8],
            payload: &'r mut [u8],
        ) -> Result<Answer<'r>, Refusal> {
            let Version { major, minor } = version;
            // SAFETY: as said above.
            let block = unsafe {
                Block::of(|block, length| {
                    let (room, bytes) = (entries.as_mut_ptr(), payload.as_mut_ptr());
                    $function($($mode as u8,)? op, major, minor, s.as_ptr(), s.len(), room, entries.len(), bytes, payload.len(), block, length)
                })
            };
            block.answer(entries, payload)
        })*
    };
}

of_an_operation! {
    /// The arguments of an operation, from the client's stream.
    read_op_args(mode) = lintelow_read_op_args;
    /// The reply to an operation, from the daemon's stream.
    read_daemon_result() = lintelow_read_daemon_result;
}

/// Skippers by operation and version, and of arguments by mode.
macro_rules! past_an_operation {
    ($($(#[$doc:meta])* $name:ident($($mode:ident)?) = $function:ident;)*) => {
        extern "C" {
            $(fn $function($($mode: u8,)? op: u64, major: u16, minor: u8, s: *const u8, s_len: usize, block: *mut u8, block_len: usize) -> u64;)*
        }
        $($(#[$doc])*
        #[inline]
        pub fn $name($($mode: Mode,)? op: u64, version: Version, s: &[u8]) -> Result<Answer<'static>, Refusal> {
            let Version { major, minor } = version;
            // SAFETY: as said above.
            let block = unsafe { Block::of(|block, length| $function($($mode as u8,)? op, major, minor, s.as_ptr(), s.len(), block, length)) };
            block.answer(&[], &[])
        })*
    };
}

past_an_operation! {
    /// The arguments of an operation, skipped, up to framed data. Of kind 2 the string is the answer's own entry.
    skip_op_args(mode) = lintelow_skip_op_args;
    /// The reply to an operation, skipped.
    skip_daemon_result() = lintelow_skip_daemon_result;
}

/// The arguments of an operation, written from what [`read_op_args`] answers in that mode: the record ([`Answer::record`]), the strings that entries have
/// in `bytes`, and the payload. What a shorter record lacks is 0, and what lies beyond [`RECORD`] bytes is not looked at. `end` is how many bytes; the
/// payload is what was written. Refused by 9, 13, 14, 11, then for each entry 12 and 3, then 10; include/lintelow.h has their places.
#[allow(clippy::too_many_arguments)] // those of the exported function
#[inline]
pub fn write_op_args<'r>(
    mode: Mode,
    op: u64,
    version: Version,
    record: &[u8],
    bytes: &[u8],
    entries: &[u8],
    payload: &[u8],
    out: &'r mut [u8],
) -> Result<Answer<'r>, Refusal> {
    let Version { major, minor } = version;
    // SAFETY: as said above.
    let block = unsafe {
        Block::of(|block, length| {
            lintelow_write_op_args(
                mode as u8,
                op,
                major,
                minor,
                record.as_ptr(),
                record.len(),
                bytes.as_ptr(),
                bytes.len(),
                entries.as_ptr(),
                entries.len(),
                payload.as_ptr(),
                payload.len(),
                out.as_mut_ptr(),
                out.len(),
                block,
                length,
            )
        })
    };
    block.answer(&[], out)
}

/// The daemon's messages up to Last, Error or what is no message.
#[inline]
pub fn read_stderr_loop(s: &[u8]) -> Result<Answer<'static>, Refusal> {
    // SAFETY: as said above.
    let block = unsafe { Block::of(|block, length| lintelow_read_stderr_loop(s.as_ptr(), s.len(), block, length)) };
    block.answer(&[], &[])
}

/// The same, and behind Error its block.
#[inline]
pub fn read_stderr_with_error<'r>(mode: Mode, version: Version, s: &[u8], entries: &'r mut [u8]) -> Result<Answer<'r>, Refusal> {
    let Version { major, minor } = version;
    // SAFETY: as said above.
    let block = unsafe {
        Block::of(|block, length| {
            lintelow_read_stderr_with_error(mode as u8, major, minor, s.as_ptr(), s.len(), entries.as_mut_ptr(), entries.len(), block, length)
        })
    };
    block.answer(entries, &[])
}

/// Both sides of a handshake. Entries: the client's features, of its stream; the daemon's features and its version, of the daemon's.
#[inline]
pub fn parse_handshake<'r>(client: &[u8], daemon: &[u8], entries: &'r mut [u8]) -> Result<Answer<'r>, Refusal> {
    // SAFETY: as said above.
    let block = unsafe {
        Block::of(|block, length| {
            lintelow_parse_handshake(client.as_ptr(), client.len(), daemon.as_ptr(), daemon.len(), entries.as_mut_ptr(), entries.len(), block, length)
        })
    };
    block.answer(entries, &[])
}

/// The daemon's side of a handshake alone, with the version that the client has said.
#[inline]
pub fn parse_daemon_handshake<'r>(client: Version, daemon: &[u8], entries: &'r mut [u8]) -> Result<Answer<'r>, Refusal> {
    let Version { major, minor } = client;
    // SAFETY: as said above.
    let block = unsafe {
        Block::of(|block, length| {
            lintelow_parse_daemon_handshake(major, minor, daemon.as_ptr(), daemon.len(), entries.as_mut_ptr(), entries.len(), block, length)
        })
    };
    block.answer(entries, &[])
}
