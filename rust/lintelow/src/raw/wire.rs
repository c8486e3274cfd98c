//! The calls for numbers, strings, sets and framed data, entries and store paths. Calls of one shape are written once.
use super::block::Block;
use crate::answer::{Answer, Refusal};

/// Calls that look at a stream from a place on.
macro_rules! at_a_place {
    ($($(#[$doc:meta])* $name:ident = $function:ident;)*) => {
        extern "C" {
            $(fn $function(s: *const u8, s_len: usize, at: usize, block: *mut u8, block_len: usize) -> u64;)*
        }
        $($(#[$doc])*
        #[inline]
        pub fn $name(s: &[u8], at: usize) -> Result<Answer<'static>, Refusal> {
            // SAFETY: as raw.rs says.
            let block = unsafe { Block::of(|block, length| $function(s.as_ptr(), s.len(), at, block, length)) };
            block.answer(&[], &[])
        })*
    };
}

at_a_place! {
    /// Eight bytes as a number: number 0.
    read_u64 = lintelow_read_u64;
    /// Four bytes as a number: number 0.
    read_u32 = lintelow_read_u32;
    /// Kind 1 with number 0 where eight bytes are left, else kind 0. Nothing is consumed.
    peek_u64 = lintelow_peek_u64;
    /// A string without a look at its contents: the answer's own entry.
    read_bytes = lintelow_read_bytes;
    /// A string: the answer's own entry.
    read_string = lintelow_read_string;
    skip_string = lintelow_skip_string;
    /// The count is number 0.
    skip_string_set = lintelow_skip_string_set;
    /// The payload's length is number 0.
    skip_framed = lintelow_skip_framed;
}

/// Calls that write a number, or a text with a number, into lent room. `end` is how many bytes; the payload is what was written.
macro_rules! of_a_number {
    ($($(#[$doc:meta])* $name:ident = $function:ident($number:ty);)*) => {
        extern "C" {
            $(fn $function(out: *mut u8, out_len: usize, x: $number, block: *mut u8, block_len: usize) -> u64;)*
        }
        $($(#[$doc])*
        #[inline]
        pub fn $name(out: &mut [u8], x: $number) -> Result<Answer<'_>, Refusal> {
            // SAFETY: as raw.rs says.
            let block = unsafe { Block::of(|block, length| $function(out.as_mut_ptr(), out.len(), x, block, length)) };
            block.answer(&[], out)
        })*
    };
}

of_a_number! {
    write_u64 = lintelow_write_u64(u64);
    write_u32 = lintelow_write_u32(u32);
    /// The text of a build's mode.
    write_mode = lintelow_write_mode(u64);
    /// "N paths".
    write_paths = lintelow_write_paths(u64);
    /// "N overrides".
    write_overrides = lintelow_write_overrides(u64);
}

/// Calls that write bytes into lent room, with what goes around them.
macro_rules! of_bytes {
    ($($(#[$doc:meta])* $name:ident = $function:ident;)*) => {
        extern "C" {
            $(fn $function(out: *mut u8, out_len: usize, c: *const u8, c_len: usize, block: *mut u8, block_len: usize) -> u64;)*
        }
        $($(#[$doc])*
        #[inline]
        pub fn $name<'r>(out: &'r mut [u8], c: &[u8]) -> Result<Answer<'r>, Refusal> {
            // SAFETY: as raw.rs says.
            let block = unsafe { Block::of(|block, length| $function(out.as_mut_ptr(), out.len(), c.as_ptr(), c.len(), block, length)) };
            block.answer(&[], out)
        })*
    };
}

of_bytes! {
    /// A string, whatever its contents.
    write_bytes = lintelow_write_bytes;
    /// A string; refused by 3 where the contents are no text.
    write_string = lintelow_write_string;
    write_framed = lintelow_write_framed;
}

extern "C" {
    fn lintelow_read_string_set(s: *const u8, s_len: usize, at: usize, entries: *mut u8, entries_len: usize, block: *mut u8, block_len: usize)
        -> u64;
    fn lintelow_read_framed(s: *const u8, s_len: usize, at: usize, payload: *mut u8, payload_len: usize, block: *mut u8, block_len: usize) -> u64;
    fn lintelow_write_string_set(
        out: *mut u8,
        out_len: usize,
        bytes: *const u8,
        bytes_len: usize,
        entries: *const u8,
        entries_len: usize,
        count: usize,
        block: *mut u8,
        block_len: usize,
    ) -> u64;
    fn lintelow_extract_store_path(c: *const u8, c_len: usize, block: *mut u8, block_len: usize) -> u64;
    fn lintelow_entry(
        bytes: *const u8,
        bytes_len: usize,
        entries: *const u8,
        entries_len: usize,
        index: usize,
        block: *mut u8,
        block_len: usize,
    ) -> u64;
    fn lintelow_op_has_client_framed_data(op: u64, block: *mut u8, block_len: usize) -> u64;
    fn lintelow_version_from_wire(wire: u64, block: *mut u8, block_len: usize) -> u64;
}

/// A set of strings from a place on; count 0 is how many.
#[inline]
pub fn read_string_set<'r>(s: &[u8], at: usize, entries: &'r mut [u8]) -> Result<Answer<'r>, Refusal> {
    // SAFETY: as raw.rs says.
    let block =
        unsafe { Block::of(|block, length| lintelow_read_string_set(s.as_ptr(), s.len(), at, entries.as_mut_ptr(), entries.len(), block, length)) };
    block.answer(entries, &[])
}

/// Framed data from a place on.
#[inline]
pub fn read_framed<'r>(s: &[u8], at: usize, payload: &'r mut [u8]) -> Result<Answer<'r>, Refusal> {
    // SAFETY: as raw.rs says.
    let block =
        unsafe { Block::of(|block, length| lintelow_read_framed(s.as_ptr(), s.len(), at, payload.as_mut_ptr(), payload.len(), block, length)) };
    block.answer(&[], payload)
}

/// A set of the first `count` entries' strings, which are parts of `bytes`. Refused by 11 where there are fewer entries, by 12 where one of them passes
/// the end of the bytes, by 3 where one is no text.
#[inline]
pub fn write_string_set<'r>(out: &'r mut [u8], bytes: &[u8], entries: &[u8], count: usize) -> Result<Answer<'r>, Refusal> {
    // SAFETY: as raw.rs says.
    let block = unsafe {
        Block::of(|block, length| {
            let (room, given) = (out.as_mut_ptr(), out.len());
            lintelow_write_string_set(room, given, bytes.as_ptr(), bytes.len(), entries.as_ptr(), entries.len(), count, block, length)
        })
    };
    block.answer(&[], out)
}

/// Kind 1 where the bytes are a store path, else 0.
#[inline]
pub fn extract_store_path(c: &[u8]) -> Result<Answer<'static>, Refusal> {
    // SAFETY: as raw.rs says.
    let block = unsafe { Block::of(|block, length| lintelow_extract_store_path(c.as_ptr(), c.len(), block, length)) };
    block.answer(&[], &[])
}

/// The entry at an index, as the answer's own entry, if it stands within the bytes; else 11 or 12.
#[inline]
pub fn entry(bytes: &[u8], entries: &[u8], index: usize) -> Result<Answer<'static>, Refusal> {
    // SAFETY: as raw.rs says.
    let block =
        unsafe { Block::of(|block, length| lintelow_entry(bytes.as_ptr(), bytes.len(), entries.as_ptr(), entries.len(), index, block, length)) };
    block.answer(&[], &[])
}

/// Kind 1 where the client sends framed data with the operation, else 0; 9 for a number that is no operation's.
#[inline]
pub fn op_has_client_framed_data(op: u64) -> Result<Answer<'static>, Refusal> {
    // SAFETY: as raw.rs says.
    let block = unsafe { Block::of(|block, length| lintelow_op_has_client_framed_data(op, block, length)) };
    block.answer(&[], &[])
}

/// Numbers 0 and 1 are major and minor of the version that a number stands for.
#[inline]
pub fn version_from_wire(wire: u64) -> Result<Answer<'static>, Refusal> {
    // SAFETY: as raw.rs says.
    let block = unsafe { Block::of(|block, length| lintelow_version_from_wire(wire, block, length)) };
    block.answer(&[], &[])
}
