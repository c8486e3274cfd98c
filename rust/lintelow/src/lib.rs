//! The proved reader of Nix daemon streams, for Rust.
//!
//! The reading is done by Lintelow's static library, in which every function is proved to meet its contract; this crate calls it and gives its
//! answers the types of nix-wire. It takes no decision about the protocol: it knows the numbers that the library answers with (kinds, with their
//! operations, and the slots of a record) and nothing of layouts, versions or text.
//!
//! A reader takes the part of a stream that starts where the last call ended, and answers with what it read and where that ended, or with a
//! [`Refusal`]: a number, a place in that part, and for a handshake the stream. An operation is its number; one that the library does not know is
//! refused by 9. [`write_op_args`] is the other way for calls. What reads, skips or writes arguments, and what reads an error, takes a [`Mode`] first.
//!
//! ```
//! use lintelow::{read_daemon_result, ResultData, Version};
//!
//! // The daemon's reply to QueryReferrers, operation 6: a count, then strings, each a length, its contents and padding to eight bytes.
//! let mut stream = Vec::new();
//! for number in [2u64, 4] {
//!     stream.extend(number.to_le_bytes());
//! }
//! stream.extend(b"bash\0\0\0\0");
//! stream.extend(9u64.to_le_bytes());
//! stream.extend(b"coreutils\0\0\0\0\0\0\0");
//! stream.extend(b"what comes next");
//!
//! let (reply, end) = read_daemon_result(6, Version::new(1, 38), &stream)?;
//! assert_eq!(reply, ResultData::StringSet(vec!["bash".into(), "coreutils".into()]));
//! assert_eq!(&stream[end..], b"what comes next");
//!
//! // Without its last seven bytes the second string's contents, at 32, are there, but the padding, at 41, is cut short.
//! let refusal = read_daemon_result(6, Version::new(1, 38), &stream[..41]).unwrap_err();
//! assert_eq!((refusal.number, refusal.place), (1, 41));
//! assert_eq!(
//!     refusal.to_string(),
//!     "refusal 1 at 41: cut short: a number, contents, padding or chunk needs more bytes than remain"
//! );
//!
//! // A byte that is no text is the place itself. Cut there, the stream is refused at the string's contents, so two bytes of it are good.
//! stream[34] = 0xff;
//! let refused = |stream: &[u8]| read_daemon_result(6, Version::new(1, 38), stream).map_err(|refusal| (refusal.number, refusal.place));
//! assert_eq!(refused(&stream), Err((3, 34)));
//! assert_eq!(refused(&stream[..34]), Err((1, 32)));
//! # Ok::<(), lintelow::Refusal>(())
//! ```
//!
//! [`wire`] has the pieces that streams are made of. The functions here and there allocate what they answer. Those of [`raw`] take lent room instead and answer with numbers and entries, as the library does; [`with_room`] makes it for them.
#[cfg(not(all(target_pointer_width = "64", target_endian = "little")))]
compile_error!("Lintelow is for little-endian processors of 64 bits");

mod answer;
pub mod raw;
mod read;
mod types;
pub mod wire;
mod write;

pub use answer::{Answer, Entries, Entry, Refusal};
pub use read::{
    parse_daemon_handshake, parse_handshake, read_daemon_result, read_op_args, read_stderr_loop, read_stderr_with_error, skip_daemon_result,
    skip_op_args, with_room,
};
pub use types::{ErrorInfo, HandshakeInfo, Mode, OpCall, PathInfoResult, ResultData, SkippedArgs, StderrCode, StderrResult, Version};
pub use write::write_op_args;
