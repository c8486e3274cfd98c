//! Calls written from nix-wire's types.
use crate::answer::{record, Refusal};
use crate::raw;
use crate::read::read_op_args;
use crate::types::{Mode, OpCall, Version};
use crate::wire::{joined, try_append};

const NO_SUCH_ENTRY: u64 = 11;
const NOT_OF_SHAPE: Refusal = Refusal { number: 14, place: 0, stream: 0 };

/// The arguments of a call, as [`read_op_args`] reads them in this mode at this version; the operation's number ([`OpCall::op`]) stands before them on
/// the stream.
///
/// Refused by 9 where there is no such operation, by 13 where no arguments are known for it, and by 14 where they would not read back to the same call:
/// the operation has another kind of arguments in this mode at this version, the version lacks what is said, or a string is too long to be read.
///
/// ```
/// use lintelow::{read_op_args, write_op_args, Mode, OpCall, Version};
///
/// let (call, version) = (OpCall::SinglePath { op: 1, path: "/nix/store/bin".into() }, Version::new(1, 38));
/// let arguments = write_op_args(Mode::Published, &call, version)?;
/// assert_eq!(arguments, b"\x0e\0\0\0\0\0\0\0/nix/store/bin\0\0");
/// assert_eq!(read_op_args(Mode::Published, 1, version, &arguments)?, (Some(call), arguments.len()));
///
/// // RegisterDrvOutput, below 1.31, is two strings to a daemon and one to nix-wire: the other mode has no such call.
/// let (call, version) = (OpCall::RegisterDrvOutputOld { id: "id".into(), path: "path".into() }, Version::new(1, 30));
/// let arguments = write_op_args(Mode::Published, &call, version)?;
/// assert_eq!(arguments, b"\x02\0\0\0\0\0\0\0id\0\0\0\0\0\0\x04\0\0\0\0\0\0\0path\0\0\0\0");
/// assert_eq!(read_op_args(Mode::Ported, 42, version, &arguments)?, (Some(OpCall::RegisterDrvOutput { value: "id".into() }), 16));
/// assert_eq!(write_op_args(Mode::Ported, &call, version).unwrap_err().number, 14);
/// # Ok::<(), lintelow::Refusal>(())
/// ```
pub fn write_op_args(mode: Mode, call: &OpCall, version: Version) -> Result<Vec<u8>, Refusal> {
    let op = call.op();
    let Parts { numbers, count, strings, payload } = Parts::of(call);
    let record = record(&numbers, &[count, 0, 0]);
    let (bytes, entries) = joined(&strings);
    // Of a string there are a length and padding besides, of 32768 bytes of payload a length; the last length is 0.
    let room = record.len() + bytes.len() + entries.len() + payload.len() + payload.len() / 32768 * 8 + 16;
    let mut out = Vec::new();
    match try_append(&mut out, room, |room| raw::write_op_args(mode, op, version, &record, &bytes, &entries, payload, room)) {
        // Every string of the call has its entry, so arguments that ask for more are of another kind.
        Err(Refusal { number: NO_SUCH_ENTRY, .. }) => return Err(NOT_OF_SHAPE),
        written => written?,
    }
    match read_op_args(mode, op, version, &out) {
        Ok((Some(read), end)) if read == *call && end == out.len() => Ok(out),
        _ => Err(NOT_OF_SHAPE),
    }
}

/// What the library writes a call from. No kind of arguments has more than one count.
#[derive(Default)]
struct Parts<'c> {
    numbers: [u64; 12],
    count: u64,
    strings: Vec<&'c str>,
    payload: &'c [u8],
}

impl<'c> Parts<'c> {
    /// The slots of include/lintelow.h, as `read_op_args` takes them apart.
    fn of(call: &'c OpCall) -> Parts<'c> {
        let parts = Parts::default();
        match call {
            OpCall::SinglePath { path, .. } => parts.string(path),
            OpCall::SingleString { value, .. } => parts.string(value),
            OpCall::PathSet { paths, .. } => parts.set(paths),
            OpCall::PathSetFlag { paths, substitute, .. } => parts.set(paths).numbers([u64::from(*substitute)]),
            OpCall::PathSetMode { paths, mode, .. } => parts.set(paths).numbers([*mode]),
            OpCall::NoArgs { .. } => parts,
            OpCall::SetOptions {
                keep_failed,
                keep_going,
                try_fallback,
                verbosity,
                max_build_jobs,
                max_silent_time,
                use_build_hook,
                verbose_build,
                log_type,
                print_build_trace,
                build_cores,
                use_substitutes,
                overrides,
            } => parts
                .numbers([
                    *keep_failed,
                    *keep_going,
                    *try_fallback,
                    *verbosity,
                    *max_build_jobs,
                    *max_silent_time,
                    *use_build_hook,
                    *verbose_build,
                    *log_type,
                    *print_build_trace,
                    *build_cores,
                    *use_substitutes,
                ])
                .pairs(overrides),
            OpCall::CollectGarbage { action, paths, ignore_liveness, max_freed } => parts.numbers([*action, *ignore_liveness, *max_freed]).set(paths),
            OpCall::VerifyStore { check_contents, repair } => parts.numbers([u64::from(*check_contents), u64::from(*repair)]),
            OpCall::AddPermRoot { path, gc_root } => parts.string(path).string(gc_root),
            OpCall::AddSignatures { path, sigs } => parts.string(path).set(sigs),
            OpCall::AddTextToStore { suffix, text, refs } => parts.string(suffix).string(text).set(refs),
            OpCall::AddToStore { name, cam_str, refs, repair, data } => {
                parts.string(name).string(cam_str).set(refs).numbers([u64::from(*repair)]).payload(data)
            }
            OpCall::AddMultipleToStore { repair, dont_check_sigs, data } => {
                parts.numbers([u64::from(*repair), u64::from(*dont_check_sigs)]).payload(data)
            }
            OpCall::AddBuildLog { path, data } => parts.string(path).payload(data),
            OpCall::RegisterDrvOutput { value } => parts.string(value),
            OpCall::QueryRealisation { value } => parts.string(value),
            OpCall::QuerySubstitutablePathInfo { path } => parts.string(path),
            OpCall::QuerySubstitutablePathInfos { paths } => parts.set(paths),
            OpCall::QuerySubstitutablePairs { pairs } => parts.pairs(pairs),
            OpCall::RegisterDrvOutputOld { id, path } => parts.string(id).string(path),
        }
    }

    fn numbers<const N: usize>(mut self, numbers: [u64; N]) -> Self {
        self.numbers[..N].copy_from_slice(&numbers);
        self
    }

    fn string(mut self, text: &'c str) -> Self {
        self.strings.push(text);
        self
    }

    fn set(mut self, texts: &'c [String]) -> Self {
        self.count = texts.len() as u64;
        self.strings.extend(texts.iter().map(String::as_str));
        self
    }

    fn pairs(mut self, pairs: &'c [(String, String)]) -> Self {
        self.count = pairs.len() as u64;
        self.strings.extend(pairs.iter().flat_map(|(name, value)| [name.as_str(), value.as_str()]));
        self
    }

    fn payload(mut self, bytes: &'c [u8]) -> Self {
        self.payload = bytes;
        self
    }
}
