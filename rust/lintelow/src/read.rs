//! The calls with room of their own: their answers as nix-wire's types.
use crate::answer::{Answer, Entries, Refusal, ENTRY};
use crate::raw;
use crate::types::*;

/// The arguments of an operation, from the client's stream, and their end. `None`: arguments that are not read; nothing was consumed.
///
/// ```
/// use lintelow::{read_op_args, skip_op_args, Mode, OpCall, SkippedArgs, Version};
///
/// // QuerySubstitutablePathInfos, operation 30, of one path: to a daemon a pair, the path and its content address, both empty here.
/// let stream = [1u64, 0, 0].map(u64::to_le_bytes).concat();
/// let version = Version::new(1, 38);
/// let pairs = OpCall::QuerySubstitutablePairs { pairs: vec![("".into(), "".into())] };
/// assert_eq!(read_op_args(Mode::Published, 30, version, &stream)?, (Some(pairs), 24));
/// assert_eq!(skip_op_args(Mode::Published, 30, version, &stream)?, (SkippedArgs::Paths(1), 24));
///
/// // To nix-wire it is a set, and the stream goes on with what is the content address.
/// let set = OpCall::QuerySubstitutablePathInfos { paths: vec!["".into()] };
/// assert_eq!(read_op_args(Mode::Ported, 30, version, &stream)?, (Some(set), 16));
/// assert_eq!(skip_op_args(Mode::Ported, 30, version, &stream)?, (SkippedArgs::Paths(1), 16));
/// # Ok::<(), lintelow::Refusal>(())
/// ```
pub fn read_op_args(mode: Mode, op: u64, version: Version, stream: &[u8]) -> Result<(Option<OpCall>, usize), Refusal> {
    with_room(stream.len(), |entries, payload| {
        let answer = raw::read_op_args(mode, op, version, stream, entries, payload)?;
        Ok((op_call(op, stream, &answer), answer.end))
    })
}

/// The arguments of an operation, skipped, up to framed data, and where that is. In [`Mode::Published`] the pairs of operation 30 count as paths, and
/// of 42's two strings the first is answered and the second not looked at.
pub fn skip_op_args(mode: Mode, op: u64, version: Version, stream: &[u8]) -> Result<(SkippedArgs<'_>, usize), Refusal> {
    let answer = raw::skip_op_args(mode, op, version, stream)?;
    let skipped = match answer.kind {
        0 => SkippedArgs::None,
        1 => SkippedArgs::Empty,
        2 => SkippedArgs::Str(answer.own_entry().text(stream)),
        3 => SkippedArgs::Paths(answer.numbers[0]),
        4 => SkippedArgs::Overrides(answer.numbers[0]),
        kind => unreachable!("the library has no kind {kind} of skipped arguments"),
    };
    Ok((skipped, answer.end))
}

/// The reply to an operation, from the daemon's stream, and its end.
pub fn read_daemon_result(op: u64, version: Version, stream: &[u8]) -> Result<(ResultData, usize), Refusal> {
    with_room(stream.len(), |entries, payload| {
        let answer = raw::read_daemon_result(op, version, stream, entries, payload)?;
        Ok((result_data(stream, &answer), answer.end))
    })
}

/// Where the reply to an operation ends.
pub fn skip_daemon_result(op: u64, version: Version, stream: &[u8]) -> Result<usize, Refusal> {
    Ok(raw::skip_daemon_result(op, version, stream)?.end)
}

/// The daemon's messages up to Last, Error or what is no message, and where they end.
pub fn read_stderr_loop(stream: &[u8]) -> Result<(StderrResult, usize), Refusal> {
    let answer = raw::read_stderr_loop(stream)?;
    Ok((stderr_result(&answer), answer.end))
}

/// The same, with what follows an Error, which is part of what was read then.
///
/// ```
/// use lintelow::{read_stderr_with_error, Mode, Version};
///
/// // Error, then a type, a level, a name, a message, a position, which is 0, and a count of traces. Of an empty string there is only its length.
/// let stream = [0x63787470u64, 0, 3, 0, 0, 0, 0].map(u64::to_le_bytes).concat();
/// let read = |mode, minor| read_stderr_with_error(mode, Version::new(1, minor), &stream).map(|(_, error, end)| (error.unwrap(), end));
/// let (error, end) = read(Mode::Published, 38)?;
/// assert_eq!((error.level, error.traces.len(), error.exit_status, end), (3, 0, None, 56));
///
/// // Below 1.26 a daemon sends a message and its exit status.
/// let (error, end) = read(Mode::Published, 25)?;
/// assert_eq!((error.level, error.exit_status, end), (0, Some(3), 24));
///
/// // To nix-wire an error ends at its position, so the count of traces is left over.
/// let (error, end) = read(Mode::Ported, 38)?;
/// assert_eq!((error.level, end), (3, 48));
/// # Ok::<(), lintelow::Refusal>(())
/// ```
pub fn read_stderr_with_error(mode: Mode, version: Version, stream: &[u8]) -> Result<(StderrResult, Option<ErrorInfo>, usize), Refusal> {
    with_room(stream.len(), |entries, _| {
        let answer = raw::read_stderr_with_error(mode, version, stream, entries)?;
        let result = stderr_result(&answer);
        let error = (result.terminal == Some(StderrCode::Error)).then(|| error_info(stream, &answer));
        Ok((result, error, answer.end))
    })
}

/// Both sides of a handshake; where the client's stream was left, and where the daemon's.
pub fn parse_handshake(client: &[u8], daemon: &[u8]) -> Result<(HandshakeInfo, usize, usize), Refusal> {
    with_room(client.len() + daemon.len(), |entries, _| {
        let answer = raw::parse_handshake(client, daemon, entries)?;
        Ok((handshake_info(client, daemon, &answer), answer.end, answer.end2))
    })
}

/// The daemon's side of a handshake alone, with the version that the client has said; where the stream was left.
pub fn parse_daemon_handshake(client: Version, daemon: &[u8]) -> Result<(HandshakeInfo, usize), Refusal> {
    with_room(daemon.len(), |entries, _| {
        let answer = raw::parse_daemon_handshake(client, daemon, entries)?;
        Ok((handshake_info(&[], daemon, &answer), answer.end2))
    })
}

/// Reads with little room for entries and payload first, and again with more while that is what the refusal asks for. `streamed` is the length of what is
/// read, which bounds the room.
pub fn with_room<T>(streamed: usize, read: impl Fn(&mut [u8], &mut [u8]) -> Result<T, Refusal>) -> Result<T, Refusal> {
    // A kept string has a length of eight bytes in the stream, and a payload's bytes stand there too: more room than that is never asked for.
    let most_entries = streamed / 8 * ENTRY;
    let mut entries = vec![0; most_entries.min(64 * ENTRY)];
    let mut payload = Vec::new();
    loop {
        let refusal = match read(&mut entries, &mut payload) {
            Err(refusal) => refusal,
            done => return done,
        };
        let grown = match refusal.number {
            4 => grow(&mut entries, most_entries),
            5 => grow(&mut payload, streamed),
            _ => false,
        };
        if !grown {
            return Err(refusal);
        }
    }
}

fn grow(room: &mut Vec<u8>, most: usize) -> bool {
    let length = (4 * room.len()).max(4096).min(most);
    let grown = length > room.len();
    *room = vec![0; length];
    grown
}

/// An answer's strings, taken in reading order.
struct Strings<'a> {
    stream: &'a [u8],
    entries: Entries<'a>,
    taken: usize,
}

impl<'a> Strings<'a> {
    fn new(stream: &'a [u8], answer: &Answer<'a>) -> Strings<'a> {
        Strings { stream, entries: answer.entries, taken: 0 }
    }

    fn one(&mut self) -> String {
        let entry = self.entries.get(self.taken).expect("an entry for each kept string");
        self.taken += 1;
        entry.text(self.stream).to_owned()
    }

    fn set(&mut self, count: u64) -> Vec<String> {
        (0..count).map(|_| self.one()).collect()
    }

    fn pairs(&mut self, count: u64) -> Vec<(String, String)> {
        (0..count).map(|_| (self.one(), self.one())).collect()
    }
}

fn op_call(op: u64, stream: &[u8], answer: &Answer) -> Option<OpCall> {
    let strings = &mut Strings::new(stream, answer);
    let n = &answer.numbers;
    let count = answer.counts[0];
    let data = || answer.payload.to_vec();
    Some(match answer.kind {
        0 => return None,
        1 => OpCall::SinglePath { op, path: strings.one() },
        2 => OpCall::SingleString { op, value: strings.one() },
        3 => OpCall::PathSet { op, paths: strings.set(count) },
        4 => OpCall::PathSetFlag { op, paths: strings.set(count), substitute: n[0] != 0 },
        5 => OpCall::PathSetMode { op, paths: strings.set(count), mode: n[0] },
        6 => OpCall::NoArgs { op },
        7 => OpCall::SetOptions {
            keep_failed: n[0],
            keep_going: n[1],
            try_fallback: n[2],
            verbosity: n[3],
            max_build_jobs: n[4],
            max_silent_time: n[5],
            use_build_hook: n[6],
            verbose_build: n[7],
            log_type: n[8],
            print_build_trace: n[9],
            build_cores: n[10],
            use_substitutes: n[11],
            overrides: strings.pairs(count),
        },
        8 => OpCall::CollectGarbage { action: n[0], paths: strings.set(count), ignore_liveness: n[1], max_freed: n[2] },
        9 => OpCall::VerifyStore { check_contents: n[0] != 0, repair: n[1] != 0 },
        10 => OpCall::AddPermRoot { path: strings.one(), gc_root: strings.one() },
        11 => OpCall::AddSignatures { path: strings.one(), sigs: strings.set(count) },
        12 => OpCall::AddTextToStore { suffix: strings.one(), text: strings.one(), refs: strings.set(count) },
        13 => OpCall::AddToStore { name: strings.one(), cam_str: strings.one(), refs: strings.set(count), repair: n[0] != 0, data: data() },
        14 => OpCall::AddMultipleToStore { repair: n[0] != 0, dont_check_sigs: n[1] != 0, data: data() },
        15 => OpCall::AddBuildLog { path: strings.one(), data: data() },
        16 => OpCall::RegisterDrvOutput { value: strings.one() },
        17 => OpCall::QueryRealisation { value: strings.one() },
        18 => OpCall::QuerySubstitutablePathInfo { path: strings.one() },
        19 => OpCall::QuerySubstitutablePathInfos { paths: strings.set(count) },
        20 => OpCall::QuerySubstitutablePairs { pairs: strings.pairs(count) },
        21 => OpCall::RegisterDrvOutputOld { id: strings.one(), path: strings.one() },
        kind => unreachable!("the library has no kind {kind} of arguments"),
    })
}

fn result_data(stream: &[u8], answer: &Answer) -> ResultData {
    let strings = &mut Strings::new(stream, answer);
    let n = &answer.numbers;
    let counts = &answer.counts;
    match answer.kind {
        0 => ResultData::None,
        1 => ResultData::U64(n[0]),
        2 => ResultData::Str(strings.one()),
        3 => {
            let old = path_info(strings, answer);
            let (sigs, ca) = (strings.set(counts[1]), strings.one());
            ResultData::PathInfo(PathInfoResult { ultimate: Some(n[2] != 0), sigs: Some(sigs), ca: Some(ca), ..old })
        }
        4 => ResultData::PathInfo(path_info(strings, answer)),
        5 => ResultData::PathInfo(PathInfoResult::default()),
        6 => ResultData::StringSet(strings.set(counts[0])),
        7 => ResultData::StringMap(strings.pairs(counts[0])),
        8 => ResultData::CollectGarbage { bytes_freed: n[0] },
        9 => ResultData::SubstitutablePathInfo {
            valid: true,
            deriver: Some(strings.one()),
            refs: Some(strings.set(counts[0])),
            download_size: Some(n[0]),
            nar_size: Some(n[1]),
        },
        10 => ResultData::SubstitutablePathInfo { valid: false, deriver: None, refs: None, download_size: None, nar_size: None },
        11 => ResultData::Missing {
            will_build: strings.set(counts[0]),
            will_substitute: strings.set(counts[1]),
            unknown: strings.set(counts[2]),
            download_size: n[0],
            nar_size: n[1],
        },
        12 => ResultData::Framed(answer.payload.to_vec()),
        kind => unreachable!("the library has no kind {kind} of reply"),
    }
}

/// What path infos of every version have.
fn path_info(strings: &mut Strings, answer: &Answer) -> PathInfoResult {
    PathInfoResult {
        valid: true,
        deriver: Some(strings.one()),
        nar_hash: Some(strings.one()),
        references: Some(strings.set(answer.counts[0])),
        registration_time: Some(answer.numbers[0]),
        nar_size: Some(answer.numbers[1]),
        ..PathInfoResult::default()
    }
}

fn stderr_result(answer: &Answer) -> StderrResult {
    let codes = [StderrCode::Last, StderrCode::Error];
    StderrResult { count: answer.numbers[0], terminal: codes.into_iter().find(|&code| code as u64 == answer.numbers[1]) }
}

fn error_info(stream: &[u8], answer: &Answer) -> ErrorInfo {
    let strings = &mut Strings::new(stream, answer);
    let number = answer.numbers[2];
    match answer.kind {
        0 | 1 => ErrorInfo {
            error_type: strings.one(),
            level: number,
            name: strings.one(),
            message: strings.one(),
            traces: strings.set(answer.counts[0]),
            exit_status: None,
        },
        2 => ErrorInfo { message: strings.one(), exit_status: Some(number), ..ErrorInfo::default() },
        kind => unreachable!("the library has no kind {kind} of error"),
    }
}

fn handshake_info(client: &[u8], daemon: &[u8], answer: &Answer) -> HandshakeInfo {
    let n = &answer.numbers;
    let version = |i: usize| Version::new(n[2 * i] as u16, n[2 * i + 1] as u8);
    let mut strings = Strings::new(client, answer);
    let client_features = strings.set(answer.counts[0]);
    strings.stream = daemon;
    HandshakeInfo {
        client_version: version(0),
        server_version: version(1),
        negotiated_version: version(2),
        client_features,
        server_features: strings.set(answer.counts[1]),
        daemon_nix_version: (n[6] != 0).then(|| strings.one()),
        trust_status: (n[7] != 0).then_some(n[8]),
    }
}
