//! Every kind of argument and reply, the messages, the handshakes, refusals, room.
mod bytes;

use bytes::*;
use lintelow::*;

const NEW: Version = Version::new(1, 38);
const OLD: Version = Version::new(1, 9);
const MODES: [Mode; 2] = [Mode::Ported, Mode::Published];

/// The codes of messages.
const LAST: u64 = 0x616c7473;
const ERROR: u64 = 0x63787470;
const NEXT: u64 = 0x6f6c6d67;

fn owned(list: &[&str]) -> Vec<String> {
    list.iter().map(|text| text.to_string()).collect()
}

fn refused(number: u64, place: usize, stream: u64) -> Refusal {
    Refusal { number, place, stream }
}

/// The kinds that both modes have at 1.38.
#[test]
fn arguments_of_every_kind() {
    let [a, b, c] = ["alpha", "", "gamma"].map(String::from);
    let paths = || owned(&["p", "quebec"]);
    let pq = set(&["p", "quebec"]);
    let cases: Vec<(u64, Vec<u8>, OpCall)> = vec![
        (1, string("alpha"), OpCall::SinglePath { op: 1, path: a.clone() }),
        (29, string(""), OpCall::SingleString { op: 29, value: b.clone() }),
        (32, pq.clone(), OpCall::PathSet { op: 32, paths: paths() }),
        (31, [pq.clone(), numbers(&[7])].concat(), OpCall::PathSetFlag { op: 31, paths: paths(), substitute: true }),
        (9, [pq.clone(), numbers(&[2])].concat(), OpCall::PathSetMode { op: 9, paths: paths(), mode: 2 }),
        (13, vec![], OpCall::NoArgs { op: 13 }),
        (
            20,
            [numbers(&[3]), pq.clone(), numbers(&[1, 500, 0, 0, 0])].concat(),
            OpCall::CollectGarbage { action: 3, paths: paths(), ignore_liveness: 1, max_freed: 500 },
        ),
        (35, numbers(&[0, 9]), OpCall::VerifyStore { check_contents: false, repair: true }),
        (47, [string("alpha"), string("")].concat(), OpCall::AddPermRoot { path: a.clone(), gc_root: b.clone() }),
        (37, [string("alpha"), pq.clone()].concat(), OpCall::AddSignatures { path: a.clone(), sigs: paths() }),
        (8, [string("alpha"), string("gamma"), pq.clone()].concat(), OpCall::AddTextToStore { suffix: a.clone(), text: c.clone(), refs: paths() }),
        (
            7,
            [string("alpha"), string("gamma"), pq.clone(), numbers(&[0]), framed(&[b"ab", b"c"])].concat(),
            OpCall::AddToStore { name: a.clone(), cam_str: c.clone(), refs: paths(), repair: false, data: b"abc".to_vec() },
        ),
        (44, [numbers(&[0, 1]), framed(&[])].concat(), OpCall::AddMultipleToStore { repair: false, dont_check_sigs: true, data: vec![] }),
        (45, [string("alpha"), framed(&[b"log"])].concat(), OpCall::AddBuildLog { path: a.clone(), data: b"log".to_vec() }),
        (42, string("alpha"), OpCall::RegisterDrvOutput { value: a.clone() }),
        (43, string("alpha"), OpCall::QueryRealisation { value: a.clone() }),
        (21, string("alpha"), OpCall::QuerySubstitutablePathInfo { path: a.clone() }),
    ];
    for mode in MODES {
        for (op, stream, expected) in &cases {
            assert_eq!(read_op_args(mode, *op, NEW, &[&stream[..], b"more"].concat()), Ok((Some(expected.clone()), stream.len())));
        }
        assert_eq!(read_op_args(mode, 36, NEW, b"unread"), Ok((None, 0)));
        assert_eq!(read_op_args(mode, 7, Version::new(1, 24), b"unread"), Ok((None, 0)));
    }
}

#[test]
fn arguments_by_mode() {
    let [p, ca] = ["/nix/store/p", "fixed:out:sha256:ab"];
    let stream = [numbers(&[2]), string(p), string(ca), string("q"), string("")].concat();
    let pairs = vec![(p.to_string(), ca.to_string()), ("q".to_string(), String::new())];
    let set = || (OpCall::QuerySubstitutablePathInfos { paths: owned(&[p, ca]) }, 64);
    for (mode, minor, (call, end)) in [
        (Mode::Ported, 21, set()),
        (Mode::Ported, 22, set()),
        (Mode::Published, 21, set()),
        (Mode::Published, 22, (OpCall::QuerySubstitutablePairs { pairs }, stream.len())),
    ] {
        assert_eq!(read_op_args(mode, 30, Version::new(1, minor), &stream), Ok((Some(call), end)), "{mode:?}, 1.{minor}");
        assert_eq!(skip_op_args(mode, 30, Version::new(1, minor), &stream), Ok((SkippedArgs::Paths(2), end)), "{mode:?}, 1.{minor}");
    }

    let stream = [string("sha256:ab!out"), string("ab-out")].concat();
    let one = || (OpCall::RegisterDrvOutput { value: "sha256:ab!out".into() }, 24);
    for (mode, minor, (call, end)) in [
        (Mode::Ported, 30, one()),
        (Mode::Ported, 31, one()),
        (Mode::Published, 30, (OpCall::RegisterDrvOutputOld { id: "sha256:ab!out".into(), path: "ab-out".into() }, stream.len())),
        (Mode::Published, 31, one()),
    ] {
        assert_eq!(read_op_args(mode, 42, Version::new(1, minor), &stream), Ok((Some(call), end)), "{mode:?}, 1.{minor}");
        assert_eq!(skip_op_args(mode, 42, Version::new(1, minor), &stream), Ok((SkippedArgs::Str("sha256:ab!out"), end)), "{mode:?}, 1.{minor}");
    }
}

/// Read, every string is text; skipped, only the one that is answered.
#[test]
fn text_by_mode() {
    let (first, second) = (numbers(&[1, 0xff, 0]), numbers(&[0, 1, 0xff]));
    let old = Version::new(1, 30);
    for mode in MODES {
        assert_eq!(read_op_args(mode, 42, old, &first), Err(refused(3, 8, 0)));
        assert_eq!(skip_op_args(mode, 42, old, &first), Err(refused(3, 8, 0)));
    }
    assert_eq!(read_op_args(Mode::Published, 42, old, &second), Err(refused(3, 16, 0)));
    assert_eq!(skip_op_args(Mode::Published, 42, old, &second), Ok((SkippedArgs::Str(""), 24)));
    assert_eq!(skip_op_args(Mode::Published, 42, old, &second[..23]), Err(refused(1, 17, 0)));
    for pair in [first, second] {
        let stream = [numbers(&[1]), pair].concat();
        let bad = stream.iter().position(|&byte| byte == 0xff).unwrap();
        assert_eq!(read_op_args(Mode::Published, 30, NEW, &stream), Err(refused(3, bad, 0)));
        assert_eq!(skip_op_args(Mode::Published, 30, NEW, &stream), Ok((SkippedArgs::Paths(1), 32)));
    }
}

/// The modes differ in 30 from 1.22 on and in 42 below 1.31, and in nothing else.
#[test]
fn modes_differ_in_two_operations() {
    // Every count is 1, every string one character, every flag true.
    let ones = numbers(&[1; 64]);
    for op in 0..=48 {
        for (major, minor) in (0..=2).flat_map(|major| (0..=255).map(move |minor| (major, minor))) {
            let version = Version::new(major, minor);
            let differ = match op {
                30 => version >= Version::new(1, 22),
                42 => version < Version::new(1, 31),
                _ => false,
            };
            let [ported, published] = MODES.map(|mode| read_op_args(mode, op, version, &ones));
            assert_eq!(ported != published, differ, "operation {op} at {version}, read");
            let [ported, published] = MODES.map(|mode| skip_op_args(mode, op, version, &ones));
            assert_eq!(ported != published, differ, "operation {op} at {version}, skipped");
        }
    }
}

#[test]
fn options_are_in_their_order() {
    let stream = [numbers(&[1, 2, 3, 4, 5, 6, 7, 8, 9, 10, 11, 12, 1]), string("cores"), string("4")].concat();
    let options = |build_cores, use_substitutes, overrides| OpCall::SetOptions {
        keep_failed: 1,
        keep_going: 2,
        try_fallback: 3,
        verbosity: 4,
        max_build_jobs: 5,
        max_silent_time: 6,
        use_build_hook: 7,
        verbose_build: 8,
        log_type: 9,
        print_build_trace: 10,
        build_cores,
        use_substitutes,
        overrides,
    };
    let pair = ("cores".to_string(), "4".to_string());
    assert_eq!(read_op_args(Mode::Published, 19, NEW, &stream), Ok((Some(options(11, 12, vec![pair])), 136)));
    assert_eq!(read_op_args(Mode::Published, 19, OLD, &stream), Ok((Some(options(0, 0, vec![])), 80)));
}

#[test]
fn replies_of_every_kind() {
    let info = [string("drv"), string("hash"), set(&["r"]), numbers(&[100, 200])].concat();
    let old_info = PathInfoResult {
        valid: true,
        deriver: Some("drv".into()),
        nar_hash: Some("hash".into()),
        references: Some(owned(&["r"])),
        registration_time: Some(100),
        nar_size: Some(200),
        ..PathInfoResult::default()
    };
    let new_info = PathInfoResult { ultimate: Some(true), sigs: Some(owned(&["s", "t"])), ca: Some("ca".into()), ..old_info.clone() };
    let pairs = vec![("out".to_string(), "path".to_string())];
    let cases: Vec<(u64, Version, Vec<u8>, ResultData)> = vec![
        (42, NEW, vec![], ResultData::None),
        (1, NEW, numbers(&[5]), ResultData::U64(5)),
        (18, NEW, string("drv"), ResultData::Str("drv".into())),
        (26, NEW, [numbers(&[1]), info.clone(), numbers(&[1]), set(&["s", "t"]), string("ca")].concat(), ResultData::PathInfo(new_info)),
        (26, OLD, [numbers(&[1]), info.clone()].concat(), ResultData::PathInfo(old_info)),
        (26, NEW, numbers(&[0]), ResultData::PathInfo(PathInfoResult::default())),
        (6, NEW, set(&["a", "b"]), ResultData::StringSet(owned(&["a", "b"]))),
        (41, NEW, [numbers(&[1]), string("out"), string("path")].concat(), ResultData::StringMap(pairs.clone())),
        (30, NEW, [numbers(&[1]), string("out"), string("path"), set(&["passed over"]), numbers(&[1, 2])].concat(), ResultData::StringMap(pairs)),
        (20, NEW, numbers(&[77, 0, 0]), ResultData::CollectGarbage { bytes_freed: 77 }),
        (
            21,
            NEW,
            [numbers(&[1]), string("drv"), set(&["r"]), numbers(&[3, 4])].concat(),
            ResultData::SubstitutablePathInfo {
                valid: true,
                deriver: Some("drv".into()),
                refs: Some(owned(&["r"])),
                download_size: Some(3),
                nar_size: Some(4),
            },
        ),
        (21, NEW, numbers(&[0]), ResultData::SubstitutablePathInfo { valid: false, deriver: None, refs: None, download_size: None, nar_size: None }),
        (
            40,
            NEW,
            [set(&["b"]), set(&[]), set(&["u", "v"]), numbers(&[8, 9])].concat(),
            ResultData::Missing { will_build: owned(&["b"]), will_substitute: vec![], unknown: owned(&["u", "v"]), download_size: 8, nar_size: 9 },
        ),
        (38, NEW, framed(&[b"n", b"ar"]), ResultData::Framed(b"nar".to_vec())),
    ];
    for (op, version, stream, expected) in cases {
        let longer = [&stream[..], b"more"].concat();
        assert_eq!(read_daemon_result(op, version, &longer), Ok((expected, stream.len())));
        assert_eq!(skip_daemon_result(op, version, &longer), Ok(stream.len()));
    }
}

#[test]
fn skipped_arguments_of_every_kind() {
    let first = [string("name"), numbers(&[0, 0]), string("sha256")].concat();
    let options = [numbers(&[0; 12]), numbers(&[1]), string("k"), string("v")].concat();
    let said = |text: &str, end| Ok((Some(text.to_string()), end));
    for mode in MODES {
        let text = |op, version, stream: &[u8]| skip_op_args(mode, op, version, stream).map(|(args, end)| (args.text(), end));
        assert_eq!(skip_op_args(mode, 39, NEW, &first), Ok((SkippedArgs::None, 0)));
        assert_eq!(skip_op_args(mode, 13, NEW, &first), Ok((SkippedArgs::Empty, 0)));
        assert_eq!(skip_op_args(mode, 7, Version::new(1, 24), &first), Ok((SkippedArgs::Str("name"), first.len())));
        assert_eq!(text(39, NEW, &first), Ok((None, 0)));
        assert_eq!(text(13, NEW, &first), said("", 0));
        assert_eq!(text(1, NEW, &first), said("name", 16));
        assert_eq!(text(32, NEW, &set(&["a", "b"])), said("2 paths", 40));
        assert_eq!(text(19, NEW, &options), said("1 overrides", 136));
    }
}

#[test]
fn messages_and_errors() {
    let quiet = StderrResult { count: 0, terminal: None };
    assert_eq!(read_stderr_loop(b"12345"), Ok((quiet, 0)));
    assert_eq!(read_stderr_loop(&numbers(&[0, 1])), Ok((quiet, 0)));
    let done = StderrResult { count: 2, terminal: Some(StderrCode::Last) };
    assert_eq!(read_stderr_loop(&numbers(&[NEXT, 0, LAST])), Ok((done, 24)));
    for mode in MODES {
        for version in [OLD, NEW] {
            assert_eq!(read_stderr_with_error(mode, version, b"12345"), Ok((quiet, None, 0)));
            assert_eq!(read_stderr_with_error(mode, version, &numbers(&[NEXT, 0, LAST])), Ok((done, None, 24)));
        }
    }

    let block = [string("Error"), numbers(&[3]), string("name"), string("it failed"), numbers(&[1]), string("file"), numbers(&[4, 5])].concat();
    let stream = [numbers(&[ERROR]), block].concat();
    let failed = StderrResult { count: 1, terminal: Some(StderrCode::Error) };
    let info =
        ErrorInfo { error_type: "Error".into(), level: 3, name: "name".into(), message: "it failed".into(), traces: vec![], exit_status: None };
    assert_eq!(read_stderr_loop(&stream), Ok((failed, 8)));
    for version in [OLD, NEW] {
        assert_eq!(read_stderr_with_error(Mode::Ported, version, &stream), Ok((failed, Some(info.clone()), stream.len())));
    }
}

/// A message, then Error with what daemons send from 1.26 on.
fn traced(traces: &[&str]) -> Vec<u8> {
    let mut stream = [numbers(&[NEXT]), string("log"), numbers(&[ERROR])].concat();
    stream.extend([string("Error"), numbers(&[3]), string("name"), string("it failed"), numbers(&[0, traces.len() as u64])].concat());
    traces.iter().for_each(|trace| stream.extend([numbers(&[0]), string(trace)].concat()));
    stream
}

/// Where the message's contents stand, the error's position, and that of the first trace.
const MESSAGE: usize = 80;
const POSITION: usize = 96;
const TRACE: usize = POSITION + 16;

#[test]
fn errors_with_traces() {
    let failed = StderrResult { count: 2, terminal: Some(StderrCode::Error) };
    for traces in [&[][..], &["while building"], &["", "while building, größer", "\u{1b}[0m"]] {
        let stream = [traced(traces), numbers(&[LAST])].concat();
        let end = stream.len() - 8;
        let without = ErrorInfo { error_type: "Error".into(), level: 3, name: "name".into(), message: "it failed".into(), ..ErrorInfo::default() };
        let info = ErrorInfo { traces: owned(traces), ..without.clone() };
        for version in [Version::new(1, 26), NEW, Version::new(2, 0)] {
            assert_eq!(read_stderr_with_error(Mode::Published, version, &stream), Ok((failed, Some(info.clone()), end)));
            assert_eq!(read_stderr_with_error(Mode::Ported, version, &stream), Ok((failed, Some(without.clone()), TRACE - 8)));
        }
        for length in 32..end {
            let refusal = read_stderr_with_error(Mode::Published, NEW, &stream[..length]).unwrap_err();
            assert_eq!((refusal.number, refusal.stream), (1, 0), "cut to {length} bytes");
        }
    }
}

/// Type and name are empty, and the level is 0: the number is the exit status, whatever it is.
#[test]
fn errors_below_1_26() {
    let failed = StderrResult { count: 1, terminal: Some(StderrCode::Error) };
    for status in [0, 1, 100, u64::MAX] {
        let stream = [numbers(&[ERROR]), string("it failed"), numbers(&[status, 7])].concat();
        let message = "it failed".to_string();
        let info = ErrorInfo { error_type: String::new(), level: 0, name: String::new(), message, traces: vec![], exit_status: Some(status) };
        for version in [Version::new(1, 25), OLD, Version::new(0, 255)] {
            assert_eq!(read_stderr_with_error(Mode::Published, version, &stream), Ok((failed, Some(info.clone()), 40)));
        }
    }
}

/// The version decides from 1.26 on, in published mode alone. A stream of zeros behind Error ends at another byte by each of the three.
#[test]
fn errors_by_mode_and_version() {
    let stream = [numbers(&[ERROR]), numbers(&[0; 6])].concat();
    for (major, minor) in (0..=2).flat_map(|major| (0..=255).map(move |minor| (major, minor))) {
        let version = Version::new(major, minor);
        let read = |mode| {
            let (_, info, end) = read_stderr_with_error(mode, version, &stream).unwrap();
            (info.unwrap().exit_status, end)
        };
        let expected = if version >= Version::new(1, 26) { (None, 56) } else { (Some(0), 24) };
        assert_eq!((read(Mode::Ported), read(Mode::Published)), ((None, 48), expected), "{version}");
    }
}

/// The numbers as they are: kind, level or exit status, count of traces.
#[test]
fn errors_as_the_library_answers_them() {
    let mut entries = [0xa5; 6 * raw::ENTRY];
    let stream = traced(&["one", "three"]);
    let answer = raw::read_stderr_with_error(Mode::Published, NEW, &stream, &mut entries).unwrap();
    assert_eq!((answer.kind, answer.end, answer.end2, answer.counts), (1, stream.len(), 0, [2, 0, 0]));
    assert_eq!(answer.numbers, [2, ERROR, 3, 0, 0, 0, 0, 0, 0, 0, 0, 0]);
    let texts: Vec<_> = answer.entries.iter().map(|entry| entry.text(&stream)).collect();
    assert_eq!(texts, ["Error", "name", "it failed", "one", "three"]);
    assert_eq!(entries[5 * raw::ENTRY..], [0xa5; raw::ENTRY]);

    let old = [numbers(&[ERROR]), string("it failed"), numbers(&[100])].concat();
    let answer = raw::read_stderr_with_error(Mode::Published, OLD, &old, &mut entries).unwrap();
    assert_eq!((answer.kind, answer.end, answer.counts, answer.entries.len()), (2, old.len(), [0; 3], 1));
    assert_eq!(answer.numbers, [1, ERROR, 100, 0, 0, 0, 0, 0, 0, 0, 0, 0]);

    let answer = raw::read_stderr_with_error(Mode::Ported, NEW, &stream, &mut entries).unwrap();
    assert_eq!((answer.kind, answer.end, answer.counts, answer.entries.len()), (0, TRACE - 8, [0; 3], 3));
    let last = raw::read_stderr_with_error(Mode::Published, NEW, &numbers(&[LAST]), &mut []).unwrap();
    assert_eq!((last.kind, last.end, last.numbers[..3].to_vec()), (0, 8, vec![1, LAST, 0]));
}

#[test]
fn positions_that_are_not_0() {
    let stream = traced(&["one", "three"]);
    let second = TRACE + 24;
    let read = |stream: &[u8]| read_stderr_with_error(Mode::Published, NEW, stream).map(|(.., end)| end);
    assert_eq!(read(&stream), Ok(stream.len()));
    for place in [POSITION, TRACE, second] {
        for byte in place..place + 8 {
            let mut changed = stream.clone();
            changed[byte] = 0x80;
            assert_eq!(read(&changed), Err(refused(15, place, 0)));
            assert_eq!(read(&changed[..place + 7]), Err(refused(1, place, 0)), "cut short");
            assert_eq!(read(&changed[..place + 8]), Err(refused(15, place, 0)), "and nothing more");
        }
    }
    // What stands before a position is judged before it, and what stands behind it after it.
    let mut changed = stream.clone();
    (changed[TRACE], changed[second]) = (1, 1);
    assert_eq!(read(&changed), Err(refused(15, TRACE, 0)));
    changed[MESSAGE + 4] = 0xff;
    assert_eq!(read(&changed), Err(refused(3, MESSAGE + 4, 0)));
    let mut changed = stream.clone();
    (changed[TRACE + 17], changed[second]) = (0xff, 1);
    assert_eq!(read(&changed), Err(refused(3, TRACE + 17, 0)));
    // Below 1.26 there is none.
    let old = [numbers(&[ERROR]), string(""), numbers(&[1])].concat();
    assert_eq!(read_stderr_with_error(Mode::Published, Version::new(1, 25), &old).map(|(.., end)| end), Ok(24));
}

#[test]
fn errors_with_too_few_slots() {
    let stream = traced(&["one", "three"]);
    for (slots, place) in [(0, 32), (1, 56), (2, 72), (3, TRACE + 8), (4, TRACE + 32)] {
        for more in [0, raw::ENTRY - 1] {
            let mut entries = vec![0xa5; slots * raw::ENTRY + more];
            assert_eq!(raw::read_stderr_with_error(Mode::Published, NEW, &stream, &mut entries), Err(refused(4, place, 0)), "{slots} slots");
            assert!(entries.iter().all(|&byte| byte == 0xa5));
        }
    }
    let old = [numbers(&[ERROR]), string("it failed"), numbers(&[100])].concat();
    assert_eq!(raw::read_stderr_with_error(Mode::Published, OLD, &old, &mut [0; raw::ENTRY - 1]), Err(refused(4, 8, 0)));
}

#[test]
fn handshakes() {
    let (hello, reply, last) = (0x6e697863, 0x6478696f, 0x616c7473);
    let client = [numbers(&[hello, 0x126]), set(&["one", "two"]), numbers(&[0, 0])].concat();
    let daemon = [numbers(&[reply, 0x127]), set(&["three"]), string("2.99"), numbers(&[2, last])].concat();
    let info = HandshakeInfo {
        client_version: Version::new(1, 38),
        server_version: Version::new(1, 39),
        negotiated_version: Version::new(1, 38),
        client_features: owned(&["one", "two"]),
        server_features: owned(&["three"]),
        daemon_nix_version: Some("2.99".into()),
        trust_status: Some(2),
    };
    assert_eq!(parse_handshake(&client, &daemon), Ok((info.clone(), client.len(), daemon.len())));
    let one_side = HandshakeInfo { client_features: vec![], ..info };
    assert_eq!(parse_daemon_handshake(Version::new(1, 38), &daemon), Ok((one_side, daemon.len())));

    let old = numbers(&[reply, 0x10a, last]);
    let (info, client_end, daemon_end) = parse_handshake(&numbers(&[hello, 0x126]), &old).unwrap();
    assert_eq!((info.negotiated_version, client_end, daemon_end), (Version::new(1, 10), 16, 24));
    assert_eq!((info.daemon_nix_version, info.trust_status), (None, None));

    assert_eq!(parse_handshake(&numbers(&[1, 0x126]), &numbers(&[1, 0x126])), Err(refused(6, 0, 0)));
    assert_eq!(parse_handshake(&client, &numbers(&[1, 0x126])), Err(refused(7, 0, 1)));
    let not_last = numbers(&[reply, 0x10a, 5]);
    assert_eq!(parse_handshake(&client, &not_last), Err(refused(8, 16, 1)));
    assert_eq!(parse_daemon_handshake(OLD, &not_last), Err(refused(8, 16, 1)));
}

#[test]
fn refusals_have_number_and_place() {
    let limit = 268435456;
    let bad_text = [numbers(&[1]), b"\xff\0\0\0\0\0\0\0".to_vec()].concat();
    let op_1 = |stream: &[u8]| read_op_args(Mode::Published, 1, NEW, stream).unwrap_err();
    assert_eq!(op_1(b"1234567"), refused(1, 0, 0));
    assert_eq!(op_1(&numbers(&[limit + 1])), refused(2, 0, 0));
    assert_eq!(op_1(&numbers(&[limit])), refused(1, 8, 0));
    assert_eq!(op_1(&bad_text), refused(3, 8, 0));
    assert_eq!(skip_op_args(Mode::Published, 1, NEW, &bad_text), Err(refused(3, 8, 0)));
    assert_eq!(skip_daemon_result(18, NEW, &bad_text), Ok(16));
    assert_eq!(read_daemon_result(6, NEW, &numbers(&[u64::MAX])), Err(refused(1, 8, 0)));
    for op in [0, 2, 48, u64::MAX] {
        for mode in MODES {
            assert_eq!(read_op_args(mode, op, NEW, &[]), Err(refused(9, 0, 0)));
            assert_eq!(skip_op_args(mode, op, NEW, &[]), Err(refused(9, 0, 0)));
        }
        assert_eq!(read_daemon_result(op, NEW, &[]), Err(refused(9, 0, 0)));
        assert_eq!(skip_daemon_result(op, NEW, &[]), Err(refused(9, 0, 0)));
    }
}

/// A byte behind nothing and behind several good ones, a character that the string's end cuts, an overlong form, a surrogate: with the bytes before it.
const BAD: [(&[u8], usize); 5] = [(b"\xff", 0), (b"a\xc3\xa9\xffb", 3), (b"ab\xe2\x82", 2), (b"a\xe0\x80\xaf", 1), (b"a\xed\xa0\x80", 1)];

#[test]
fn bad_text_is_refused_where_text_ends() {
    const HELLO: u64 = 0x6e697863;
    const REPLY: u64 = 0x6478696f;
    type Reader = fn(&[u8]) -> Option<Refusal>;
    // What stands before the string, and the stream.
    let readers: [(Vec<u8>, u64, Reader); 14] = [
        (string("suffix"), 0, |s| read_op_args(Mode::Published, 8, NEW, s).err()),
        (vec![], 0, |s| skip_op_args(Mode::Published, 1, NEW, s).err()),
        ([numbers(&[2]), string("first")].concat(), 0, |s| read_daemon_result(6, NEW, s).err()),
        ([numbers(&[ERROR]), string("Error"), numbers(&[0]), string("name")].concat(), 0, |s| read_stderr_with_error(Mode::Ported, NEW, s).err()),
        (numbers(&[ERROR]), 0, |s| read_stderr_with_error(Mode::Published, NEW, s).err()),
        (numbers(&[ERROR, 0, 0]), 0, |s| read_stderr_with_error(Mode::Published, NEW, s).err()),
        (numbers(&[ERROR, 0, 0, 0]), 0, |s| read_stderr_with_error(Mode::Published, NEW, s).err()),
        (traced(&["one"])[..TRACE + 8].to_vec(), 0, |s| read_stderr_with_error(Mode::Published, NEW, s).err()),
        (numbers(&[ERROR]), 0, |s| read_stderr_with_error(Mode::Published, OLD, s).err()),
        (numbers(&[HELLO, 0x126, 1]), 0, |s| parse_handshake(s, &numbers(&[REPLY, 0x126])).err()),
        (numbers(&[REPLY, 0x126, 1]), 1, |s| parse_handshake(&numbers(&[HELLO, 0x126, 0, 0, 0]), s).err()),
        (numbers(&[REPLY, 0x126, 0]), 1, |s| parse_daemon_handshake(NEW, s).err()),
        (vec![], 0, |s| wire::read_string(s, 0).err()),
        (numbers(&[1]), 0, |s| wire::read_string_set(s, 0).err()),
    ];
    for (before, stream, reader) in readers {
        for (bad, good) in BAD {
            let start = before.len() + 8;
            let all = [before.clone(), string(bad)].concat();
            assert_eq!(reader(&all), Some(refused(3, start + good, stream)));
            assert_eq!(reader(&all[..start + bad.len()]), Some(refused(3, start + good, stream)), "without padding");
            assert_eq!(reader(&all[..start + good]), Some(refused(1, start, stream)), "cut where its text ends");
        }
    }
}

#[test]
fn a_refusal_says_what_it_means() {
    let error: Box<dyn std::error::Error> = Box::new(refused(8, 24, 1));
    assert_eq!(error.to_string(), "refusal 8 at 24 of the daemon's stream: not Last: the handshake's final number differs");
    let meanings: Vec<_> = (1..=16).map(|number| refused(number, 0, 0).meaning()).collect();
    for (i, meaning) in meanings.iter().enumerate() {
        assert!(!meanings[..i].contains(meaning), "{meaning}");
    }
    assert_eq!(meanings[15], "a number without a meaning");
}

#[test]
fn room_grows_to_what_is_there() {
    let texts: Vec<String> = (0..10_000).map(|i| i.to_string()).collect();
    let stream = set(&texts.iter().map(String::as_str).collect::<Vec<_>>());
    assert_eq!(read_daemon_result(6, NEW, &stream), Ok((ResultData::StringSet(texts), stream.len())));

    let empty = vec![String::new(); 1000];
    assert_eq!(read_daemon_result(6, NEW, &set(&[""; 1000])), Ok((ResultData::StringSet(empty), 8008)));

    let stream = traced(&[""; 10_000]);
    let (_, info, end) = read_stderr_with_error(Mode::Published, NEW, &stream).unwrap();
    assert_eq!((info.unwrap().traces, end), (vec![String::new(); 10_000], stream.len()));

    let chunk: Vec<u8> = (0..=255).collect();
    let stream = framed(&vec![&chunk[..]; 4000]);
    assert_eq!(read_daemon_result(38, NEW, &stream), Ok((ResultData::Framed(chunk.repeat(4000)), stream.len())));

    let path = "p".repeat(20_000);
    let stream = [string(&path), framed(&[&chunk])].concat();
    assert_eq!(read_op_args(Mode::Published, 45, NEW, &stream), Ok((Some(OpCall::AddBuildLog { path, data: chunk }), stream.len())));
}

#[test]
fn lent_room_beyond_the_answer_is_as_it_was() {
    let stream = set(&["one", "three"]);
    let mut entries = [0xa5; 3 * raw::ENTRY + 7];
    let mut payload = [0xa5; 4];
    let answer = raw::read_daemon_result(6, NEW, &stream, &mut entries, &mut payload).unwrap();
    assert_eq!((answer.kind, answer.end, answer.end2, answer.counts), (6, stream.len(), 0, [2, 0, 0]));
    assert_eq!((answer.numbers, answer.payload), ([0; 12], &[][..]));
    assert_eq!((answer.entries.len(), answer.entries.get(1), answer.entries.get(2)), (2, Some(Entry { start: 32, length: 5 }), None));
    let texts: Vec<_> = answer.entries.iter().map(|entry| entry.text(&stream)).collect();
    assert_eq!(texts, ["one", "three"]);
    assert_eq!(entries[2 * raw::ENTRY..], [0xa5; raw::ENTRY + 7]);
    assert_eq!(payload, [0xa5; 4]);
}

#[test]
fn a_refusal_leaves_lent_room_as_it_was() {
    let mut entries = [0xa5; 2 * raw::ENTRY - 1];
    let refusal = raw::read_daemon_result(6, NEW, &set(&["one", "three"]), &mut entries, &mut []).unwrap_err();
    assert_eq!((refusal, entries), (refused(4, 24, 0), [0xa5; 31]));
    let mut payload = [0xa5; 2];
    let refusal = raw::read_daemon_result(38, NEW, &framed(&[b"ab", b"c"]), &mut [], &mut payload).unwrap_err();
    assert_eq!((refusal, payload), (refused(5, 10, 0), [0xa5; 2]));
}

#[test]
fn nothing_is_read_and_lent() {
    let none = Answer { kind: 6, end: 0, end2: 0, numbers: [0; 12], counts: [0; 3], ..raw::skip_op_args(Mode::Published, 13, NEW, &[]).unwrap() };
    for mode in MODES {
        assert_eq!(raw::read_op_args(mode, 13, NEW, &[], &mut [], &mut []), Ok(none));
        assert_eq!(raw::skip_op_args(mode, 13, NEW, &[]), Ok(Answer { kind: 1, ..none }));
    }
    assert_eq!(raw::read_daemon_result(42, NEW, &[], &mut [], &mut []), Ok(Answer { kind: 0, ..none }));
    assert_eq!(raw::skip_daemon_result(42, NEW, &[]), Ok(Answer { kind: 0, ..none }));
    assert_eq!(raw::read_stderr_loop(&[]), Ok(Answer { kind: 0, ..none }));
    for mode in MODES {
        assert_eq!(raw::read_stderr_with_error(mode, NEW, &[], &mut []), Ok(Answer { kind: 0, ..none }));
    }
    assert_eq!(raw::parse_handshake(&[], &[], &mut []), Err(refused(1, 0, 0)));
    assert_eq!(raw::parse_daemon_handshake(NEW, &[], &mut []), Err(refused(1, 0, 1)));
    assert_eq!(raw::read_daemon_result(6, NEW, &set(&[""]), &mut [], &mut []), Err(refused(4, 8, 0)));
}

#[test]
fn every_version_is_an_input() {
    for version in [Version::new(0, 255), Version::new(2, 0), Version::new(65535, 255)] {
        let (call, end) = read_op_args(Mode::Published, 19, version, &numbers(&[0; 13])).unwrap();
        assert!(matches!(call, Some(OpCall::SetOptions { .. })));
        assert_eq!(end, if version.major == 0 { 80 } else { 104 });
    }
}
