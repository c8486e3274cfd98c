//! Calls written: every operation and read back, each refusal with its place, lent room, records that are cut.
mod bytes;

use bytes::*;
use lintelow::*;

const NEW: Version = Version::new(1, 38);
const OLD: Version = Version::new(1, 9);
const MODES: [Mode; 2] = [Mode::Ported, Mode::Published];
/// Versions on both sides of every gate, and beyond all of them.
const VERSIONS: [Version; 17] = [
    Version::new(0, 0),
    Version::new(0, 255),
    OLD,
    Version::new(1, 10),
    Version::new(1, 11),
    Version::new(1, 12),
    Version::new(1, 21),
    Version::new(1, 22),
    Version::new(1, 24),
    Version::new(1, 25),
    Version::new(1, 26),
    Version::new(1, 27),
    Version::new(1, 30),
    Version::new(1, 31),
    NEW,
    Version::new(2, 0),
    Version::new(65535, 255),
];

fn refused(number: u64, place: usize) -> Refusal {
    Refusal { number, place, stream: 0 }
}

/// A call of every operation whose arguments are known at a version, with the bytes that they are.
fn calls(mode: Mode, version: Version) -> Vec<(OpCall, Vec<u8>)> {
    let from = |minor| version >= Version::new(1, minor);
    let [a, b, c] = ["alpha", "", "stra\u{df}e"];
    let paths = || vec!["p".to_string(), "quebec".to_string()];
    let pq = set(&["p", "quebec"]);
    let payload: Vec<u8> = (0..70_000u32).map(|i| (i % 251) as u8).collect();
    let chunks = framed(&payload.chunks(32768).collect::<Vec<_>>());

    let mut calls: Vec<(OpCall, Vec<u8>)> = Vec::new();
    for op in [1, 6, 10, 11, 18, 22, 26, 28, 33, 38, 41] {
        calls.push((OpCall::SinglePath { op, path: a.into() }, string(a)));
    }
    for op in [12, 29] {
        calls.push((OpCall::SingleString { op, value: c.into() }, string(c)));
    }
    for op in [32, 40] {
        calls.push((OpCall::PathSet { op, paths: paths() }, pq.clone()));
    }
    for op in [9, 46] {
        calls.push((OpCall::PathSetMode { op, paths: paths(), mode: u64::MAX }, [pq.clone(), numbers(&[u64::MAX])].concat()));
    }
    for op in [13, 14, 23, 34] {
        calls.push((OpCall::NoArgs { op }, vec![]));
    }
    let substitute = from(27);
    calls.push((OpCall::PathSetFlag { op: 31, paths: paths(), substitute }, [pq.clone(), if substitute { numbers(&[1]) } else { vec![] }].concat()));
    let (cores, pairs) = (from(10), from(12));
    calls.push((
        OpCall::SetOptions {
            keep_failed: 1,
            keep_going: 2,
            try_fallback: 3,
            verbosity: 4,
            max_build_jobs: 5,
            max_silent_time: 6,
            use_build_hook: 7,
            verbose_build: 8,
            log_type: 9,
            print_build_trace: 10,
            build_cores: if cores { 11 } else { 0 },
            use_substitutes: if pairs { 12 } else { 0 },
            overrides: if pairs { vec![("cores".into(), "4".into()), (String::new(), c.into())] } else { vec![] },
        },
        [
            numbers(&[1, 2, 3, 4, 5, 6, 7, 8, 9, 10]),
            if cores { numbers(&[11]) } else { vec![] },
            if pairs { [numbers(&[12, 2]), string("cores"), string("4"), string(""), string(c)].concat() } else { vec![] },
        ]
        .concat(),
    ));
    calls.push((
        OpCall::CollectGarbage { action: 3, paths: paths(), ignore_liveness: 7, max_freed: u64::MAX },
        [numbers(&[3]), pq.clone(), numbers(&[7, u64::MAX, 0, 0, 0])].concat(),
    ));
    calls.push((OpCall::VerifyStore { check_contents: false, repair: true }, numbers(&[0, 1])));
    calls.push((OpCall::AddPermRoot { path: a.into(), gc_root: b.into() }, [string(a), string(b)].concat()));
    calls.push((OpCall::AddSignatures { path: a.into(), sigs: paths() }, [string(a), pq.clone()].concat()));
    calls.push((OpCall::AddTextToStore { suffix: a.into(), text: c.into(), refs: vec![] }, [string(a), string(c), set(&[])].concat()));
    if from(25) {
        calls.push((
            OpCall::AddToStore { name: a.into(), cam_str: c.into(), refs: paths(), repair: true, data: payload.clone() },
            [string(a), string(c), pq.clone(), numbers(&[1]), chunks.clone()].concat(),
        ));
    }
    calls.push((
        OpCall::AddMultipleToStore { repair: true, dont_check_sigs: false, data: payload.clone() },
        [numbers(&[1, 0]), chunks.clone()].concat(),
    ));
    calls.push((OpCall::AddBuildLog { path: b.into(), data: vec![] }, [string(b), framed(&[])].concat()));
    calls.push((OpCall::QueryRealisation { value: a.into() }, string(a)));
    calls.push((OpCall::QuerySubstitutablePathInfo { path: a.into() }, string(a)));
    calls.push(if mode == Mode::Published && from(22) {
        let pairs = vec![(a.into(), b.into()), (b.into(), c.into())];
        (OpCall::QuerySubstitutablePairs { pairs }, [numbers(&[2]), string(a), string(b), string(b), string(c)].concat())
    } else {
        (OpCall::QuerySubstitutablePathInfos { paths: paths() }, pq)
    });
    calls.push(if mode == Mode::Published && !from(31) {
        (OpCall::RegisterDrvOutputOld { id: a.into(), path: c.into() }, [string(a), string(c)].concat())
    } else {
        (OpCall::RegisterDrvOutput { value: a.into() }, string(a))
    });
    calls
}

/// What the library reads from zeros: a call of that operation with everything 0 or empty.
fn of_zeros(mode: Mode, op: u64, version: Version) -> Result<Option<OpCall>, Refusal> {
    read_op_args(mode, op, version, &[0; 256]).map(|(call, _)| call)
}

/// Each mode at each version.
fn every_gate() -> impl Iterator<Item = (Mode, Version)> {
    MODES.into_iter().flat_map(|mode| VERSIONS.map(|version| (mode, version)))
}

#[test]
fn every_operation_at_every_gate() {
    for (mode, version) in every_gate() {
        let mut written = Vec::new();
        for (call, expected) in calls(mode, version) {
            let op = call.op();
            let arguments = write_op_args(mode, &call, version).unwrap_or_else(|refusal| panic!("{call:?}, {mode:?} at {version}: {refusal}"));
            assert!(arguments == expected, "operation {op}, {mode:?} at {version}");
            let longer = [&arguments[..], b"more"].concat();
            assert!(read_op_args(mode, op, version, &longer) == Ok((Some(call), arguments.len())), "operation {op}, {mode:?} at {version}");
            written.push(op);
        }
        written.sort();
        let known: Vec<u64> = (0..=100).filter(|&op| matches!(of_zeros(mode, op, version), Ok(Some(_)))).collect();
        assert_eq!(written, known, "{mode:?} at {version}");
    }
}

/// A call that names an operation is written exactly where that operation has its kind.
#[test]
fn another_kind_is_refused() {
    let kinds: [fn(u64) -> OpCall; 6] = [
        |op| OpCall::SinglePath { op, path: String::new() },
        |op| OpCall::SingleString { op, value: String::new() },
        |op| OpCall::PathSet { op, paths: vec![] },
        |op| OpCall::PathSetFlag { op, paths: vec![], substitute: false },
        |op| OpCall::PathSetMode { op, paths: vec![], mode: 0 },
        |op| OpCall::NoArgs { op },
    ];
    let mut refusals = [0; 15];
    for (mode, version) in every_gate() {
        for op in 0..=48 {
            for call in kinds.map(|kind| kind(op)) {
                let expected = match of_zeros(mode, op, version) {
                    Ok(Some(known)) if known == call => Ok(()),
                    Ok(Some(_)) => Err(refused(14, 0)),
                    Ok(None) => Err(refused(13, 0)),
                    Err(refusal) => Err(refusal),
                };
                assert_eq!(write_op_args(mode, &call, version).map(|_| ()), expected, "{call:?}, {mode:?} at {version}");
                refusals[expected.map_or_else(|refusal| refusal.number as usize, |_| 0)] += 1;
            }
        }
    }
    assert!([0, 9, 13, 14].iter().all(|&number| refusals[number] > 0), "{refusals:?}");
}

/// A set is never written where pairs are read, nor one string where two are; nor the other way round, also where there is nothing to be seen in the bytes.
#[test]
fn what_the_mode_lacks_is_refused() {
    let text = |length: usize| "p".repeat(length);
    let mut calls = Vec::new();
    for count in 0..=4 {
        calls.push(OpCall::QuerySubstitutablePathInfos { paths: (0..count).map(text).collect() });
        calls.push(OpCall::QuerySubstitutablePairs { pairs: (0..count).map(|length| (text(length), String::new())).collect() });
        calls.push(OpCall::RegisterDrvOutput { value: text(count) });
        calls.push(OpCall::RegisterDrvOutputOld { id: text(count), path: text(4 - count) });
    }
    for (mode, version) in every_gate() {
        for call in &calls {
            let pairs = mode == Mode::Published && version >= Version::new(1, 22);
            let old = mode == Mode::Published && version < Version::new(1, 31);
            let there = match call {
                OpCall::QuerySubstitutablePathInfos { .. } => !pairs,
                OpCall::QuerySubstitutablePairs { .. } => pairs,
                OpCall::RegisterDrvOutput { .. } => !old,
                _ => old,
            };
            match write_op_args(mode, call, version) {
                Ok(arguments) => {
                    assert!(there, "{call:?}, {mode:?} at {version}");
                    assert_eq!(read_op_args(mode, call.op(), version, &arguments), Ok((Some(call.clone()), arguments.len())));
                }
                Err(refusal) => assert_eq!((refusal, there), (refused(14, 0), false), "{call:?}, {mode:?} at {version}"),
            }
        }
    }
}

#[test]
fn what_the_version_lacks_is_refused() {
    let no_options = || OpCall::SetOptions {
        keep_failed: 0,
        keep_going: 0,
        try_fallback: 0,
        verbosity: 0,
        max_build_jobs: 0,
        max_silent_time: 0,
        use_build_hook: 0,
        verbose_build: 0,
        log_type: 0,
        print_build_trace: 0,
        build_cores: 0,
        use_substitutes: 0,
        overrides: vec![],
    };
    let with = |set: fn(&mut u64, &mut u64, &mut Vec<(String, String)>)| {
        let mut call = no_options();
        if let OpCall::SetOptions { build_cores, use_substitutes, overrides, .. } = &mut call {
            set(build_cores, use_substitutes, overrides);
        }
        call
    };
    let cases = [
        (10, with(|cores, _, _| *cores = 1)),
        (12, with(|_, substitutes, _| *substitutes = 1)),
        (12, with(|_, _, overrides| overrides.push(Default::default()))),
        (27, OpCall::PathSetFlag { op: 31, paths: vec![], substitute: true }),
    ];
    for (minor, call) in cases {
        assert!(write_op_args(Mode::Published, &call, Version::new(1, minor)).is_ok(), "{call:?}");
        assert_eq!(write_op_args(Mode::Published, &call, Version::new(1, minor - 1)), Err(refused(14, 0)), "{call:?}");
    }
    assert_eq!(write_op_args(Mode::Published, &no_options(), OLD), Ok(vec![0; 80]));
    let added = OpCall::AddToStore { name: "n".into(), cam_str: String::new(), refs: vec![], repair: false, data: vec![] };
    assert_eq!(write_op_args(Mode::Published, &added, Version::new(1, 24)), Err(refused(13, 0)));
}

/// A record of numbers by their slots, 12 to 14 for the counts.
fn record(slots: &[(usize, u64)]) -> Vec<u8> {
    let mut record = [0; 15];
    slots.iter().for_each(|&(slot, number)| record[slot] = number);
    numbers(&record)
}

const COUNT: usize = 12;

/// What the library says at 1.38, which is the same in both modes but for operation 30.
fn written(op: u64, record: &[u8], bytes: &[u8], entries: &[u8], payload: &[u8], room: usize) -> Result<Vec<u8>, Refusal> {
    let [ported, published] = MODES.map(|mode| written_in(mode, op, record, bytes, entries, payload, room));
    assert_eq!(ported, published, "operation {op}");
    published
}

/// What the library says in a mode, and that it writes all that it reports and nothing else.
fn written_in(mode: Mode, op: u64, record: &[u8], bytes: &[u8], entries: &[u8], payload: &[u8], room: usize) -> Result<Vec<u8>, Refusal> {
    let mut out = vec![0xa5; room];
    let lengths =
        raw::write_op_args(mode, op, NEW, record, bytes, entries, payload, &mut out).map(|answer| (answer.end, answer.payload.len(), answer.kind));
    match lengths {
        Ok((end, length, kind)) => {
            assert_eq!((length, kind), (end, 0));
            assert!(out[end..].iter().all(|&byte| byte == 0xa5), "bytes beyond the output");
            out.truncate(end);
            Ok(out)
        }
        Err(refusal) => {
            assert!(out.iter().all(|&byte| byte == 0xa5), "refusal {} changed the output", refusal.number);
            Err(refusal)
        }
    }
}

#[test]
fn refusals_come_in_their_order() {
    let (text, bad) = (&b"abcd"[..], &b"ab\xffd"[..]);
    let (good, past, whole) = (numbers(&[0, 2]), numbers(&[3, 2]), numbers(&[0, 4]));
    let nothing = &[][..];
    // All at once that can be wrong, then without what the last refusal was for.
    let wrong = record(&[(0, 2), (COUNT, 5)]);
    assert_eq!(written(48, &wrong, bad, &past, text, 0), Err(refused(9, 0)));
    assert_eq!(written(u64::MAX, &wrong, bad, &past, text, 0), Err(refused(9, 0)));
    assert_eq!(written(36, &wrong, bad, &past, text, 0), Err(refused(13, 0)));
    assert_eq!(written(39, nothing, nothing, nothing, nothing, 0), Err(refused(13, 0)));
    assert_eq!(written(7, &wrong, bad, &past, text, 0), Err(refused(14, 0)));
    let flag_of_1 = record(&[(0, 1), (COUNT, 5)]);
    assert_eq!(written(7, &flag_of_1, bad, nothing, text, 0), Err(refused(11, 0)));
    let three = [&whole[..], &past, &good].concat();
    assert_eq!(written(7, &flag_of_1, bad, &three, text, 0), Err(refused(11, 5)));
    let one_of_set = record(&[(0, 1), (COUNT, 1)]);
    assert_eq!(written(7, &one_of_set, bad, &three, text, 0), Err(refused(3, 0)));
    assert_eq!(written(7, &one_of_set, text, &three, text, 0), Err(refused(12, 1)));
    let three = [&whole[..], &good, &whole].concat();
    assert_eq!(written(7, &one_of_set, bad, &[&good[..], &three[..32]].concat(), text, 0), Err(refused(3, 1)));
    let expected = [string("abcd"), string("ab"), set(&["abcd"]), numbers(&[1]), framed(&[b"abcd"])].concat();
    assert_eq!(written(7, &one_of_set, text, &three, text, expected.len() - 1), Err(refused(10, 0)));
    assert_eq!(written(7, &one_of_set, text, &three, text, expected.len()), Ok(expected.clone()));
    assert_eq!(written(7, &one_of_set, text, &three, text, expected.len() + 9), Ok(expected));
}

/// Each number, count and payload that an operation has no field for is refused; a flag takes 0 and 1 only.
#[test]
fn numbers_that_no_field_takes() {
    let taken: [(u64, &[usize]); 7] = [
        (1, &[]),
        (13, &[]),
        (31, &[0, COUNT]),
        (9, &[0, COUNT]),
        (35, &[0, 1]),
        (20, &[0, 1, 2, COUNT]),
        (19, &[0, 1, 2, 3, 4, 5, 6, 7, 8, 9, 10, 11, COUNT]),
    ];
    let entries = numbers(&[0; 4]);
    for (op, slots) in taken {
        for slot in 0..15 {
            let answer = written(op, &record(&[(slot, 1)]), &[], &entries, &[], 512);
            assert_eq!(answer.is_ok(), slots.contains(&slot), "operation {op}, slot {slot}: {answer:?}");
            assert!(answer.is_ok() || answer == Err(refused(14, 0)));
        }
        assert_eq!(written(op, &[], &[], &entries, b"p", 512), Err(refused(14, 0)), "payload of operation {op}");
    }
    for (op, slot) in [(7, 0), (31, 0), (35, 0), (35, 1), (44, 0), (44, 1)] {
        assert!(written(op, &record(&[(slot, 1)]), &[], &entries, &[], 512).is_ok());
        for number in [2, 256, 1 << 63, u64::MAX] {
            assert_eq!(written(op, &record(&[(slot, number)]), &[], &entries, &[], 512), Err(refused(14, 0)), "operation {op}, flag {number}");
        }
    }
    assert!(written(9, &record(&[(0, u64::MAX)]), &[], &[], &[], 512).is_ok(), "a mode is any number");
}

#[test]
fn any_count_is_an_input() {
    let entries = numbers(&[0; 8]);
    for op in [9, 20, 30, 31, 32, 40, 46] {
        assert_eq!(written(op, &record(&[(COUNT, 5)]), &[], &entries, &[], 512), Err(refused(11, 5)));
        assert_eq!(written(op, &record(&[(COUNT, u64::MAX)]), &[], &entries, &[], 512), Err(refused(11, usize::MAX)));
    }
    // A single string stands before these sets.
    assert_eq!(written(37, &record(&[(COUNT, 4)]), &[], &entries, &[], 512), Err(refused(11, 4)));
    assert_eq!(written(37, &record(&[(COUNT, u64::MAX)]), &[], &entries, &[], 512), Err(refused(11, usize::MAX)));
    assert_eq!(written(37, &record(&[(COUNT, 3)]), &[], &entries, &[], 512), Ok([string(""), set(&["", "", ""])].concat()));
    // Pairs take two entries each; of 2^63 of them the double is 2^64.
    assert_eq!(written(19, &record(&[(COUNT, 2)]), &[], &entries, &[], 512), Ok([numbers(&[0; 12]), numbers(&[2, 0, 0, 0, 0])].concat()));
    let written_30 = |mode, count| written_in(mode, 30, &record(&[(COUNT, count)]), &[], &entries, &[], 512);
    assert_eq!(written_30(Mode::Ported, 4), Ok(numbers(&[4, 0, 0, 0, 0])));
    assert_eq!(written_30(Mode::Published, 2), Ok(numbers(&[2, 0, 0, 0, 0])));
    for pairs in [3, (1 << 63) - 1, 1 << 63, (1 << 63) + 1, u64::MAX] {
        assert_eq!(written(19, &record(&[(COUNT, pairs)]), &[], &entries, &[], 512), Err(refused(11, pairs as usize)));
        assert_eq!(written_30(Mode::Published, pairs), Err(refused(11, pairs as usize)));
    }
}

#[test]
fn a_record_that_is_cut_or_longer() {
    let whole = record(&[(0, 0x0807060504030201), (1, u64::MAX), (2, 3)]);
    let written_of = |record: &[u8]| written(20, record, &[], &[], &[], 512).unwrap();
    let expected = |action, liveness, freed| numbers(&[action, 0, liveness, freed, 0, 0, 0]);
    assert_eq!(written_of(&whole), expected(0x0807060504030201, u64::MAX, 3));
    for length in 0..=whole.len() {
        let mut padded = whole[..length].to_vec();
        padded.resize(120, 0);
        assert_eq!(written_of(&whole[..length]), written_of(&padded), "{length} bytes");
    }
    assert_eq!(written_of(&whole[..3]), expected(0x030201, 0, 0));
    assert_eq!(written_of(&whole[..15]), expected(0x0807060504030201, u64::MAX >> 8, 0));
    assert_eq!(written_of(&[&whole[..], &[0xff; 80]].concat()), written_of(&whole));
    assert_eq!(written(13, &[], &[], &[], &[], 0), Ok(vec![]));
}

#[test]
fn entries_that_are_not_used() {
    let beyond = numbers(&[0, 2, u64::MAX, 1]);
    assert_eq!(written(1, &[], b"ab", &beyond, &[], 512), Ok(string("ab")));
    assert_eq!(written(1, &[], b"ab", &beyond[..31], &[], 512), Ok(string("ab")));
    assert_eq!(written(1, &[], b"ab", &beyond[..15], &[], 512), Err(refused(11, 0)), "a part of an entry is no slot");
    assert_eq!(written(47, &[], b"ab", &beyond[..31], &[], 512), Err(refused(11, 0)));
    assert_eq!(written(47, &[], b"ab", &beyond, &[], 512), Err(refused(12, 1)));
    assert_eq!(written(1, &[], b"ab", &numbers(&[3, 0]), &[], 512), Err(refused(12, 0)));
    assert_eq!(written(1, &[], b"ab", &numbers(&[2, 0]), &[], 512), Ok(string("")));
}

#[test]
fn what_was_read_is_written_from_its_own_record() {
    for (mode, version) in every_gate() {
        for (call, stream) in calls(mode, version) {
            let op = call.op();
            let (mut entries, mut payload) = ([0; 16 * raw::ENTRY], vec![0; 70_000]);
            let answer = raw::read_op_args(mode, op, version, &stream, &mut entries, &mut payload).unwrap();
            let mut out = vec![0; stream.len()];
            let end =
                raw::write_op_args(mode, op, version, &answer.record(), &stream, answer.entries.as_bytes(), answer.payload, &mut out).unwrap().end;
            assert!(out == stream && end == stream.len(), "operation {op}, {mode:?} at {version}");
        }
    }
}
