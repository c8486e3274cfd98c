//! Recorded sessions between a Nix client and its daemon, read from the first byte of both streams to the last.
use lintelow::*;
use std::fs;
use std::path::Path;

fn streams(name: &str) -> (Vec<u8>, Vec<u8>) {
    let folder = Path::new(env!("CARGO_MANIFEST_DIR")).join("../../captures").join(name);
    let read = |file| fs::read(folder.join(file)).unwrap();
    (read("client.bin"), read("daemon.bin"))
}

/// A call's arguments, with its reply or error.
type Call = (Option<OpCall>, Result<ResultData, ErrorInfo>);

/// The handshake, then each call.
fn converse(client: &[u8], daemon: &[u8]) -> (HandshakeInfo, Vec<Call>) {
    let (info, said, answered) = parse_handshake(client, daemon).unwrap();
    let calls = calls(info.negotiated_version, &client[said..], &daemon[answered..]);
    (info, calls)
}

/// Each operation's arguments, as daemons read them, with its reply or error, until the client says no more.
fn calls(version: Version, client: &[u8], daemon: &[u8]) -> Vec<Call> {
    let (mut said, mut answered) = (0, 0);
    let mut calls = Vec::new();
    while said < client.len() {
        let op = u64::from_le_bytes(client[said..said + 8].try_into().unwrap());
        said += 8;
        let (call, length) = read_op_args(Mode::Published, op, version, &client[said..]).unwrap();
        said += length;

        let (stderr, error, length) = read_stderr_with_error(Mode::Published, version, &daemon[answered..]).unwrap();
        let (same, messages) = read_stderr_loop(&daemon[answered..]).unwrap();
        assert_eq!(same, stderr);
        answered += length;
        if let Some(error) = error {
            assert_eq!(stderr.terminal, Some(StderrCode::Error));
            calls.push((call, Err(error)));
            continue;
        }
        assert_eq!((stderr.terminal, messages), (Some(StderrCode::Last), length));
        let (reply, length) = read_daemon_result(op, version, &daemon[answered..]).unwrap();
        assert_eq!(skip_daemon_result(op, version, &daemon[answered..]), Ok(length));
        answered += length;
        calls.push((call, Ok(reply)));
    }
    assert_eq!((said, answered), (client.len(), daemon.len()));
    calls
}

#[test]
fn a_build_by_nix_2_26() {
    let (client, daemon) = streams("n226-nbuild-0");
    let (info, calls) = converse(&client, &daemon);
    assert_eq!(info.negotiated_version, Version::new(1, 38));
    assert_eq!(info.daemon_nix_version.as_deref(), Some("2.26.3"));
    assert_eq!(info.trust_status, Some(1));

    let [options, trivial, dep, missing, build] = &calls[..] else { panic!("{} calls", calls.len()) };
    let (Some(OpCall::SetOptions { build_cores, .. }), Ok(ResultData::None)) = options else { panic!("{options:?}") };
    assert_eq!(*build_cores, 2);

    let (Some(OpCall::AddToStore { name, cam_str, refs, repair: false, data }), Ok(ResultData::PathInfo(_))) = trivial else { panic!("{trivial:?}") };
    assert_eq!((name.as_str(), cam_str.as_str(), refs.len()), ("trivial.drv", "text:sha256", 0));
    assert!(data.starts_with(b"Derive([(\"out\",") && data.ends_with(b")])"));

    let path = "/nix/store/2baasz4qrckrzh2cizkgc23rr9j3kpgk-trivial.drv".to_string();
    let (Some(OpCall::AddToStore { refs, .. }), Ok(ResultData::PathInfo(info))) = dep else { panic!("{dep:?}") };
    assert_eq!((refs, &info.references), (&vec![path.clone()], &Some(vec![path.clone()])));
    assert_eq!(info.nar_hash.as_deref(), Some("d4f88d27b4588d6d2c85c390fc49046bf854d57ee89bc4ff4f25c1b08bd0196b"));

    let (Some(OpCall::PathSet { op: 40, paths }), Ok(ResultData::Missing { will_build, .. })) = missing else { panic!("{missing:?}") };
    assert_eq!((paths.len(), will_build.len()), (2, 0));

    let (Some(OpCall::PathSetMode { op: 46, paths, mode: 0 }), Ok(ResultData::None)) = build else { panic!("{build:?}") };
    assert_eq!(paths[0], path + "!out");
}

#[test]
fn path_infos_by_nix_2_8() {
    let (client, daemon) = streams("n28-nsign-0");
    let (info, calls) = converse(&client, &daemon);
    assert_eq!((info.negotiated_version, info.trust_status), (Version::new(1, 34), None));

    let (Some(OpCall::SinglePath { op: 26, path }), Ok(ResultData::PathInfo(info))) = &calls[3] else { panic!("{:?}", calls[3]) };
    assert_eq!(path, "/nix/store/fbgn7d2bp6zn5m870yisw5c8sx9ihmbq-trivial");
    assert!(info.valid);
    assert_eq!(info.deriver.as_deref(), Some("/nix/store/15hv9nmmgcn7il0dabpa3gmqxld60mgs-trivial.drv"));
    assert_eq!(info.references.as_deref(), Some(&[][..]));
    assert_eq!((info.ultimate, info.ca.as_deref()), (Some(true), Some("")));
}

/// From 1.22 on QuerySubstitutablePathInfos is asked by pairs, below it by a set.
#[test]
fn substitutes_by_nix_2_26_and_2_8() {
    let nope = "/nix/store/aaaaaaaaaaaaaaaaaaaaaaaaaaaaaaaa-nope";
    let (client, daemon) = streams("n226-mix2-2");
    let (info, calls) = converse(&client, &daemon);
    assert_eq!(info.negotiated_version, Version::new(1, 38));
    let pairs = vec![(nope.to_string(), String::new())];
    assert_eq!(calls[2], (Some(OpCall::QuerySubstitutablePairs { pairs }), Ok(ResultData::StringMap(vec![]))));
    // Its arguments are the last 72 bytes; the empty content address is left over where they are read as a set.
    let set = OpCall::QuerySubstitutablePathInfos { paths: vec![nope.to_string()] };
    assert_eq!(read_op_args(Mode::Ported, 30, info.negotiated_version, &client[288..]), Ok((Some(set), 64)));
    assert_eq!(skip_op_args(Mode::Ported, 30, info.negotiated_version, &client[288..]), Ok((SkippedArgs::Paths(1), 64)));
    assert_eq!(skip_op_args(Mode::Published, 30, info.negotiated_version, &client[288..]), Ok((SkippedArgs::Paths(1), 72)));

    let (client, daemon) = streams("n28-mix2-0");
    let (info, calls) = converse(&client, &daemon);
    assert_eq!(info.negotiated_version, Version::new(1, 18));
    let paths = vec!["/nix/store/pczmyy74v7nix6zir6hbarllxr5swa31-dep".to_string()];
    assert_eq!(calls[2].0, Some(OpCall::QuerySubstitutablePathInfos { paths }));
    for mode in [Mode::Ported, Mode::Published] {
        assert_eq!(read_op_args(mode, 30, info.negotiated_version, &client[296..]), Ok((calls[2].0.clone(), 64)));
    }
}

/// Below 1.31 RegisterDrvOutput has two strings.
#[test]
fn a_realisation_at_1_29() {
    let (client, daemon) = streams("n28c29-cacopyng-0");
    let (info, calls) = converse(&client, &daemon);
    assert_eq!(info.negotiated_version, Version::new(1, 29));
    let id = "sha256:ae4772cfcc6fdc6cdd82506a52c6a68aced109969728e183ec5c64f1d2faa1ff!out";
    let old = OpCall::RegisterDrvOutputOld { id: id.into(), path: "ajfb0lab79m6lk7ch0qaw1y5sqrxqnpw-cadep".into() };
    assert_eq!(calls[1], (Some(old), Ok(ResultData::None)));
    // Its arguments are the last 136 bytes; the second string is left over where they are read as one.
    let one = OpCall::RegisterDrvOutput { value: id.into() };
    assert_eq!(read_op_args(Mode::Ported, 42, info.negotiated_version, &client[184..]), Ok((Some(one), 88)));
    assert_eq!(skip_op_args(Mode::Ported, 42, info.negotiated_version, &client[184..]), Ok((SkippedArgs::Str(id), 88)));
    assert_eq!(skip_op_args(Mode::Published, 42, info.negotiated_version, &client[184..]), Ok((SkippedArgs::Str(id), 136)));
}

/// The last calls of two sessions: EnsurePath, which failed, and then IsValidPath. An error has traces from 1.26 on, here none, and below it an exit status.
#[test]
fn a_call_behind_a_failed_one() {
    let nope = OpCall::SinglePath { op: 10, path: "/nix/store/aaaaaaaaaaaaaaaaaaaaaaaaaaaaaaaa-nope".into() };
    let message = "path '\u{1b}[35;1m/nix/store/aaaaaaaaaaaaaaaaaaaaaaaaaaaaaaaa-nope\u{1b}[0m' does not exist and cannot be created".to_string();

    let (client, daemon) = streams("hand226c38-0");
    let (info, all) = converse(&client, &daemon);
    assert_eq!((info.negotiated_version, all.len()), (Version::new(1, 38), 16));
    let error = ErrorInfo { error_type: "Error".into(), level: 0, name: "Error".into(), message: message.clone(), traces: vec![], exit_status: None };
    assert_eq!(all[14], (Some(nope.clone()), Err(error)));
    let path = "/nix/store/a92k5pcs1fmsyvn01awc96f491vw3in5-dir-n22625322".to_string();
    assert_eq!(all[15], (Some(OpCall::SinglePath { op: 1, path }), Ok(ResultData::U64(1))));

    // Read from behind ExportPath on, the last of four operations that nix-wire does not have.
    let (client, daemon) = streams("hand28c25-0");
    let (info, ..) = parse_handshake(&client, &daemon).unwrap();
    assert_eq!(info.negotiated_version, Version::new(1, 25));
    let last = calls(info.negotiated_version, &client[976..], &daemon[75416..]);
    assert_eq!(last.len(), 6);
    let message = format!("\u{1b}[31;1merror:\u{1b}[0m {message}");
    assert_eq!(last[4], (Some(nope), Err(ErrorInfo { message, exit_status: Some(1), ..ErrorInfo::default() })));
    let path = "/nix/store/sxi4ny54fanz1nzrmmkhxlg9xs4071rc-dir-n2813000".to_string();
    assert_eq!(last[5], (Some(OpCall::SinglePath { op: 1, path }), Ok(ResultData::U64(1))));
}

/// Builds that failed: their errors are the last bytes of these sessions.
#[test]
fn errors_of_failed_builds() {
    let failed = |name| {
        let (client, daemon) = streams(name);
        let (_, mut calls) = converse(&client, &daemon);
        let (call, outcome) = calls.pop().unwrap();
        assert_eq!((calls.len(), call.unwrap().op()), (4, 9), "{name}");
        outcome.unwrap_err()
    };
    let old = failed("n23-fail-0");
    assert_eq!((old.error_type.as_str(), old.level, old.name.as_str(), old.traces.len(), old.exit_status), ("", 0, "", 0, Some(100)));
    assert_eq!(old.message, "build of '/nix/store/03yhn687mgbskc6sxiwh3g20m9bdh1wy-fail.drv' failed");

    let without = failed("n28-fail-0");
    assert_eq!((without.error_type.as_str(), without.level, without.name.as_str()), ("Error", 0, "Error"));
    assert_eq!((without.traces.len(), without.exit_status), (0, None));
    assert!(without.message.starts_with("builder for '") && without.message.contains("es geht schief: ü"), "{}", without.message);

    let with = failed("tr28-trace1-0");
    assert_eq!((with.traces, with.exit_status), (vec!["while setting up the build environment".to_string()], None));
    assert!(with.message.contains("/nonexistent-ö"), "{}", with.message);
}

/// nix-wire ends these blocks at another byte, or does not read them.
#[test]
fn errors_of_failed_builds_as_nix_wire_reads_them() {
    let read = |mode, minor, name, start: usize| {
        let (_, daemon) = streams(name);
        let read = read_stderr_with_error(mode, Version::new(1, minor), &daemon[start..]);
        read.map(|(.., end)| start + end).map_err(|refusal| (refusal.number, start + refusal.place))
    };
    for (name, minor, start, ported, published) in [
        ("n23-fail-0", 21, 536, Err((1, 2496)), Ok(2496)),
        ("n28-fail-0", 34, 744, Ok(2736), Ok(2744)),
        ("tr28-trace1-0", 34, 744, Ok(1552), Ok(1616)),
        // A message that is no text, in either mode.
        ("fb28cmax-nb-0", 34, 744, Err((3, 2550)), Err((3, 2550))),
        ("hand226c38-0", 38, 984, Ok(1480), Ok(1488)),
        // The exit status is taken for the level, and the next call's Last for the length of a name.
        ("hand28c25-0", 25, 75744, Err((2, 76224)), Ok(76224)),
    ] {
        assert_eq!(read(Mode::Ported, minor, name, start), ported, "{name}");
        assert_eq!(read(Mode::Published, minor, name, start), published, "{name}");
    }
}

#[test]
fn a_handshake_cut_anywhere_is_refused() {
    let (client, daemon) = streams("n226-nbuild-0");
    let (info, client_end, daemon_end) = parse_handshake(&client, &daemon).unwrap();
    for length in 0..daemon_end {
        let refusal = parse_handshake(&client, &daemon[..length]).unwrap_err();
        assert_eq!((refusal.number, refusal.stream), (1, 1));
        assert!(refusal.place <= length);
    }
    for length in 0..client_end {
        let refusal = parse_handshake(&client[..length], &daemon).unwrap_err();
        assert_eq!((refusal.number, refusal.stream), (1, 0));
    }
    assert_eq!(parse_handshake(&client[..client_end], &daemon[..daemon_end]), Ok((info, client_end, daemon_end)));
}
