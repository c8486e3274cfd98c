//! Calls 1 to 8, nix-wire's protocol.rs: how its answers become kind, numbers, counts and strings.
use crate::line::{Answer, Line};
use crate::ops::Op;
use crate::protocol::{self, HandshakeInfo, StderrResult};
use crate::reader::{over, position, run};
use crate::request::Request;
use crate::script::{ErrorInfo, FramedData, OpCall, PathInfoResult, ResultData};
use anyhow::Result;

pub fn answer(q: &Request) -> Answer {
    match q.call {
        5 => read_stderr_loop(q).into(),
        6 => read_stderr_with_error(q).into(),
        7 => parse_handshake(q).into(),
        8 => parse_daemon_handshake(q).into(),
        _ => match Op::from_u64(q.operation) {
            None => Answer::Out,
            Some(op) => with_operation(q, op).into(),
        },
    }
}

pub fn with_operation(q: &Request, op: Op) -> Result<Line> {
    let r = &mut over(&q.a);
    let line = match q.call {
        1 => arguments(run(protocol::read_op_args(op, q.version(), r))?),
        2 => skipped_arguments(op, run(protocol::skip_op_args(op, q.version(), r))?),
        3 => reply(run(protocol::read_daemon_result(op, q.version(), r))?),
        _ => run(protocol::skip_daemon_result(op, q.version(), r)).map(|()| Line::default())?,
    };
    Ok(line.ending(position(r)))
}

pub fn inline(data: FramedData) -> Vec<u8> {
    match data {
        FramedData::Inline(bytes) => bytes,
        FramedData::FileRef(_) => unreachable!("no reader answers a file"),
    }
}

pub fn mode_number(mode: &str) -> u64 {
    match mode {
        "normal" => 0,
        "repair" => 1,
        "check" => 2,
        _ => mode.parse().expect("a mode without a name is a decimal"),
    }
}

fn arguments(call: Option<OpCall>) -> Line {
    let Some(call) = call else {
        return Line::of_kind(0);
    };
    match call {
        OpCall::SinglePath { path, .. } => Line::of_kind(1).string(path),
        OpCall::SingleString { value, .. } => Line::of_kind(2).string(value),
        OpCall::PathSet { paths, .. } => Line::of_kind(3).set(0, paths),
        OpCall::PathSetFlag { paths, substitute, .. } => Line::of_kind(4).set(0, paths).numbers(&[substitute as u64]),
        OpCall::PathSetMode { paths, mode, .. } => Line::of_kind(5).set(0, paths).numbers(&[mode_number(&mode)]),
        OpCall::NoArgs { .. } => Line::of_kind(6),
        options @ OpCall::SetOptions { .. } => set_options(options),
        OpCall::CollectGarbage { action, paths, ignore_liveness, max_freed } => {
            Line::of_kind(8).set(0, paths).numbers(&[action, ignore_liveness, max_freed])
        }
        OpCall::VerifyStore { check_contents, repair } => Line::of_kind(9).numbers(&[check_contents as u64, repair as u64]),
        OpCall::AddPermRoot { path, gc_root } => Line::of_kind(10).string(path).string(gc_root),
        OpCall::AddSignatures { path, sigs } => Line::of_kind(11).string(path).set(0, sigs),
        OpCall::AddTextToStore { suffix, text, refs } => Line::of_kind(12).string(suffix).string(text).set(0, refs),
        OpCall::AddToStore { name, cam_str, refs, repair, data } => {
            Line::of_kind(13).string(name).string(cam_str).set(0, refs).numbers(&[repair as u64]).payload(inline(data))
        }
        OpCall::AddMultipleToStore { repair, dont_check_sigs, data } => {
            Line::of_kind(14).numbers(&[repair as u64, dont_check_sigs as u64]).payload(inline(data))
        }
        OpCall::AddBuildLog { path, data } => Line::of_kind(15).string(path).payload(inline(data)),
        OpCall::RegisterDrvOutput { value } => Line::of_kind(16).string(value),
        OpCall::QueryRealisation { value } => Line::of_kind(17).string(value),
        OpCall::QuerySubstitutablePathInfo { path } => Line::of_kind(18).string(path),
        OpCall::QuerySubstitutablePathInfos { paths } => Line::of_kind(19).set(0, paths),
        OpCall::RawBytes { .. } => unreachable!("no reader answers raw bytes"),
    }
}

pub fn set_options(call: OpCall) -> Line {
    let OpCall::SetOptions {
        keep_failed,
        keep_going,
        try_fallback,
        verbosity,
        max_build_jobs,
        max_silent_time,
        use_build_hook,
        verbose_build,
        log_type,
        print_build_trace,
        build_cores,
        use_substitutes,
        overrides,
    } = call
    else {
        unreachable!("called for SetOptions alone")
    };
    let numbers = [
        keep_failed,
        keep_going,
        try_fallback,
        verbosity,
        max_build_jobs,
        max_silent_time,
        use_build_hook,
        verbose_build,
        log_type,
        print_build_trace,
        build_cores,
        use_substitutes,
    ];
    Line::of_kind(7).numbers(&numbers).pairs(overrides)
}

// nix-wire answers all of this as one text; which of them it is goes by the operation.
fn skipped_arguments(op: Op, text: Option<String>) -> Line {
    let Some(text) = text else {
        return Line::of_kind(0);
    };
    let kind = match op {
        Op::BuildPaths
        | Op::BuildPathsWithResults
        | Op::QuerySubstitutablePathInfos
        | Op::QueryValidPaths
        | Op::QuerySubstitutablePaths
        | Op::QueryMissing => 3,
        Op::SetOptions if !text.is_empty() => 4,
        Op::SetOptions
        | Op::SyncWithGC
        | Op::FindRoots
        | Op::QueryAllValidPaths
        | Op::OptimiseStore
        | Op::AddMultipleToStore
        | Op::CollectGarbage
        | Op::VerifyStore
        | Op::AddPermRoot
        | Op::AddTextToStore => 1,
        _ => 2,
    };
    let count = match kind {
        3 | 4 => text.split(' ').next().and_then(|n| n.parse().ok()).expect("a count and a word"),
        _ => 0,
    };
    Line::of_kind(kind).numbers(&[count]).string(text)
}

fn path_info(info: PathInfoResult) -> Line {
    if !info.valid {
        return Line::of_kind(5);
    }
    let has = "there where the flag is true";
    let line = Line::of_kind(if info.sigs.is_some() { 3 } else { 4 })
        .string(info.deriver.expect(has))
        .string(info.nar_hash.expect(has))
        .set(0, info.references.expect(has))
        .numbers(&[info.registration_time.expect(has), info.nar_size.expect(has), info.ultimate.unwrap_or(false) as u64]);
    match (info.sigs, info.ca) {
        (Some(sigs), Some(ca)) => line.set(1, sigs).string(ca),
        _ => line,
    }
}

fn reply(data: ResultData) -> Line {
    match data {
        ResultData::None => Line::of_kind(0),
        ResultData::U64(x) => Line::of_kind(1).numbers(&[x]),
        ResultData::Str(s) => Line::of_kind(2).string(s),
        ResultData::PathInfo(info) => path_info(info),
        ResultData::StringSet(set) => Line::of_kind(6).set(0, set),
        ResultData::StringMap(pairs) => Line::of_kind(7).pairs(pairs),
        ResultData::CollectGarbage { bytes_freed } => Line::of_kind(8).numbers(&[bytes_freed]),
        ResultData::SubstitutablePathInfo {
            deriver: Some(deriver),
            refs: Some(refs),
            download_size: Some(download_size),
            nar_size: Some(nar_size),
            ..
        } => Line::of_kind(9).string(deriver).set(0, refs).numbers(&[download_size, nar_size]),
        ResultData::SubstitutablePathInfo { .. } => Line::of_kind(10),
        ResultData::Missing { will_build, will_substitute, unknown, download_size, nar_size } => {
            Line::of_kind(11).set(0, will_build).set(1, will_substitute).set(2, unknown).numbers(&[download_size, nar_size])
        }
        ResultData::Framed(data) => Line::of_kind(12).payload(data),
        ResultData::Raw(_) => unreachable!("no reader answers raw bytes"),
    }
}

pub fn stderr(result: StderrResult, error: Option<ErrorInfo>) -> Line {
    let terminal = result.terminal.map_or(0, |code| code as u64);
    match error {
        None => Line::default().numbers(&[result.count, terminal]),
        Some(e) => {
            let line = Line::default().numbers(&[result.count, terminal, e.level]);
            line.string(e.error_type).string(e.name).string(e.message)
        }
    }
}

fn read_stderr_loop(q: &Request) -> Result<Line> {
    let r = &mut over(&q.a);
    let result = run(protocol::read_stderr_loop(r))?;
    Ok(stderr(result, None).ending(position(r)))
}

fn read_stderr_with_error(q: &Request) -> Result<Line> {
    let r = &mut over(&q.a);
    let (result, error) = run(protocol::read_stderr_with_error(r))?;
    Ok(stderr(result, error).ending(position(r)))
}

fn handshake(info: HandshakeInfo) -> Line {
    let mut numbers = [0; 9];
    let versions = [info.client_version, info.server_version, info.negotiated_version];
    for (i, v) in versions.iter().enumerate() {
        numbers[2 * i] = v.major as u64;
        numbers[2 * i + 1] = v.minor as u64;
    }
    numbers[6] = info.daemon_nix_version.is_some() as u64;
    numbers[7] = info.trust_status.is_some() as u64;
    numbers[8] = info.trust_status.unwrap_or(0);
    let line = Line::default().numbers(&numbers).set(0, info.client_features).set(1, info.server_features);
    match info.daemon_nix_version {
        Some(s) => line.string(s),
        None => line,
    }
}

fn parse_handshake(q: &Request) -> Result<Line> {
    let (client, daemon) = (&mut over(&q.a), &mut over(&q.b));
    let info = run(protocol::parse_handshake(client, daemon))?;
    Ok(Line { end2: position(daemon), ..handshake(info).ending(position(client)) })
}

fn parse_daemon_handshake(q: &Request) -> Result<Line> {
    let daemon = &mut over(&q.b);
    let info = run(protocol::parse_daemon_handshake(daemon, q.version()))?;
    Ok(Line { end2: position(daemon), ..handshake(info) })
}
