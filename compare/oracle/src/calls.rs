//! Calls to be written, and what nix-wire's own writers make of them. It has writers of numbers, strings and sets, and none of a whole call.
use crate::dice::Dice;
use crate::handshake::ProtocolVersion;
use crate::line::Line;
use crate::ops::Op;
use crate::protocol;
use crate::reader::{over, run};
use crate::request::Request;
use crate::script::{FramedData, OpCall};
use crate::stream::Stream;
use crate::{conversation, layouts, published, tables, wire};
use anyhow::Result;

const READ_OP_ARGS: u64 = 1;

const WITH_FRAMED_DATA: [u64; 3] = [7, 44, 45];

/// Around one chunk of ours, and around two.
const PAYLOADS: [usize; 8] = [0, 1, 9, 32767, 32768, 32769, 65536, 100000];

/// Arguments to be read, of every operation at every version in turn, without end.
pub fn streams(seed: u64, is_published: bool) -> impl Iterator<Item = Request> {
    let mut dice = Dice::new(seed);
    let each: Vec<_> = layouts::OPERATIONS.into_iter().flat_map(|op| layouts::versions().into_iter().map(move |v| (op, v))).collect();
    each.into_iter().cycle().map(move |(operation, (major, minor))| {
        let q = Request { call: READ_OP_ARGS, is_published, operation, major, minor, ..Request::default() };
        Request { a: stream(&mut dice, &q), ..q }
    })
}

fn stream(dice: &mut Dice, q: &Request) -> Vec<u8> {
    let (operation, v) = (q.operation, (q.major, q.minor));
    let mut s = Stream::new(dice, true);
    match published::alike(q) {
        Some(a) => tables::fill(&mut s, a.call, a.op as u64, v),
        None => layouts::arguments(&mut s, operation, v, true),
    }
    if WITH_FRAMED_DATA.contains(&operation) {
        let n = if s.dice.one_in(4) { s.dice.pick(&PAYLOADS) } else { s.dice.below(40) };
        if n > 0 {
            s.chunk(n);
        }
        s.put(0);
    }
    s.bytes
}

/// The call that a stream of arguments has, by nix-wire's writers; None where it has none.
pub fn written(q: &Request) -> Result<Option<Vec<u8>>> {
    let mut out = Vec::new();
    if let Some(a) = published::alike(q) {
        return otherwise(&mut out, published::read(q, a)?).map(|()| Some(out));
    }
    let op = Op::from_u64(q.operation).expect("an operation");
    let call = run(protocol::read_op_args(op, q.version(), &mut over(&q.a)))?;
    Ok(match call {
        Some(call) => write(&mut out, call, q.version()).map(|()| Some(out))?,
        None => None,
    })
}

fn write(out: &mut Vec<u8>, call: OpCall, v: ProtocolVersion) -> Result<()> {
    match call {
        OpCall::NoArgs { .. } => Ok(()),
        OpCall::SinglePath { path: s, .. }
        | OpCall::SingleString { value: s, .. }
        | OpCall::RegisterDrvOutput { value: s }
        | OpCall::QueryRealisation { value: s }
        | OpCall::QuerySubstitutablePathInfo { path: s } => strings(out, &[s]),
        OpCall::PathSet { paths, .. } | OpCall::QuerySubstitutablePathInfos { paths } => set(out, &paths),
        OpCall::PathSetFlag { paths, substitute, .. } => {
            set(out, &paths)?;
            if v >= ProtocolVersion::new(1, 27) {
                numbers(out, &[substitute.into()])?;
            }
            Ok(())
        }
        OpCall::PathSetMode { paths, mode, .. } => {
            set(out, &paths)?;
            numbers(out, &[conversation::mode_number(&mode)])
        }
        options @ OpCall::SetOptions { .. } => set_options(out, options, v),
        OpCall::CollectGarbage { action, paths, ignore_liveness, max_freed } => {
            numbers(out, &[action])?;
            set(out, &paths)?;
            numbers(out, &[ignore_liveness, max_freed, 0, 0, 0])
        }
        OpCall::VerifyStore { check_contents, repair } => numbers(out, &[check_contents.into(), repair.into()]),
        OpCall::AddPermRoot { path, gc_root } => strings(out, &[path, gc_root]),
        OpCall::AddSignatures { path, sigs } => {
            strings(out, &[path])?;
            set(out, &sigs)
        }
        OpCall::AddTextToStore { suffix, text, refs } => {
            strings(out, &[suffix, text])?;
            set(out, &refs)
        }
        OpCall::AddToStore { name, cam_str, refs, repair, data } => {
            strings(out, &[name, cam_str])?;
            set(out, &refs)?;
            numbers(out, &[repair.into()])?;
            framed(out, data)
        }
        OpCall::AddMultipleToStore { repair, dont_check_sigs, data } => {
            numbers(out, &[repair.into(), dont_check_sigs.into()])?;
            framed(out, data)
        }
        OpCall::AddBuildLog { path, data } => {
            strings(out, &[path])?;
            framed(out, data)
        }
        OpCall::RawBytes { .. } => unreachable!("no reader answers raw bytes"),
    }
}

fn set_options(out: &mut Vec<u8>, call: OpCall, v: ProtocolVersion) -> Result<()> {
    let line = conversation::set_options(call);
    let there = if v >= ProtocolVersion::new(1, 12) {
        12
    } else if v >= ProtocolVersion::new(1, 10) {
        11
    } else {
        10
    };
    numbers(out, &line.numbers[..there])?;
    if there < 12 {
        return Ok(());
    }
    numbers(out, &line.counts[..1])?;
    texts(out, line.strings)
}

// What published mode reads otherwise: pairs behind their count, or two strings.
fn otherwise(out: &mut Vec<u8>, line: Line) -> Result<()> {
    if line.kind == published::PAIRS {
        numbers(out, &line.counts[..1])?;
    }
    texts(out, line.strings)
}

fn texts(out: &mut Vec<u8>, texts: Vec<Vec<u8>>) -> Result<()> {
    strings(out, &texts.into_iter().map(String::from_utf8).collect::<Result<Vec<_>, _>>()?)
}

fn numbers(out: &mut Vec<u8>, numbers: &[u64]) -> Result<()> {
    numbers.iter().try_for_each(|&n| Ok(wire::write_u64(out, n)?))
}

fn strings(out: &mut Vec<u8>, strings: &[String]) -> Result<()> {
    strings.iter().try_for_each(|s| Ok(wire::write_string(out, s)?))
}

fn set(out: &mut Vec<u8>, strings: &[String]) -> Result<()> {
    Ok(wire::write_string_set(out, strings)?)
}

// In chunks of ours: those of nix-wire have 65536 bytes.
fn framed(out: &mut Vec<u8>, data: FramedData) -> Result<()> {
    for chunk in conversation::inline(data).chunks(32768) {
        numbers(out, &[chunk.len() as u64])?;
        out.extend(chunk);
    }
    numbers(out, &[0])
}
