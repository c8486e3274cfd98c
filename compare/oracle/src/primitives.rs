//! Calls 9 to 33: nix-wire's wire_async.rs and wire.rs, and the small modules.
use crate::handshake::ProtocolVersion;
use crate::line::{Answer, Line};
use crate::ops::Op;
use crate::reader::{over, position, run};
use crate::request::Request;
use crate::script::OpCall;
use crate::{protocol, wire};
use anyhow::{Context, Result};

pub fn read(q: &Request) -> Answer {
    read_call(q).into()
}

fn read_call(q: &Request) -> Result<Line> {
    let r = &mut over(&q.a);
    let number = |x: u64| Line::default().numbers(&[x]);
    let line = match q.call {
        9 => number(run(r.read_u64())?),
        10 => number(run(r.read_u32())?.into()),
        11 => Line { strings: vec![run(r.read_bytes())?], ..Line::default() },
        12 => Line::default().string(run(r.read_string())?),
        13 => run(r.skip_string()).map(|()| Line::default())?,
        14 => Line::default().set(0, run(r.read_string_set())?),
        15 => number(run(r.skip_string_set())?),
        16 => run(r.read_framed()).map(|p| number(p.len() as u64).payload(p))?,
        17 => number(run(r.skip_framed())?),
        _ => match run(r.peek_u64())? {
            Some(x) => Line::of_kind(1).numbers(&[x]),
            None => Line::of_kind(0),
        },
    };
    Ok(line.ending(position(r)))
}

pub fn write(q: &Request) -> Answer {
    write_call(q).map(Line::written).into()
}

fn write_call(q: &Request) -> Result<Vec<u8>> {
    let mut out = Vec::new();
    match q.call {
        20 => wire::write_u64(&mut out, q.operation)?,
        21 => wire::write_u32(&mut out, q.operation as u32)?,
        22 => wire::write_bytes(&mut out, &q.a)?,
        23 => wire::write_string(&mut out, std::str::from_utf8(&q.a)?)?,
        24 => wire::write_string_set(&mut out, &strings(q)?)?,
        26 => out = mode(q.operation)?.into_bytes(),
        27 => out = counted(Op::QueryMissing, &[], q.operation, 1, "paths")?.into_bytes(),
        _ => out = counted(Op::SetOptions, &[0; 96], q.operation, 2, "overrides")?.into_bytes(),
    }
    Ok(out)
}

// nix-wire's writer takes strings: where an entry gives none, there is nothing that it could be asked to write.
fn strings(q: &Request) -> Result<Vec<String>> {
    let number = |i: usize| -> Option<usize> { Some(u64::from_le_bytes(q.b.get(8 * i..8 * i + 8)?.try_into().ok()?) as usize) };
    let string = |i: usize| -> Result<String> {
        let (start, len) = number(2 * i).zip(number(2 * i + 1)).context("no such entry")?;
        let end = start.checked_add(len).context("bad entry")?;
        Ok(String::from_utf8(q.a.get(start..end).context("bad entry")?.to_vec())?)
    };
    (0..q.operation as usize).map(string).collect()
}

// The text stands in the answer of BuildPaths: an empty set and the mode.
fn mode(x: u64) -> Result<String> {
    let stream = [[0; 8], x.to_le_bytes()].concat();
    match run(protocol::read_op_args(Op::BuildPaths, ProtocolVersion::new(1, 38), &mut over(&stream)))? {
        Some(OpCall::PathSetMode { mode, .. }) => Ok(mode),
        _ => unreachable!("BuildPaths has a mode"),
    }
}

// More empty strings than this are too long a stream; the same format then, without the reader.
const MANY: u64 = 4096;

// The text is the answer of skip_op_args on a count and so many empty strings or pairs of them.
fn counted(op: Op, before: &[u8], count: u64, each: usize, word: &str) -> Result<String> {
    if count > MANY {
        return Ok(format!("{count} {word}"));
    }
    let mut stream = before.to_vec();
    stream.extend(count.to_le_bytes());
    stream.resize(stream.len() + 8 * each * count as usize, 0);
    let text = run(protocol::skip_op_args(op, ProtocolVersion::new(1, 38), &mut over(&stream)))?;
    text.context("an operation with a text")
}

pub fn test(q: &Request) -> Answer {
    let yes = |b: bool| Answer::Ok(Line::of_kind(b as u64));
    match q.call {
        30 => yes(wire::extract_store_path(&q.a).is_some()),
        31 => Op::from_u64(q.operation).map_or(Answer::Out, |op| yes(protocol::op_has_client_framed_data(op))),
        _ => {
            let v = ProtocolVersion::from_wire(q.operation);
            Answer::Ok(Line::default().numbers(&[v.major as u64, v.minor as u64]))
        }
    }
}
