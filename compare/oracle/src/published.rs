//! Published mode: a daemon reads the arguments of two operations otherwise than nix-wire does. In its way nix-wire reads others, so it is asked for those.
//! Error blocks, which it reads otherwise too, are in `error_blocks`.
use crate::conversation::with_operation;
use crate::handshake::ProtocolVersion;
use crate::line::Line;
use crate::ops::Op;
use crate::protocol;
use crate::reader::{over, position, run};
use crate::request::Request;
use anyhow::{Context, Result};

/// What nix-wire reads in that way, and the kind that is due in place of its own.
pub struct Alike {
    pub call: u64,
    pub op: Op,
    kind: u64,
}

pub const PAIRS: u64 = 20;
const TWO_STRINGS: u64 = 21;

/// For arguments that published mode reads otherwise.
pub fn alike(q: &Request) -> Option<Alike> {
    match q.operation {
        _ if !q.is_published => None,
        30 if q.version() >= ProtocolVersion::new(1, 22) => Some(Alike { call: 3, op: Op::QueryDerivationOutputMap, kind: PAIRS }),
        42 if q.version() < ProtocolVersion::new(1, 31) => Some(Alike { call: 1, op: Op::AddPermRoot, kind: TWO_STRINGS }),
        _ => None,
    }
}

/// A request in published mode. One whose stream is of what is alike is also asked with the operation that this is alike to, on both sides of the gate.
pub fn forms(q: Request) -> Vec<Request> {
    let same = Request { is_published: true, ..q };
    let other = match (same.call, same.operation) {
        (3 | 4, 41) => Request { call: same.call - 2, operation: 30, ..same.clone() },
        (1 | 2, 47) => Request { operation: 42, ..same.clone() },
        _ => return vec![same],
    };
    vec![same, other]
}

pub fn read(q: &Request, Alike { call, op, kind }: Alike) -> Result<Line> {
    let line = with_operation(&Request { call, ..q.clone() }, op)?;
    Ok(Line { kind, ..line })
}

/// Pairs are counted. Of two strings the first is answered as the only one is in ported mode, and the second passed over.
pub fn skip(q: &Request, Alike { op, kind, .. }: Alike) -> Result<Line> {
    let r = &mut over(&q.a);
    let line = if kind == PAIRS {
        run(protocol::skip_daemon_result(op, q.version(), r))?;
        let count = run(over(&q.a).read_u64())?;
        Line::of_kind(3).numbers(&[count]).string(format!("{count} paths"))
    } else {
        let first = run(protocol::skip_op_args(Op::RegisterDrvOutput, q.version(), r))?;
        run(r.skip_string())?;
        Line::of_kind(2).string(first.context("a string is answered")?)
    };
    Ok(line.ending(position(r)))
}
