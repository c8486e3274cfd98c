//! Calls with few bytes or none, many alike in a row.
use super::{figures, same, Call, Calls, What};
use crate::rows::Row;
use lintelow::wire::{write_string, write_string_set, write_u64};
use lintelow::Version;

const VERSION: Version = Version::new(1, 34);
/// How many are made in a pass.
pub const ALIKE: usize = 256;

const IS_VALID_PATH: u64 = 1;
const ADD_TO_STORE: u64 = 7;
const SYNC_WITH_GC: u64 = 13;
pub const QUERY_DERIVER: u64 = 18;
const SET_OPTIONS: u64 = 19;
const QUERY_PATH_INFO: u64 = 26;
const QUERY_VALID_PATHS: u64 = 31;

const PATH: &str = "/nix/store/2baasz4qrckrzh2cizkgc23rr9j3kpgk-trivial-1.0";

const ARGUMENTS: [What; 2] = [What::ReadArguments, What::SkipArguments];
const REPLY: [What; 2] = [What::ReadReply, What::SkipReply];

/// What one side says, in parts of the same length, each of which is a call's.
pub struct Stream {
    pub op: u64,
    pub bytes: Vec<u8>,
    pub calls: usize,
}

impl Stream {
    pub fn alike(op: u64, part: &[u8]) -> Stream {
        Stream { op, bytes: part.repeat(ALIKE), calls: ALIKE }
    }

    pub fn asked(&self, what: What) -> Calls<'_> {
        let each = self.bytes.len() / self.calls;
        let call = |index| Call { op: self.op, version: VERSION, bytes: &self.bytes[index * each..][..each], client: &[] };
        let calls: Vec<Call> = (0..self.calls).map(call).collect();
        assert!(calls.iter().all(|call| same::is_read(what, call)), "calls that both sides read");
        Calls { what, calls, left_out: 0 }
    }
}

fn string(text: &str) -> Vec<u8> {
    let mut bytes = Vec::new();
    write_string(&mut bytes, text);
    bytes
}

/// A path of a build, with two references and a signature.
fn path_info() -> Vec<u8> {
    let mut bytes = Vec::new();
    write_u64(&mut bytes, 1);
    write_string(&mut bytes, &format!("{PATH}.drv"));
    write_string(&mut bytes, "d4f88d27b4588d6d2c85c390fc49046bf854d57ee89bc4ff4f25c1b08bd0196b");
    write_string_set(&mut bytes, &[PATH, "/nix/store/9adgyv983ci59x9x18av1gmnpyrgvf8r-glibc-2.40"]);
    for number in [1_731_000_000, 71_112, 0] {
        write_u64(&mut bytes, number);
    }
    let key = "cache.nixos.org-1:ukjGclXCo7FfcF7ogoDgTkk4EfWJwsyvqiclv+XQQX3XKRbZK9sz6IVpaMY4QUboqclm4sheXGRRninTdGF3Cg==";
    write_string_set(&mut bytes, &[key]);
    write_string(&mut bytes, "");
    bytes
}

fn options() -> Vec<u8> {
    let mut bytes = Vec::new();
    (0..12).for_each(|number| write_u64(&mut bytes, number));
    write_u64(&mut bytes, 2);
    ["max-jobs", "4", "substituters", "https://cache.nixos.org"].iter().for_each(|word| write_string(&mut bytes, word));
    bytes
}

fn paths() -> Vec<u8> {
    let mut bytes = Vec::new();
    write_string_set(&mut bytes, &[PATH; 8]);
    write_u64(&mut bytes, 1);
    bytes
}

fn added(length: usize) -> Vec<u8> {
    let mut bytes = Vec::new();
    write_string(&mut bytes, "trivial-1.0");
    write_string(&mut bytes, "fixed:r:sha256");
    write_string_set(&mut bytes, &[PATH]);
    write_u64(&mut bytes, 0);
    write_u64(&mut bytes, length as u64);
    bytes.resize(bytes.len() + length, b'x');
    write_u64(&mut bytes, 0);
    bytes
}

/// Calls to be written.
pub fn arguments() -> [(&'static str, u64, Vec<u8>); 5] {
    [
        ("nothing (SyncWithGC)", SYNC_WITH_GC, vec![]),
        ("one store path (QueryPathInfo)", QUERY_PATH_INFO, string(PATH)),
        ("eight store paths and a flag (QueryValidPaths)", QUERY_VALID_PATHS, paths()),
        ("twelve numbers and two pairs (SetOptions)", SET_OPTIONS, options()),
        ("three strings and 1,000 bytes (AddToStore)", ADD_TO_STORE, added(1000)),
    ]
}

fn both((name, op, calls, part): (&str, u64, [What; 2], Vec<u8>)) -> [Row<'static>; 2] {
    calls.map(|what| {
        let done = if matches!(what, What::ReadArguments | What::ReadReply) { "read" } else { "skipped" };
        let part = part.clone();
        Row::new("short", format!("{name}, {done}"), move |effort| figures(&Stream::alike(op, &part).asked(what), effort))
    })
}

pub fn rows() -> Vec<Row<'static>> {
    let parts = [
        ("arguments of nothing", SYNC_WITH_GC, ARGUMENTS, vec![]),
        ("a reply of nothing", SET_OPTIONS, REPLY, vec![]),
        ("a reply of one number", IS_VALID_PATH, REPLY, 1u64.to_le_bytes().to_vec()),
        ("a reply of one string of 8 bytes", QUERY_DERIVER, REPLY, string("8 bytes.")),
        ("arguments of one store path", QUERY_PATH_INFO, ARGUMENTS, string(PATH)),
        ("a reply with a path info", QUERY_PATH_INFO, REPLY, path_info()),
    ];
    parts.into_iter().flat_map(both).collect()
}
