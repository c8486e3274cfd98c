//! Handshakes: both sides, and the daemon's side alone.
use super::recorded::Recording;
use super::short::ALIKE;
use super::{figures, same, Call, Calls, What};
use crate::rows::Row;
use lintelow::wire::{write_string, write_string_set, write_u64};
use lintelow::Version;

/// How often those of the recordings are gone through in a pass: once would be too short for the clock.
const ROUNDS: usize = 16;
const MAGIC_OF_CLIENT: u64 = 0x6e697863;
const MAGIC_OF_DAEMON: u64 = 0x6478696f;
const LAST: u64 = 0x616c7473;
/// A handshake asks for no operation; a client goes on with this one.
const SET_OPTIONS: u64 = 19;

/// What is said, and the client's version.
struct Handshake {
    version: Version,
    client: Vec<u8>,
    daemon: Vec<u8>,
}

impl Handshake {
    fn recorded(recording: &Recording) -> Handshake {
        let (version, client, daemon) = recording.handshake();
        Handshake { version, client: client.to_vec(), daemon: daemon.to_vec() }
    }

    /// As both sides say it at that version.
    fn made(minor: u8, features: &[&str]) -> Handshake {
        let (mut client, mut daemon) = (Vec::new(), Vec::new());
        for (magic, side) in [(MAGIC_OF_CLIENT, &mut client), (MAGIC_OF_DAEMON, &mut daemon)] {
            write_u64(side, magic);
            write_u64(side, 0x100 | u64::from(minor));
            if minor >= 38 {
                write_string_set(side, features);
            }
        }
        // no affinity, no reserved space
        [0, 0].iter().for_each(|&number| write_u64(&mut client, number));
        if minor >= 33 {
            write_string(&mut daemon, "2.26.3");
        }
        if minor >= 35 {
            write_u64(&mut daemon, 1);
        }
        write_u64(&mut daemon, LAST);
        Handshake { version: Version::new(1, minor), client, daemon }
    }
}

fn calls<'s>(all: &'s [Handshake], what: What, rounds: usize) -> Calls<'s> {
    let client = |each: &'s Handshake| if what == What::Handshake { &each.client[..] } else { &[] };
    let call = |each: &'s Handshake| Call { op: SET_OPTIONS, version: each.version, bytes: &each.daemon, client: client(each) };
    let (calls, others): (Vec<Call>, Vec<Call>) = all.iter().map(call).partition(|call| same::is_read(what, call));
    let left_out = others.len() * rounds;
    Calls { what, calls: calls.repeat(rounds), left_out }
}

fn both<'s>(name: &str, rounds: usize, all: impl Fn() -> Vec<Handshake> + Copy + 's) -> [Row<'s>; 2] {
    [("both sides", What::Handshake), ("the daemon's side", What::DaemonHandshake)].map(|(sides, what)| {
        let measure = move |effort| figures(&calls(&all(), what, rounds), effort);
        Row::new("handshakes", format!("{name}, {sides}"), measure)
    })
}

pub fn rows(recordings: &[Recording]) -> Vec<Row<'_>> {
    let rows = [
        both("of recorded sessions", ROUNDS, || recordings.iter().map(Handshake::recorded).collect()),
        both("1.21, numbers alone", ALIKE, || vec![Handshake::made(21, &[])]),
        both("1.34, with the daemon's version", ALIKE, || vec![Handshake::made(34, &[])]),
        both("1.38, with two features", ALIKE, || vec![Handshake::made(38, &["ca-derivations", "dynamic-derivations"])]),
    ];
    rows.into_iter().flatten().collect()
}
