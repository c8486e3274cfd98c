//! The calls of recorded sessions. Each recording's index, which another decoder made, says where they stand.
use super::{figures, same, Call, Calls, What};
use crate::rows::Row;
use lintelow::{HandshakeInfo, Version};
use std::fs;
use std::io;
use std::ops::Range;
use std::path::Path;

pub struct Recording {
    client: Vec<u8>,
    daemon: Vec<u8>,
    index: String,
    version: Version,
    /// Where the handshake ends, in the client's stream and in the daemon's.
    ends: (usize, usize),
    client_version: Version,
}

/// A line of an index.
struct Line<'s> {
    op: u64,
    arguments: Range<usize>,
    stderr: Range<usize>,
    /// Of the reply, or of what follows Error.
    outcome: Range<usize>,
    kind: &'s str,
}

/// The recordings of a folder, by their names. One without a handshake of this protocol is left out.
pub fn all(folder: &Path) -> io::Result<Vec<Recording>> {
    let entries: Vec<fs::DirEntry> = fs::read_dir(folder)?.collect::<io::Result<_>>()?;
    let mut folders: Vec<_> = entries.into_iter().map(|entry| entry.path()).filter(|path| path.is_dir()).collect();
    folders.sort();
    folders.iter().filter_map(|folder| Recording::open(folder).transpose()).collect()
}

impl Recording {
    fn open(folder: &Path) -> io::Result<Option<Recording>> {
        let (client, daemon) = (fs::read(folder.join("client.bin"))?, fs::read(folder.join("daemon.bin"))?);
        let index = fs::read_to_string(folder.join("index.tsv"))?;
        let handshake = lintelow::parse_handshake(&client, &daemon).ok();
        let recording = |(info, client_end, daemon_end): (HandshakeInfo, usize, usize)| {
            let (version, client_version) = (info.negotiated_version, info.client_version);
            Recording { client, daemon, index, version, ends: (client_end, daemon_end), client_version }
        };
        Ok(handshake.map(recording))
    }

    fn calls(&self, what: What) -> impl Iterator<Item = Call<'_>> {
        let lines = self.index.lines().filter(|line| !line.starts_with('#')).map(Line::of);
        lines.filter_map(move |line| Some(Call { op: line.op, version: self.version, bytes: self.part(what, &line)?, client: &[] }))
    }

    /// What client and daemon say first, and the client's version.
    pub fn handshake(&self) -> (Version, &[u8], &[u8]) {
        (self.client_version, &self.client[..self.ends.0], &self.daemon[..self.ends.1])
    }

    /// The bytes of a call that are asked for; a call that failed has no reply, and a handshake is no part of one.
    fn part(&self, what: What, line: &Line) -> Option<&[u8]> {
        let failed = line.kind == "error";
        match what {
            What::ReadArguments | What::SkipArguments => Some(&self.client[line.arguments.clone()]),
            What::StderrWithError if failed => Some(&self.daemon[line.stderr.start..line.outcome.end]),
            What::StderrWithError | What::StderrLoop => Some(&self.daemon[line.stderr.clone()]),
            What::ReadReply | What::SkipReply => (!failed).then(|| &self.daemon[line.outcome.clone()]),
            What::Handshake | What::DaemonHandshake => None,
        }
    }
}

impl Line<'_> {
    fn of(line: &str) -> Line<'_> {
        let words: Vec<&str> = line.split('\t').collect();
        let number = |index: usize| words[index].parse::<usize>().expect("an index has a number there");
        let range = |index| number(index)..number(index + 1);
        Line { op: number(0) as u64, arguments: range(2), stderr: range(4), outcome: range(6), kind: words[8] }
    }
}

/// The rows of the table.
const ROWS: [(&str, What); 6] = [
    ("arguments read", What::ReadArguments),
    ("arguments skipped", What::SkipArguments),
    ("stderr with error", What::StderrWithError),
    ("stderr loop", What::StderrLoop),
    ("replies read", What::ReadReply),
    ("replies skipped", What::SkipReply),
];

pub fn rows(recordings: &[Recording]) -> Vec<Row<'_>> {
    ROWS.into_iter().map(|(name, what)| Row::new("sessions", name, move |effort| figures(&calls(recordings, what), effort))).collect()
}

/// All calls, as they came.
pub fn calls(recordings: &[Recording], what: What) -> Calls<'_> {
    let asked = recordings.iter().flat_map(|recording| recording.calls(what));
    let (calls, others): (Vec<Call>, Vec<Call>) = asked.partition(|call| same::is_read(what, call));
    Calls { what, calls, left_out: others.len() }
}
