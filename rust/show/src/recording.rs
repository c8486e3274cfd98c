//! The two files of a recording, as bytes in memory.
use crate::map::Map;
use std::fs::File;
use std::io::{self, Read};
use std::ops::Deref;
use std::path::{Path, PathBuf};

pub struct Recording {
    pub client: Stream,
    pub daemon: Stream,
}

/// A file that can't be read, and why.
#[derive(Debug)]
pub struct Unreadable {
    pub path: PathBuf,
    pub why: io::Error,
}

/// The bytes of a file: mapped, or read in where it can't be mapped, as a pipe.
pub enum Stream {
    Mapped(Map),
    Owned(Vec<u8>),
}

impl Recording {
    pub fn open(folder: &Path) -> Result<Recording, Unreadable> {
        Ok(Recording { client: Stream::open(folder.join("client.bin"))?, daemon: Stream::open(folder.join("daemon.bin"))? })
    }
}

impl Stream {
    pub fn open(path: PathBuf) -> Result<Stream, Unreadable> {
        Stream::of_file(&path).map_err(|why| Unreadable { path, why })
    }

    fn of_file(path: &Path) -> io::Result<Stream> {
        let mut file = File::open(path)?;
        let about = file.metadata()?;
        if about.is_file() && about.len() > 0 {
            if let Ok(map) = Map::new(&file, about.len()) {
                return Ok(Stream::Mapped(map));
            }
        }
        let mut bytes = Vec::new();
        file.read_to_end(&mut bytes)?;
        Ok(Stream::Owned(bytes))
    }
}

impl Deref for Stream {
    type Target = [u8];

    fn deref(&self) -> &[u8] {
        match self {
            Stream::Mapped(map) => map,
            Stream::Owned(bytes) => bytes,
        }
    }
}
