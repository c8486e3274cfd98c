//! A request as it stands in the probe's input.
use crate::handshake::ProtocolVersion;
use std::io::{self, Read, Write};

/// From here on a number is that of the call with a number as much lower, in published mode; there is room for as many calls in each mode.
const PUBLISHED: u64 = 64;

/// The call of a number, and whether it is asked in published mode.
pub fn call(number: u64) -> (u64, bool) {
    let is_published = (PUBLISHED..2 * PUBLISHED).contains(&number);
    (if is_published { number - PUBLISHED } else { number }, is_published)
}

#[derive(Clone, Default)]
pub struct Request {
    pub call: u64,
    pub is_published: bool,
    pub operation: u64,
    pub major: u64,
    pub minor: u64,
    pub slots: u64,
    pub room: u64,
    pub a: Vec<u8>,
    pub b: Vec<u8>,
}

impl Request {
    pub fn version(&self) -> ProtocolVersion {
        ProtocolVersion::new(self.major as u16, self.minor as u8)
    }

    /// Of call and mode together.
    pub fn number(&self) -> u64 {
        self.call + if self.is_published { PUBLISHED } else { 0 }
    }

    pub fn write(&self, out: &mut impl Write) -> io::Result<()> {
        for x in [self.number(), self.operation, self.major, self.minor, self.slots, self.room] {
            out.write_all(&x.to_le_bytes())?;
        }
        for s in [&self.a, &self.b] {
            out.write_all(&(s.len() as u64).to_le_bytes())?;
            out.write_all(s)?;
        }
        Ok(())
    }

    /// The next request, or None at the end of the input.
    pub fn read(input: &mut impl Read) -> io::Result<Option<Request>> {
        let mut first = [0; 8];
        if input.read(&mut first[..1])? == 0 {
            return Ok(None);
        }
        input.read_exact(&mut first[1..])?;
        let (call, is_published) = call(u64::from_le_bytes(first));
        Ok(Some(Request {
            call,
            is_published,
            operation: number(input)?,
            major: number(input)?,
            minor: number(input)?,
            slots: number(input)?,
            room: number(input)?,
            a: bytes(input)?,
            b: bytes(input)?,
        }))
    }
}

fn number(input: &mut impl Read) -> io::Result<u64> {
    let mut buf = [0; 8];
    input.read_exact(&mut buf)?;
    Ok(u64::from_le_bytes(buf))
}

fn bytes(input: &mut impl Read) -> io::Result<Vec<u8>> {
    let mut buf = vec![0; number(input)? as usize];
    input.read_exact(&mut buf)?;
    Ok(buf)
}
