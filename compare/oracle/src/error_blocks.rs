//! Published mode: error blocks, which nix-wire reads otherwise. Its loop passes the messages, and its readers take a block string by string and number by
//! number. Which of them there are at a version, positions and slots are judged here. Its readers know why they refuse, and `Watched` where: so a refusal is
//! known by its number and its place.
use crate::conversation::stderr;
use crate::handshake::ProtocolVersion;
use crate::line::{Answer, Line};
use crate::protocol;
use crate::reader::{run, Watched};
use crate::request::Request;
use crate::stderr::StderrCode;
use crate::wire_async::AsyncWireReader;
use anyhow::Error;
use std::string::FromUtf8Error;
use std::{io, str};

const CUT_SHORT: u64 = 1;
const TOO_LONG: u64 = 2;
const BAD_TEXT: u64 = 3;
const NO_SLOT: u64 = 4;
const NONZERO_POSITION: u64 = 15;

const TRACED: u64 = 1;
const SHORT: u64 = 2;

/// The bytes of a number, and so of a length.
const NUMBER: usize = 8;

/// By this number, at this place.
type Refused = (u64, usize);

struct Pieces<'q> {
    q: &'q Request,
    r: AsyncWireReader<Watched>,
    strings: Vec<String>,
}

impl Pieces<'_> {
    fn at(&self) -> usize {
        self.r.inner_ref().position()
    }

    // What is no text is told by who has read it. A length that is too long has just been read.
    fn cut_or_long(&self, why: Error) -> Refused {
        if why.root_cause().is::<io::Error>() {
            (CUT_SHORT, self.r.inner_ref().began())
        } else {
            (TOO_LONG, self.at() - NUMBER)
        }
    }

    fn messages(&mut self) -> Result<protocol::StderrResult, Refused> {
        run(protocol::read_stderr_loop(&mut self.r)).map_err(|why| self.cut_or_long(why))
    }

    fn number(&mut self) -> Result<u64, Refused> {
        run(self.r.read_u64()).map_err(|why| self.cut_or_long(why))
    }

    fn position(&mut self) -> Result<(), Refused> {
        let at = self.at();
        match self.number()? {
            0 => Ok(()),
            _ => Err((NONZERO_POSITION, at)),
        }
    }

    fn string(&mut self) -> Result<(), Refused> {
        let at = self.at();
        let s = run(self.r.read_string()).map_err(|why| self.string_refused(at + NUMBER, why))?;
        if self.strings.len() as u64 == self.q.slots {
            return Err((NO_SLOT, at));
        }
        self.strings.push(s);
        Ok(())
    }

    // nix-wire looks at text behind the padding, which may be cut; text is refused before that.
    fn string_refused(&self, contents: usize, why: Error) -> Refused {
        if let Some(bad) = why.root_cause().downcast_ref::<FromUtf8Error>() {
            return (BAD_TEXT, contents + bad.utf8_error().valid_up_to());
        }
        let (number, place) = self.cut_or_long(why);
        match self.q.a.get(contents..place).map(str::from_utf8) {
            Some(Err(bad)) => (BAD_TEXT, contents + bad.valid_up_to()),
            _ => (number, place),
        }
    }

    /// From 1.26: type, level, name, message, a position, and a count of traces, each a position and a string.
    fn traced(&mut self, line: &mut Line) -> Result<(), Refused> {
        line.kind = TRACED;
        self.string()?;
        line.numbers[2] = self.number()?;
        self.string()?;
        self.string()?;
        self.position()?;
        line.counts[0] = self.number()?;
        (0..line.counts[0]).try_for_each(|_| {
            self.position()?;
            self.string()
        })
    }

    /// Below: message and exit status.
    fn short(&mut self, line: &mut Line) -> Result<(), Refused> {
        line.kind = SHORT;
        self.string()?;
        line.numbers[2] = self.number()?;
        Ok(())
    }
}

fn read_stderr_with_error(q: &Request) -> Result<Line, Refused> {
    let mut pieces = Pieces { q, r: Watched::over(&q.a), strings: vec![] };
    let result = pieces.messages()?;
    let is_error = result.terminal == Some(StderrCode::Error);
    let mut line = stderr(result, None);
    if is_error {
        if q.version() >= ProtocolVersion::new(1, 26) {
            pieces.traced(&mut line)?;
        } else {
            pieces.short(&mut line)?;
        }
    }
    line = line.ending(pieces.at());
    Ok(pieces.strings.into_iter().fold(line, Line::string))
}

pub fn answer(q: &Request) -> Answer {
    read_stderr_with_error(q).map_or_else(|(number, place)| Answer::Due(number, place), Answer::Ok)
}
