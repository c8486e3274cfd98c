//! The order of a session: a handshake; then for each call the operation's number and its arguments from the client, and from the daemon its messages
//! and a reply or an error. What each of them says, and where it ends, is the library's to say.
use crate::library::{self, Payload};
use lintelow::{wire, ErrorInfo, HandshakeInfo, Mode, OpCall, Refusal, ResultData, StderrCode, Version};
use std::ops::Range;

/// Bytes of one of the streams, by their places.
pub type Bytes = Range<usize>;

#[derive(Debug, Clone, Copy, PartialEq, Eq)]
pub enum Side {
    Client,
    Daemon,
}

impl Side {
    pub fn name(self) -> &'static str {
        match self {
            Side::Client => "client",
            Side::Daemon => "daemon",
        }
    }
}

/// What a session tells, in order: a handshake, then calls, and last why it stops or that it ends.
#[derive(Debug)]
pub enum Event {
    Handshake(Handshake),
    Call(Box<Call>),
    Stop(Stop),
    End(End),
}

/// Why a session is not read to its end.
#[derive(Debug)]
pub enum Stop {
    Refused(Refused),
    Unfollowed(Unfollowed),
    Unended(Unended),
}

#[derive(Debug)]
pub struct Handshake {
    pub info: HandshakeInfo,
    pub client: Bytes,
    pub daemon: Bytes,
}

/// A call as far as it was read: what is missing is explained by the event that follows.
#[derive(Debug)]
pub struct Call {
    /// Counted from 1.
    pub index: u64,
    pub op: u64,
    pub version: Version,
    /// The operation's number, in the client's stream.
    pub number: Bytes,
    pub arguments: Option<Arguments>,
    pub messages: Option<Messages>,
    pub outcome: Option<Outcome>,
}

impl Call {
    /// The call with its error alone, where it failed.
    pub fn failed(&self) -> Option<Call> {
        let Some(Outcome::Error { bytes, info }) = &self.outcome else { return None };
        let outcome = Some(Outcome::Error { bytes: bytes.clone(), info: info.clone() });
        Some(Call { number: self.number.clone(), arguments: None, messages: None, outcome, ..*self })
    }
}

#[derive(Debug)]
pub struct Arguments {
    pub bytes: Bytes,
    /// Where they end without framed data.
    pub fixed_end: usize,
    pub call: OpCall,
    pub payload: Payload,
}

#[derive(Debug)]
pub struct Messages {
    pub bytes: Bytes,
    /// How many, with the terminal one.
    pub count: u64,
    pub terminal: Option<StderrCode>,
}

#[derive(Debug)]
pub enum Outcome {
    Reply { bytes: Bytes, data: ResultData, payload: Payload },
    Error { bytes: Bytes, info: ErrorInfo },
}

/// The part of a session that was refused.
#[derive(Debug, Clone, Copy, PartialEq, Eq)]
pub enum Part {
    Handshake,
    Number,
    Arguments,
    Messages,
    Error,
    Reply,
}

#[derive(Debug)]
pub struct Refused {
    pub part: Part,
    /// The call's index and, but for its number, its operation.
    pub call: Option<u64>,
    pub op: Option<u64>,
    pub side: Side,
    /// Counted from the start of that side's stream.
    pub place: usize,
    pub refusal: Refusal,
    /// Of a string that is no text: its beginning that is, up to the place.
    pub good: Option<Bytes>,
}

/// A call whose arguments the library does not read: what comes after it can't be placed.
#[derive(Debug)]
pub struct Unfollowed {
    pub call: u64,
    pub op: u64,
    pub version: Version,
    /// Whether the library has such an operation.
    pub known: bool,
    /// Where the arguments begin, in the client's stream, and where the daemon's stream was left.
    pub client: usize,
    pub daemon: usize,
}

/// A call whose messages end with neither Last nor Error: they may be cut, so what follows is not taken for a reply.
#[derive(Debug)]
pub struct Unended {
    pub call: u64,
    pub op: u64,
    /// Where the messages stopped, in the daemon's stream.
    pub daemon: usize,
}

/// The client says no more.
#[derive(Debug)]
pub struct End {
    pub calls: u64,
    /// Bytes of the daemon's stream that belong to no call.
    pub left: Bytes,
}

const BAD_TEXT: u64 = 3;
const UNKNOWN_OPERATION: u64 = 9;

/// A session is read as its events are asked for.
pub struct Session<'s> {
    mode: Mode,
    client: &'s [u8],
    daemon: &'s [u8],
    /// Where each stream was left.
    said: usize,
    answered: usize,
    version: Option<Version>,
    calls: u64,
    /// Why the session stops, to be told after the call that it was found in.
    stop: Option<Stop>,
    over: bool,
}

impl<'s> Session<'s> {
    pub fn new(mode: Mode, client: &'s [u8], daemon: &'s [u8]) -> Session<'s> {
        Session { mode, client, daemon, said: 0, answered: 0, version: None, calls: 0, stop: None, over: false }
    }

    /// How many bytes of both streams were read.
    pub fn bytes_read(&self) -> usize {
        self.said + self.answered
    }

    fn shake_hands(&mut self) -> Event {
        match lintelow::parse_handshake(self.client, self.daemon) {
            Ok((info, client, daemon)) => {
                self.version = Some(info.negotiated_version);
                (self.said, self.answered) = (client, daemon);
                Event::Handshake(Handshake { info, client: 0..client, daemon: 0..daemon })
            }
            Err(refusal) => {
                self.over = true;
                let (side, good) = if refusal.stream == 1 {
                    (Side::Daemon, good_text(&refusal, |end| lintelow::parse_handshake(self.client, &self.daemon[..end])))
                } else {
                    (Side::Client, good_text(&refusal, |end| lintelow::parse_handshake(&self.client[..end], self.daemon)))
                };
                Event::Stop(Stop::Refused(Refused { part: Part::Handshake, call: None, op: None, side, place: refusal.place, refusal, good }))
            }
        }
    }

    fn next_call(&mut self, version: Version) -> Event {
        self.calls += 1;
        let start = self.said;
        let op = match wire::read_u64(self.client, start) {
            Ok((op, end)) => {
                self.said = end;
                op
            }
            Err(refusal) => {
                self.over = true;
                let (call, side, place) = (Some(self.calls), Side::Client, refusal.place);
                return Event::Stop(Stop::Refused(Refused { part: Part::Number, call, op: None, side, place, refusal, good: None }));
            }
        };
        let mut call = Call { index: self.calls, op, version, number: start..self.said, arguments: None, messages: None, outcome: None };
        self.stop = self.converse(&mut call).err();
        Event::Call(Box::new(call))
    }

    /// Reads a call from its arguments on, as far as it goes.
    fn converse(&mut self, call: &mut Call) -> Result<(), Stop> {
        call.arguments = Some(self.arguments(call)?);
        let messages = self.messages(call)?;
        let terminal = messages.terminal;
        let messages = call.messages.insert(messages).bytes.clone();
        call.outcome = match terminal {
            Some(StderrCode::Last) => Some(self.reply(call)?),
            Some(StderrCode::Error) => self.error(call, messages)?,
            None => return Err(Stop::Unended(Unended { call: call.index, op: call.op, daemon: messages.end })),
        };
        Ok(())
    }

    fn arguments(&mut self, call: &Call) -> Result<Arguments, Stop> {
        let start = self.said;
        let unfollowed = |known| {
            let Call { index, op, version, .. } = *call;
            Stop::Unfollowed(Unfollowed { call: index, op, version, known, client: start, daemon: self.answered })
        };
        let read = match self.read(call, Part::Arguments, start, |stream| library::read_op_args(self.mode, call.op, call.version, stream)) {
            Err(Stop::Refused(refused)) if refused.refusal.number == UNKNOWN_OPERATION => return Err(unfollowed(false)),
            read => read?,
        };
        let Some(op_call) = read.value else { return Err(unfollowed(true)) };
        let fixed = lintelow::skip_op_args(self.mode, call.op, call.version, &self.client[start..]).map_or(read.end, |(_, end)| end);
        self.said = start + read.end;
        Ok(Arguments { bytes: start..self.said, fixed_end: start + fixed, call: op_call, payload: read.payload })
    }

    fn messages(&mut self, call: &Call) -> Result<Messages, Stop> {
        let start = self.answered;
        let (result, end) = self.read(call, Part::Messages, start, lintelow::read_stderr_loop)?;
        self.answered = start + end;
        Ok(Messages { bytes: start..self.answered, count: result.count, terminal: result.terminal })
    }

    /// What follows the message Error, which the library reads together with the messages.
    fn error(&mut self, call: &Call, messages: Bytes) -> Result<Option<Outcome>, Stop> {
        let start = messages.start;
        let (_, info, end) = self.read(call, Part::Error, start, |stream| lintelow::read_stderr_with_error(self.mode, call.version, stream))?;
        self.answered = start + end;
        Ok(info.map(|info| Outcome::Error { bytes: messages.end..self.answered, info }))
    }

    fn reply(&mut self, call: &Call) -> Result<Outcome, Stop> {
        let start = self.answered;
        let read = self.read(call, Part::Reply, start, |stream| library::read_daemon_result(call.op, call.version, stream))?;
        self.answered = start + read.end;
        Ok(Outcome::Reply { bytes: start..self.answered, data: read.value, payload: read.payload })
    }

    /// A part of a call, from a place of its stream on.
    fn read<T>(&self, call: &Call, part: Part, start: usize, reader: impl Fn(&[u8]) -> Result<T, Refusal>) -> Result<T, Stop> {
        let (side, stream) = match part {
            Part::Arguments => (Side::Client, &self.client[start..]),
            _ => (Side::Daemon, &self.daemon[start..]),
        };
        reader(stream).map_err(|refusal| {
            let good = good_text(&refusal, |end| reader(&stream[..end])).map(|good| start + good.start..start + good.end);
            Stop::Refused(Refused { part, call: Some(call.index), op: Some(call.op), side, place: start + refusal.place, refusal, good })
        })
    }
}

/// The good beginning of a string that is refused by 3: a stream that is cut behind it is refused at the string's contents.
fn good_text<T>(refusal: &Refusal, cut: impl FnOnce(usize) -> Result<T, Refusal>) -> Option<Bytes> {
    if refusal.number != BAD_TEXT {
        return None;
    }
    cut(refusal.place).err().map(|cut| cut.place..refusal.place)
}

impl Iterator for Session<'_> {
    type Item = Event;

    fn next(&mut self) -> Option<Event> {
        if self.over {
            return None;
        }
        if let Some(stop) = self.stop.take() {
            self.over = true;
            return Some(Event::Stop(stop));
        }
        match self.version {
            None => Some(self.shake_hands()),
            Some(version) if self.said < self.client.len() => Some(self.next_call(version)),
            Some(_) => {
                self.over = true;
                Some(Event::End(End { calls: self.calls, left: self.answered..self.daemon.len() }))
            }
        }
    }
}
