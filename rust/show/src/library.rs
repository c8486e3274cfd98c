//! The library's readers, with framed payload left where it stands: a payload may be of gigabytes, and only its size and first bytes are shown.
//!
//! A reader that is lent no payload room refuses by 5 at the place where a payload begins. What stands before that place is read with an empty payload
//! behind it, and the payload is passed over.
use lintelow::{raw, wire, with_room, Mode, OpCall, Refusal, ResultData, Version};

/// How many of a payload's first bytes are kept.
pub const SHOWN: usize = 16;

const NO_PAYLOAD_ROOM: u64 = 5;

/// Framed data: the chunks' bytes, joined.
#[derive(Debug, Clone, PartialEq, Eq, Default)]
pub struct Payload {
    pub size: u64,
    pub first: Vec<u8>,
}

/// What a reader answers, where it ended, and the payload apart.
pub struct Read<T> {
    pub value: T,
    pub end: usize,
    pub payload: Payload,
}

/// The arguments of an operation. `None`: arguments that are not read.
pub fn read_op_args(mode: Mode, op: u64, version: Version, stream: &[u8]) -> Result<Read<Option<OpCall>>, Refusal> {
    let judge = |entries: &mut [u8]| Ok(raw::read_op_args(mode, op, version, stream, entries, &mut [])?.end);
    apart(stream, judge, |part| lintelow::read_op_args(mode, op, version, part))
}

/// The reply to an operation.
pub fn read_daemon_result(op: u64, version: Version, stream: &[u8]) -> Result<Read<ResultData>, Refusal> {
    let judge = |entries: &mut [u8]| Ok(raw::read_daemon_result(op, version, stream, entries, &mut [])?.end);
    apart(stream, judge, |part| lintelow::read_daemon_result(op, version, part))
}

fn apart<T>(
    stream: &[u8],
    judge: impl Fn(&mut [u8]) -> Result<usize, Refusal>,
    read: impl Fn(&[u8]) -> Result<(T, usize), Refusal>,
) -> Result<Read<T>, Refusal> {
    // with_room makes payload room for a refusal by 5, so here that refusal is an answer.
    let judged = with_room(stream.len(), |entries, _| match judge(entries) {
        Ok(end) => Ok(Judged::EndsAt(end)),
        Err(Refusal { number: NO_PAYLOAD_ROOM, place, .. }) => Ok(Judged::PayloadAt(place)),
        Err(refusal) => Err(refusal),
    });
    match judged? {
        Judged::EndsAt(end) => {
            let (value, end) = read(&stream[..end])?;
            Ok(Read { value, end, payload: Payload::default() })
        }
        Judged::PayloadAt(place) => {
            let (payload, end) = pass_payload(stream, place)?;
            let empty_payload = 0u64.to_le_bytes();
            let (value, _) = read(&[&stream[..place], &empty_payload].concat())?;
            Ok(Read { value, end, payload })
        }
    }
}

/// What a reader without payload room finds.
enum Judged {
    EndsAt(usize),
    PayloadAt(usize),
}

/// The payload that begins at a place, and where it ends.
fn pass_payload(stream: &[u8], start: usize) -> Result<(Payload, usize), Refusal> {
    let (size, end) = wire::skip_framed(stream, start)?;
    let mut first = Vec::new();
    let mut at = start;
    while first.len() < SHOWN {
        // A chunk is its length and that many bytes, and one of length 0 is the last.
        let (length, contents) = wire::read_u64(stream, at)?;
        if length == 0 {
            break;
        }
        at = contents + length as usize;
        first.extend(stream[contents..at].iter().take(SHOWN - first.len()));
    }
    Ok((Payload { size, first }, end))
}

#[cfg(test)]
mod tests {
    use super::*;

    const VERSION: Version = Version::new(1, 38);

    fn numbers(numbers: &[u64]) -> Vec<u8> {
        numbers.iter().flat_map(|number| number.to_le_bytes()).collect()
    }

    fn framed(chunks: &[&[u8]]) -> Vec<u8> {
        let mut bytes = Vec::new();
        for chunk in chunks {
            bytes.extend((chunk.len() as u64).to_le_bytes());
            bytes.extend(*chunk);
        }
        bytes.extend([0; 8]);
        bytes
    }

    #[test]
    fn a_payload_is_told_by_size_and_first_bytes() {
        let mut stream = numbers(&[1, 0]);
        stream.extend(framed(&[b"abc", b"defghijklmnopqrstuvwxyz", b"!"]));
        let end = stream.len();
        stream.extend(b"what follows");
        let read = read_op_args(Mode::Published, 44, VERSION, &stream).unwrap();
        assert_eq!(read.value, Some(OpCall::AddMultipleToStore { repair: true, dont_check_sigs: false, data: Vec::new() }));
        assert_eq!(read.end, end);
        assert_eq!(read.payload, Payload { size: 27, first: b"abcdefghijklmnop".to_vec() });
    }

    #[test]
    fn a_reply_that_is_all_payload() {
        let read = read_daemon_result(38, VERSION, &framed(&[b"nar"])).unwrap();
        assert_eq!((read.value, read.end), (ResultData::Framed(Vec::new()), 19));
        assert_eq!(read.payload, Payload { size: 3, first: b"nar".to_vec() });
    }

    #[test]
    fn refusals_are_those_of_a_reader_with_room() {
        let mut stream = numbers(&[0, 0]);
        stream.extend(framed(&[b"abc", b"defg"]));
        for length in 0..stream.len() {
            let cut = &stream[..length];
            let whole = lintelow::read_op_args(Mode::Published, 44, VERSION, cut).map(|_| ());
            assert_eq!(read_op_args(Mode::Published, 44, VERSION, cut).map(|_| ()), whole, "cut at {length}");
        }
    }

    #[test]
    fn room_for_many_entries() {
        let mut stream = numbers(&[5000]);
        for _ in 0..5000 {
            stream.extend(numbers(&[0]));
        }
        let read = read_daemon_result(23, VERSION, &stream).unwrap();
        let ResultData::StringSet(strings) = read.value else { panic!("no set") };
        assert_eq!((strings.len(), read.end), (5000, 8 * 5001));
    }
}
