//! Numbers, strings, sets and framed data, under nix-wire's names.
//!
//! A reader looks at a stream from a place on and answers what stands there and where that ends; strings are parts of the stream. A writer appends.
use crate::answer::{Answer, Refusal, ENTRY};
use crate::raw;
use crate::read::with_room;
use crate::types::Version;
use std::str;

pub fn read_u64(stream: &[u8], at: usize) -> Result<(u64, usize), Refusal> {
    let answer = raw::read_u64(stream, at)?;
    Ok((answer.numbers[0], answer.end))
}

pub fn read_u32(stream: &[u8], at: usize) -> Result<(u32, usize), Refusal> {
    let answer = raw::read_u32(stream, at)?;
    Ok((answer.numbers[0] as u32, answer.end))
}

/// The number that comes next; `None` where fewer than eight bytes are left.
pub fn peek_u64(stream: &[u8], at: usize) -> Result<Option<u64>, Refusal> {
    let answer = raw::peek_u64(stream, at)?;
    Ok((answer.kind == 1).then_some(answer.numbers[0]))
}

/// A string without a look at its contents.
pub fn read_bytes(stream: &[u8], at: usize) -> Result<(&[u8], usize), Refusal> {
    let answer = raw::read_bytes(stream, at)?;
    Ok((answer.own_entry().bytes(stream), answer.end))
}

pub fn read_string(stream: &[u8], at: usize) -> Result<(&str, usize), Refusal> {
    let answer = raw::read_string(stream, at)?;
    Ok((answer.own_entry().text(stream), answer.end))
}

/// Where the string ends.
pub fn skip_string(stream: &[u8], at: usize) -> Result<usize, Refusal> {
    Ok(raw::skip_string(stream, at)?.end)
}

pub fn read_string_set(stream: &[u8], at: usize) -> Result<(Vec<&str>, usize), Refusal> {
    with_room(stream.len(), |entries, _| {
        let answer = raw::read_string_set(stream, at, entries)?;
        Ok((answer.entries.iter().map(|entry| entry.text(stream)).collect(), answer.end))
    })
}

/// How many strings, and where they end.
pub fn skip_string_set(stream: &[u8], at: usize) -> Result<(u64, usize), Refusal> {
    let answer = raw::skip_string_set(stream, at)?;
    Ok((answer.numbers[0], answer.end))
}

pub fn read_framed(stream: &[u8], at: usize) -> Result<(Vec<u8>, usize), Refusal> {
    with_room(stream.len(), |_, payload| {
        let answer = raw::read_framed(stream, at, payload)?;
        Ok((answer.payload.to_vec(), answer.end))
    })
}

/// How many bytes of payload, and where the framed data ends.
pub fn skip_framed(stream: &[u8], at: usize) -> Result<(u64, usize), Refusal> {
    let answer = raw::skip_framed(stream, at)?;
    Ok((answer.numbers[0], answer.end))
}

pub fn write_u64(out: &mut Vec<u8>, x: u64) {
    append(out, 8, |room| raw::write_u64(room, x))
}

pub fn write_u32(out: &mut Vec<u8>, x: u32) {
    append(out, 4, |room| raw::write_u32(room, x))
}

/// A string, whatever its contents.
pub fn write_bytes(out: &mut Vec<u8>, contents: &[u8]) {
    append(out, contents.len() + 16, |room| raw::write_bytes(room, contents))
}

pub fn write_string(out: &mut Vec<u8>, text: &str) {
    append(out, text.len() + 16, |room| raw::write_string(room, text.as_bytes()))
}

pub fn write_string_set<T: AsRef<str>>(out: &mut Vec<u8>, texts: &[T]) {
    let (bytes, entries) = joined(texts);
    let guess = bytes.len() + entries.len() + 8;
    append(out, guess, |room| raw::write_string_set(room, &bytes, &entries, texts.len()))
}

pub fn write_framed(out: &mut Vec<u8>, payload: &[u8]) {
    append(out, payload.len() + 64, |room| raw::write_framed(room, payload))
}

/// The text of a build's mode.
pub fn mode_text(mode: u64) -> String {
    text(|room| raw::write_mode(room, mode))
}

/// "N paths".
pub fn paths_text(count: u64) -> String {
    text(|room| raw::write_paths(room, count))
}

/// "N overrides".
pub fn overrides_text(count: u64) -> String {
    text(|room| raw::write_overrides(room, count))
}

/// The bytes, if they are a store path.
pub fn extract_store_path(bytes: &[u8]) -> Option<&str> {
    let answer = raw::extract_store_path(bytes).expect("it refuses nothing");
    (answer.kind == 1).then(|| str::from_utf8(bytes).expect("a store path was judged to be text"))
}

/// Does the client send framed data with this operation? Refused by 9 where the number is no operation's.
pub fn op_has_client_framed_data(op: u64) -> Result<bool, Refusal> {
    Ok(raw::op_has_client_framed_data(op)?.kind == 1)
}

/// The version that a number on the wire stands for.
pub fn version_from_wire(wire: u64) -> Version {
    let [major, minor, ..] = raw::version_from_wire(wire).expect("it refuses nothing").numbers;
    Version::new(major as u16, minor as u8)
}

/// Texts as writers take them: their bytes one after the other, and an entry for each.
pub(crate) fn joined<T: AsRef<str>>(texts: &[T]) -> (Vec<u8>, Vec<u8>) {
    let mut bytes = Vec::new();
    let mut entries = Vec::with_capacity(texts.len() * ENTRY);
    for text in texts {
        let text = text.as_ref().as_bytes();
        entries.extend((bytes.len() as u64).to_le_bytes());
        entries.extend((text.len() as u64).to_le_bytes());
        bytes.extend(text);
    }
    (bytes, entries)
}

fn append(out: &mut Vec<u8>, guess: usize, write: impl Fn(&mut [u8]) -> Result<Answer<'_>, Refusal>) {
    try_append(out, guess, write).unwrap_or_else(|refusal| unreachable!("a writer of text and numbers refuses by 10 alone: {refusal}"))
}

/// Writes behind what `out` has, with room as guessed, and with twice as much while that is too little.
pub(crate) fn try_append(out: &mut Vec<u8>, guess: usize, write: impl Fn(&mut [u8]) -> Result<Answer<'_>, Refusal>) -> Result<(), Refusal> {
    let start = out.len();
    let mut room = guess;
    loop {
        out.resize(start + room, 0);
        let written = write(&mut out[start..]).map(|answer| answer.end);
        match written {
            Ok(length) => {
                out.truncate(start + length);
                return Ok(());
            }
            Err(Refusal { number: 10, .. }) => room *= 2,
            Err(refusal) => {
                out.truncate(start);
                return Err(refusal);
            }
        }
    }
}

fn text(write: impl Fn(&mut [u8]) -> Result<Answer<'_>, Refusal>) -> String {
    let mut out = Vec::new();
    append(&mut out, 32, write);
    String::from_utf8(out).expect("words and digits")
}
