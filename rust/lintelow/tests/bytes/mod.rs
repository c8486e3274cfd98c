//! Streams written out: numbers, strings, sets.
#![allow(dead_code)]

pub fn numbers(list: &[u64]) -> Vec<u8> {
    list.iter().flat_map(|n| n.to_le_bytes()).collect()
}

pub fn string(contents: impl AsRef<[u8]>) -> Vec<u8> {
    let mut bytes = numbers(&[contents.as_ref().len() as u64]);
    bytes.extend(contents.as_ref());
    bytes.resize(bytes.len().next_multiple_of(8), 0);
    bytes
}

pub fn set(list: &[&str]) -> Vec<u8> {
    let mut bytes = numbers(&[list.len() as u64]);
    list.iter().for_each(|text| bytes.extend(string(text)));
    bytes
}

pub fn framed(chunks: &[&[u8]]) -> Vec<u8> {
    let mut bytes = Vec::new();
    for chunk in chunks {
        bytes.extend(numbers(&[chunk.len() as u64]));
        bytes.extend(*chunk);
    }
    bytes.extend(numbers(&[0]));
    bytes
}
