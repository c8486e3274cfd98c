//! What the requests of a seed hardly have: strings and chunks of the limit and of one byte more, with all their bytes there; and long strings in a row,
//! since one that is as long as the last is passed over in another way.
use crate::judge::Verdict;
use crate::lent::Lent;
use crate::requests::one;
use crate::tally::Tally;
use oracle::request::Request;
use std::time::Instant;

const LIMIT: usize = 268435456;

// Its reply is a set.
const QUERY_ALL_VALID_PATHS: u64 = 23;

// Padding, and a zero behind it that ends framed data of the limit, which needs no padding.
fn request(call: u64, length: usize) -> Request {
    let mut a = (length as u64).to_le_bytes().to_vec();
    a.resize(8 + length, b'x');
    a.resize(8 + length.next_multiple_of(8) + 8, 0);
    Request { call, a, ..Request::default() }
}

/// A set of three, cut short: two strings of a length, and a last one.
pub fn row(call: u64, length: usize, last: usize, cut: usize) -> Request {
    let mut a = 3u64.to_le_bytes().to_vec();
    for n in [length, length, last] {
        a.extend((n as u64).to_le_bytes());
        a.resize(a.len() + n.next_multiple_of(8), b'x');
    }
    a.truncate(a.len() - cut);
    Request { call, operation: QUERY_ALL_VALID_PATHS, major: 1, minor: 38, slots: 3, a, ..Request::default() }
}

/// Is there no difference?
pub fn run() -> bool {
    let began = Instant::now();
    let (mut lent, mut tally) = (Lent::new(), Tally::new(&Verdict::NAMES));
    for call in [11, 12, 13, 16, 17] {
        for length in [LIMIT, LIMIT + 1] {
            one(length, &request(call, length), &mut lent, &mut tally);
        }
    }
    for call in [3, 4, 14, 15] {
        for length in [255_usize, 256, 257, 264] {
            for last in [length - 1, length, length + 1] {
                for cut in 0..=8 + last.next_multiple_of(8) {
                    one(cut, &row(call, length, last, cut), &mut lent, &mut tally);
                }
            }
        }
    }
    tally.print();
    tally.conclude("around the limit and in rows", began)
}
