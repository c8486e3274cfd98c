//! One request, one answer.
use crate::request::Request;
use crate::{conversation, error_blocks, primitives, published};
use std::any::Any;
use std::panic;

pub use crate::line::Answer;
pub use crate::reader::{over, position, run, Reader};

fn by_call(q: &Request) -> Answer {
    match (q.call, published::alike(q)) {
        (1, Some(a)) => published::read(q, a).into(),
        (2, Some(a)) => published::skip(q, a).into(),
        (6, _) if q.is_published => error_blocks::answer(q),
        (1..=8, _) => conversation::answer(q),
        (9..=18, _) => primitives::read(q),
        (20..=24 | 26..=28, _) => primitives::write(q),
        (30 | 31 | 33, _) => primitives::test(q),
        _ => Answer::Out,
    }
}

/// What a panic says that stands for memory that ran out; without such a panic the process ends.
pub const NO_MEMORY: &str = "no memory";

// `Vec::with_capacity` panics for a count that no stream can hold.
fn is_large_count(cause: &(dyn Any + Send)) -> bool {
    let text = cause.downcast_ref::<String>().map(String::as_str);
    let text = text.or(cause.downcast_ref::<&str>().copied());
    text == Some("capacity overflow") || text == Some(NO_MEMORY)
}

/// No words about panics, which are answers here.
pub fn silence() {
    panic::set_hook(Box::new(|_| {}));
}

pub fn answer(q: &Request) -> Answer {
    panic::catch_unwind(|| by_call(q)).unwrap_or_else(|cause| if is_large_count(&*cause) { Answer::Out } else { Answer::Panic })
}
