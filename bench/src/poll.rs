//! nix-wire's calls are futures. Its reader in memory never waits, so one poll ends each.
use std::fmt::Debug;
use std::future::Future;
use std::pin::Pin;
use std::task::{Context, Poll, Waker};

/// What the call answers. It is polled where it stands: a future that is moved is copied, and that of a skipped reply has eight kilobytes.
pub fn good<T, E: Debug>(call: Pin<&mut impl Future<Output = Result<T, E>>>) -> T {
    match call.poll(&mut Context::from_waker(Waker::noop())) {
        Poll::Ready(answer) => answer.expect("a good stream"),
        Poll::Pending => unreachable!("the reader in memory is never pending"),
    }
}
