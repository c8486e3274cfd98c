//! nix-wire's reader over bytes in memory, and its calls, which never wait there.
use crate::wire_async::{AsyncWireReader, MemReader};
use std::future::Future;
use std::io;
use std::pin::{pin, Pin};
use std::task::{Context, Poll, Waker};
use tokio::io::{AsyncBufRead, AsyncRead, ReadBuf};

pub type Reader = AsyncWireReader<MemReader>;

pub fn over(stream: &[u8]) -> Reader {
    AsyncWireReader::new(MemReader::new(stream.to_vec()))
}

pub fn position(r: &Reader) -> usize {
    r.inner_ref().position()
}

/// The same bytes, and where the last read of them began: of one that fails, the place of what is cut short.
pub struct Watched {
    bytes: MemReader,
    began: usize,
}

impl Watched {
    pub fn over(stream: &[u8]) -> AsyncWireReader<Watched> {
        AsyncWireReader::new(Watched { bytes: MemReader::new(stream.to_vec()), began: 0 })
    }

    pub fn position(&self) -> usize {
        self.bytes.position()
    }

    pub fn began(&self) -> usize {
        self.began
    }
}

impl AsyncRead for Watched {
    fn poll_read(self: Pin<&mut Self>, context: &mut Context, buf: &mut ReadBuf) -> Poll<io::Result<()>> {
        let this = self.get_mut();
        // one that goes on has something already
        if buf.filled().is_empty() {
            this.began = this.position();
        }
        Pin::new(&mut this.bytes).poll_read(context, buf)
    }
}

impl AsyncBufRead for Watched {
    fn poll_fill_buf(self: Pin<&mut Self>, context: &mut Context) -> Poll<io::Result<&[u8]>> {
        Pin::new(&mut self.get_mut().bytes).poll_fill_buf(context)
    }

    fn consume(self: Pin<&mut Self>, n: usize) {
        Pin::new(&mut self.get_mut().bytes).consume(n)
    }
}

/// Neither ever answers Pending, so one poll ends each future.
pub fn run<F: Future>(f: F) -> F::Output {
    match pin!(f).poll(&mut Context::from_waker(Waker::noop())) {
        Poll::Ready(r) => r,
        Poll::Pending => unreachable!("bytes in memory are never pending"),
    }
}
