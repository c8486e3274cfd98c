//! How a session is told.
use crate::session::Event;
use std::io;

pub trait View {
    fn event(&mut self, event: &Event) -> io::Result<()>;
    fn flush(&mut self) -> io::Result<()>;
}
