//! A line on the terminal that says how far a long recording is read.
use std::io::{self, Write};
use std::time::{Duration, Instant};

/// Nothing is said of what takes no longer than this, and then no more often than every `STEP`.
const PATIENCE: Duration = Duration::from_secs(1);
const STEP: Duration = Duration::from_millis(200);

/// The line that is drawn over and over; with no terminal there is none.
pub struct Progress<W> {
    terminal: Option<W>,
    /// Whether the session is told on the same terminal, call by call.
    shared: bool,
    total: usize,
    due: Instant,
    drawn: bool,
}

impl<W: Write> Progress<W> {
    pub fn new(terminal: Option<W>, shared: bool, total: usize) -> Progress<W> {
        Progress { terminal, shared, total, due: Instant::now() + PATIENCE, drawn: false }
    }

    /// Whether it is time to draw the line again.
    pub fn is_due(&self) -> bool {
        self.terminal.is_some() && Instant::now() >= self.due
    }

    pub fn draw(&mut self, done: usize) -> io::Result<()> {
        let Some(terminal) = &mut self.terminal else { return Ok(()) };
        self.due = Instant::now() + STEP;
        self.drawn = true;
        let percent = done as u128 * 100 / self.total.max(1) as u128;
        write!(terminal, "\r\u{1b}[K{percent}% of {} MB", self.total / 1_000_000)?;
        terminal.flush()
    }

    /// Takes the line away where it would be in the way of a call.
    pub fn make_way(&mut self) -> io::Result<()> {
        if self.shared {
            self.clear()
        } else {
            Ok(())
        }
    }

    /// Takes the line away.
    pub fn clear(&mut self) -> io::Result<()> {
        let Some(terminal) = self.terminal.as_mut().filter(|_| self.drawn) else { return Ok(()) };
        self.drawn = false;
        write!(terminal, "\r\u{1b}[K")?;
        terminal.flush()
    }
}

#[cfg(test)]
mod tests {
    use super::*;

    #[test]
    fn a_line_is_drawn_and_taken_away_once() {
        let mut line = Vec::new();
        let mut progress = Progress::new(Some(&mut line), false, 4_000_000);
        assert!(!progress.is_due());
        progress.draw(1_000_000).unwrap();
        progress.make_way().unwrap();
        progress.clear().unwrap();
        progress.clear().unwrap();
        assert_eq!(line, b"\r\x1b[K25% of 4 MB\r\x1b[K");
    }

    #[test]
    fn without_a_terminal_there_is_none() {
        let mut progress: Progress<Vec<u8>> = Progress::new(None, true, 0);
        progress.draw(0).unwrap();
        progress.clear().unwrap();
        assert!(!progress.is_due());
    }
}
