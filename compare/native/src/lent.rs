//! Memory that is lent to a call, with a pattern in it and around it.
use lintelow::raw::ENTRY;

// On both sides of what is lent.
const AROUND: usize = 64;

struct Room {
    bytes: Vec<u8>,
    pattern: Vec<u8>,
}

fn pattern(length: usize) -> Vec<u8> {
    (0..length).map(|i| (i * 167 + i / 256 + 91) as u8).collect()
}

impl Room {
    fn new(length: usize) -> Room {
        let pattern = pattern(length + 2 * AROUND);
        Room { bytes: pattern.clone(), pattern }
    }

    /// So many bytes with the pattern in them.
    fn fill(&mut self, length: usize) {
        let whole = length + 2 * AROUND;
        if self.pattern.len() < whole {
            self.pattern = pattern(whole);
        }
        self.bytes.clear();
        self.bytes.extend(&self.pattern[..whole]);
    }

    fn lent(&mut self) -> &mut [u8] {
        let end = self.bytes.len() - AROUND;
        &mut self.bytes[AROUND..end]
    }

    /// Is all as it was, but for so many bytes at the start of what was lent?
    fn is_kept_beyond(&self, written: usize) -> bool {
        let beyond = AROUND + written;
        self.bytes[..AROUND] == self.pattern[..AROUND] && self.bytes[beyond..] == self.pattern[beyond..self.bytes.len()]
    }
}

pub struct Lent {
    entries: Room,
    room: Room,
}

impl Lent {
    pub fn new() -> Lent {
        Lent { entries: Room::new(4096), room: Room::new(65536) }
    }

    /// Room for so many entries, and so many bytes.
    pub fn fill(&mut self, slots: u64, room: u64) {
        self.entries.fill(slots as usize * ENTRY);
        self.room.fill(room as usize);
    }

    pub fn parts(&mut self) -> (&mut [u8], &mut [u8]) {
        (self.entries.lent(), self.room.lent())
    }

    pub fn is_kept_beyond(&self, entries: usize, payload: usize) -> bool {
        self.entries.is_kept_beyond(entries * ENTRY) && self.room.is_kept_beyond(payload)
    }
}
