//! The block that a call writes its answer into.
use crate::answer::{Answer, Entries, Refusal, ENTRY};
use std::mem::{size_of, MaybeUninit};

/// The 25 numbers, in the order of include/lintelow.h.
#[repr(C)]
pub struct Block {
    refusal: u64,
    place: usize,
    stream: u64,
    kind: u64,
    end: usize,
    end2: usize,
    entries: usize,
    payload: usize,
    numbers: [u64; 12],
    counts: [u64; 3],
    _later: [u64; 2],
}

const _: () = assert!(size_of::<Block>() == 200);

impl Block {
    /// What a call writes, which is given the pointer and the length of a new block.
    ///
    /// # Safety
    ///
    /// The call writes all of the block, which is not cleared before.
    #[inline]
    pub unsafe fn of(call: impl FnOnce(*mut u8, usize) -> u64) -> Block {
        let mut block = MaybeUninit::<Block>::uninit();
        call(block.as_mut_ptr().cast(), size_of::<Block>());
        // SAFETY: all of it was written, and the fields are numbers, which any bytes are.
        unsafe { block.assume_init() }
    }

    /// The answer, with what it reports of the room that was lent to the call. Inlined, as the calls are, it is the block itself: a number is loaded
    /// from there when the caller asks for it, or not at all.
    #[inline]
    pub fn answer<'r>(self, entries: &'r [u8], payload: &'r [u8]) -> Result<Answer<'r>, Refusal> {
        if self.refusal != 0 {
            return Err(Refusal { number: self.refusal, place: self.place, stream: self.stream });
        }
        let Block { kind, end, end2, numbers, counts, .. } = self;
        let (entries, payload) = (Entries(reported(entries, self.entries * ENTRY)), reported(payload, self.payload));
        Ok(Answer { kind, end, end2, numbers, counts, entries, payload })
    }
}

/// An entry or a length that is reported by a call without such room stands in the answer itself.
#[inline]
fn reported(room: &[u8], length: usize) -> &[u8] {
    room.get(..length).unwrap_or_default()
}
