//! A file mapped into memory by C's `mmap`: a recording of gigabytes takes no memory but for what is looked at. The one module with `unsafe`.
//!
//! The file must not change while it is mapped. Where it is cut short meanwhile, the system ends the program (SIGBUS).
use std::ffi::{c_int, c_void};
use std::fs::File;
use std::io;
use std::ops::Deref;
use std::os::fd::AsRawFd;
use std::ptr;
use std::slice;

// As in C's <sys/mman.h> on Linux of 64 bits.
const PROT_READ: c_int = 1;
const MAP_PRIVATE: c_int = 2;

extern "C" {
    fn mmap(address: *mut c_void, length: usize, protection: c_int, flags: c_int, file: c_int, offset: i64) -> *mut c_void;
    fn munmap(address: *mut c_void, length: usize) -> c_int;
}

/// A mapping that only reads.
pub struct Map {
    address: *mut c_void,
    length: usize,
}

impl Map {
    /// The first bytes of a file. A length of 0 is an error, as is one that does not fit into memory.
    pub fn new(file: &File, length: u64) -> io::Result<Map> {
        let length = usize::try_from(length).map_err(io::Error::other)?;
        // SAFETY: the system chooses the address, so nothing that is in use is mapped over; the file's descriptor is open.
        let address = unsafe { mmap(ptr::null_mut(), length, PROT_READ, MAP_PRIVATE, file.as_raw_fd(), 0) };
        // MAP_FAILED is the address -1.
        if address as isize == -1 {
            return Err(io::Error::last_os_error());
        }
        Ok(Map { address, length })
    }
}

impl Deref for Map {
    type Target = [u8];

    fn deref(&self) -> &[u8] {
        // SAFETY: the mapping has `length` bytes that may be read, until it is dropped.
        unsafe { slice::from_raw_parts(self.address.cast(), self.length) }
    }
}

impl Drop for Map {
    fn drop(&mut self) {
        // SAFETY: the address and the length of a mapping, of which no slice is left.
        unsafe {
            munmap(self.address, self.length);
        }
    }
}
