//! Bytes to lend: mapped memory, and blocks of it between canaries or before a page that nobody may read. A block is mapped a second time
//! where nobody may write.

use std::ffi::c_void;
use std::fs::File;
use std::os::raw::c_char;
use std::os::unix::io::{AsRawFd, FromRawFd};

extern "C" {
    fn mmap(at: *mut c_void, len: usize, protection: i32, flags: i32, file: i32, offset: i64) -> *mut c_void;
    fn munmap(at: *mut c_void, len: usize) -> i32;
    fn mprotect(at: *mut c_void, len: usize, protection: i32) -> i32;
    fn memfd_create(name: *const c_char, flags: u32) -> i32;
}

const READ: i32 = 1;
const READ_AND_WRITE: i32 = 1 | 2;
const SHARED: i32 = 1;
const ANONYMOUS: i32 = 0x20;
const PAGE: usize = 4096;

/// Mapped memory. A forked child and its parent share it.
pub struct Mapped {
    at: *mut u8,
    len: usize,
}

impl Mapped {
    /// Of the open file, or of no file.
    pub fn new(len: usize, file: Option<i32>) -> Mapped {
        Mapped::protected(len, file, READ_AND_WRITE)
    }

    fn protected(len: usize, file: Option<i32>, protection: i32) -> Mapped {
        let flags = if file.is_some() { SHARED } else { SHARED | ANONYMOUS };
        let at = unsafe { mmap(std::ptr::null_mut(), len, protection, flags, file.unwrap_or(-1), 0) };
        assert!(at as isize != -1, "no memory was mapped: {}", std::io::Error::last_os_error());
        Mapped { at: at.cast(), len }
    }

    pub fn bytes(&mut self) -> &mut [u8] {
        unsafe { std::slice::from_raw_parts_mut(self.at, self.len) }
    }
}

impl Drop for Mapped {
    fn drop(&mut self) {
        unsafe { munmap(self.at.cast(), self.len) };
    }
}

/// So many bytes of memory that can be mapped more than once.
fn nameless(len: usize) -> File {
    let file = unsafe { memfd_create(b"block\0".as_ptr().cast(), 0) };
    assert!(file >= 0, "no memory to map: {}", std::io::Error::last_os_error());
    // The descriptor is new, and nobody else's.
    let file = unsafe { File::from_raw_fd(file) };
    file.set_len(len as u64).expect("so many bytes");
    file
}

const CANARY: u8 = 0xa5;

/// The canary bytes before a block, and behind it where there is room.
const ROOM: usize = 64;

/// Takes blocks of up to `most` bytes. A block is put among canaries, at any alignment, or so that it ends where memory ends.
pub struct Block {
    mapped: Mapped,
    /// The same memory, to be read alone.
    sealed: Mapped,
    usable: usize,
    from: usize,
    len: usize,
}

impl Block {
    pub fn new(most: usize) -> Block {
        let usable = (most + 2 * ROOM + 4 + PAGE - 1) / PAGE * PAGE;
        let file = nameless(usable + PAGE);
        let [mapped, sealed] = [READ_AND_WRITE, READ].map(|protection| {
            let mapped = Mapped::protected(usable + PAGE, Some(file.as_raw_fd()), protection);
            let status = unsafe { mprotect(mapped.at.add(usable).cast(), PAGE, 0) };
            assert_eq!(status, 0, "{}", std::io::Error::last_os_error());
            mapped
        });
        Block { mapped, sealed, usable, from: 0, len: 0 }
    }

    fn around(&mut self) -> [&mut [u8]; 3] {
        let (from, to) = (self.from, self.from + self.len);
        let end = self.usable.min(to + ROOM);
        let (before, rest) = self.mapped.bytes()[..end].split_at_mut(from);
        let (block, after) = rest.split_at_mut(to - from);
        [&mut before[from - ROOM..], block, after]
    }

    /// Puts these bytes in a block; where, is chosen by `turn`.
    pub fn put(&mut self, bytes: &[u8], turn: usize) {
        self.len = bytes.len();
        self.from = if turn % 2 == 0 { ROOM + turn / 2 % 4 } else { self.usable - bytes.len() };
        let [before, block, after] = self.around();
        before.fill(CANARY);
        block.copy_from_slice(bytes);
        after.fill(CANARY);
    }

    pub fn lent(&mut self) -> &mut [u8] {
        let [_, block, _] = self.around();
        block
    }

    /// The same bytes, where nobody may write.
    pub fn sealed(&self) -> &[u8] {
        unsafe { std::slice::from_raw_parts(self.sealed.at.add(self.from), self.len) }
    }

    /// Puts these words in a block, at an even address.
    pub fn put_words(&mut self, words: &[u16], turn: usize) {
        let bytes: Vec<u8> = words.iter().flat_map(|word| word.to_ne_bytes()).collect();
        self.put(&bytes, turn / 2 * 4 + turn % 2);
    }

    pub fn lent_words(&mut self) -> &mut [u16] {
        // Any two bytes are a word.
        let (before, words, after) = unsafe { self.lent().align_to_mut() };
        assert!(before.is_empty() && after.is_empty(), "no words were put");
        words
    }

    /// Are the canaries as they were?
    pub fn intact(&mut self) -> bool {
        let [before, _, after] = self.around();
        before.iter().chain(after.iter()).all(|&byte| byte == CANARY)
    }
}
