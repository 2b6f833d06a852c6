//! Where buffers are lent: among junk or, guarded, up to an unreadable page.

use cases::{Memory, Place};

/// The longest slice that can be lent is this much longer than its buffer.
pub const LONGER: usize = 4_096;

/// The buffer in memory of its own, which can be written.
pub fn lent<T: Copy + From<u8> + PartialEq>(buffer: &[T], guarded: bool) -> Memory<T> {
    let place = if guarded {
        Place::End
    } else {
        Place::AmongJunk
    };
    Memory::holding(place, buffer, LONGER)
}

/// One buffer in both places, only to be read.
pub struct LentTwice<T> {
    among_junk: Memory<T>,
    guarded: Memory<T>,
}

impl<T: Copy + From<u8> + PartialEq> LentTwice<T> {
    pub fn new(buffer: &[T]) -> Self {
        let mut twice = LentTwice {
            among_junk: lent(buffer, false),
            guarded: lent(buffer, true),
        };
        twice.among_junk.protect();
        twice.guarded.protect();
        twice
    }

    /// None where there are not so many items.
    pub fn lend(&self, guarded: bool, len: usize) -> Option<&[T]> {
        let memory = if guarded {
            &self.guarded
        } else {
            &self.among_junk
        };
        memory.lend_part(len)
    }
}
