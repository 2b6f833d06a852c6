//! Buffers as they are lent: among junk, or where memory ends or starts.

use std::ops::Range;

use crate::pages::Pages;

#[derive(Clone, Copy, PartialEq, Eq)]
pub enum Place {
    AmongJunk,
    /// The last item stands before an unreadable page.
    End,
    /// The first item stands behind one.
    Start,
}

impl Place {
    pub const ALL: [Place; 3] = [Place::AmongJunk, Place::End, Place::Start];
}

/// Junk comes again after so many items.
const PERIOD: usize = 251;

/// Memory for one buffer at a time, junk round it. To put many buffers in the same
/// memory costs far less than new memory would.
pub struct Memory<T> {
    pages: Pages<T>,
    /// Items of junk on either side of the buffer, as far as there is memory.
    margin: usize,
    /// A period, and a margin more.
    junk: Vec<T>,
    place: Place,
    /// Where the buffer stands.
    lent: Range<usize>,
}

/// What stands in so much of the memory where nothing is lent, no more than a margin.
fn junk_in<T>(junk: &[T], part: Range<usize>) -> &[T] {
    &junk[part.start % PERIOD..][..part.len()]
}

impl<T: Copy + From<u8> + PartialEq> Memory<T> {
    /// For buffers of up to `most` items.
    pub fn new(most: usize, margin: usize) -> Self {
        // Not 0 and not alike, so that an item taken from it shows.
        let junk = |i: usize| T::from((i * 167 % PERIOD) as u8 + 3);
        Memory {
            pages: Pages::new(most + 2 * margin),
            margin,
            junk: (0..PERIOD + margin).map(junk).collect(),
            place: Place::AmongJunk,
            lent: margin..margin,
        }
    }

    /// A buffer in memory of its own.
    pub fn holding(place: Place, buffer: &[T], margin: usize) -> Self {
        let mut memory = Memory::new(buffer.len(), margin);
        memory.put(place, buffer);
        memory
    }

    /// From now on it can only be read.
    pub fn protect(&mut self) {
        self.pages.protect();
    }

    /// The buffer with the junk before and after it.
    fn near(&self) -> Range<usize> {
        let Range { start, end } = self.lent;
        let len = self.pages.items().len();
        start.saturating_sub(self.margin)..len.min(end + self.margin)
    }

    /// The junk before the buffer and after it.
    fn round(&self) -> [Range<usize>; 2] {
        let near = self.near();
        [near.start..self.lent.start, self.lent.end..near.end]
    }

    /// Puts a buffer there, of no more than `most` items, and junk round it.
    pub fn put(&mut self, place: Place, buffer: &[T]) {
        let start = match place {
            Place::AmongJunk => self.margin,
            Place::End => self.pages.items().len() - buffer.len(),
            Place::Start => 0,
        };
        self.place = place;
        self.lent = start..start + buffer.len();
        let round = self.round();
        let items = self.pages.items_mut();
        for part in round {
            items[part.clone()].copy_from_slice(junk_in(&self.junk, part));
        }
        items[self.lent.clone()].copy_from_slice(buffer);
    }

    /// Where the first `len` items stand, with junk after the buffer where they are
    /// more; at the end of memory, the last `len`. None where there are not so many.
    fn part(&self, len: usize) -> Option<Range<usize>> {
        let Range { start, end } = self.lent;
        match self.place {
            Place::End => (len <= self.lent.len()).then(|| end - len..end),
            _ => (len <= self.lent.len() + self.margin).then(|| start..start + len),
        }
    }

    pub fn lend(&self) -> &[T] {
        &self.pages.items()[self.lent.clone()]
    }

    pub fn lend_mut(&mut self) -> &mut [T] {
        &mut self.pages.items_mut()[self.lent.clone()]
    }

    /// So many items, or None where there are not so many.
    pub fn lend_part(&self, len: usize) -> Option<&[T]> {
        Some(&self.pages.items()[self.part(len)?])
    }

    pub fn lend_part_mut(&mut self, len: usize) -> Option<&mut [T]> {
        let part = self.part(len)?;
        Some(&mut self.pages.items_mut()[part])
    }

    /// The first item, counted from the buffer's start, that is not as if `buffer`
    /// had been put there and nothing written: what it should be, and is.
    pub fn first_difference(&self, buffer: &[T]) -> Option<(isize, T, T)> {
        let (lent, items) = (&self.lent, self.pages.items());
        let is_junk = |part: Range<usize>| items[part.clone()] == *junk_in(&self.junk, part);
        if items[lent.clone()] == *buffer && self.round().into_iter().all(is_junk) {
            return None;
        }
        let should = |i: usize| match lent.contains(&i) {
            true => buffer[i - lent.start],
            false => self.junk[i % PERIOD],
        };
        let at = self.near().find(|&i| items[i] != should(i))?;
        Some((at as isize - lent.start as isize, should(at), items[at]))
    }
}
