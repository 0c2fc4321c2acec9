//! A view of lent bytes as numbers of 64 bits.

use crate::layout::NUMBER_SIZE;
use core::fmt;
use core::iter::Map;
use core::slice::ChunksExact;

/// Numbers of 64 bits in a row, lowest byte first, read where they lie, at any address.
///
/// It compares with slices and arrays of `u64`, and iterates over `u64`.
#[derive(Clone, Copy, PartialEq, Eq)]
pub struct Words<'a> {
    bytes: &'a [u8],
}

impl<'a> Words<'a> {
    // bytes left over at the end belong to no number
    pub(crate) fn new(bytes: &'a [u8]) -> Words<'a> {
        Words { bytes: &bytes[..bytes.len() / NUMBER_SIZE * NUMBER_SIZE] }
    }

    /// How many numbers there are.
    pub fn len(self) -> usize {
        self.bytes.len() / NUMBER_SIZE
    }

    /// Whether there is none.
    pub fn is_empty(self) -> bool {
        self.bytes.is_empty()
    }

    /// The number at an index, or none where the index is past the last.
    pub fn get(self, index: usize) -> Option<u64> {
        self.bytes.chunks_exact(NUMBER_SIZE).nth(index).map(word)
    }

    /// The last number: of a data stack's cells the one on top.
    pub fn last(self) -> Option<u64> {
        self.iter().next_back()
    }

    /// The numbers from the first on.
    pub fn iter(self) -> Iter<'a> {
        self.bytes.chunks_exact(NUMBER_SIZE).map(word)
    }
}

/// The iterator over [`Words`].
pub type Iter<'a> = Map<ChunksExact<'a, u8>, fn(&[u8]) -> u64>;

fn word(bytes: &[u8]) -> u64 {
    u64::from_le_bytes(bytes.try_into().expect("a chunk has eight bytes"))
}

impl<'a> IntoIterator for Words<'a> {
    type Item = u64;
    type IntoIter = Iter<'a>;

    fn into_iter(self) -> Iter<'a> {
        self.iter()
    }
}

impl<T: AsRef<[u64]>> PartialEq<T> for Words<'_> {
    fn eq(&self, other: &T) -> bool {
        self.iter().eq(other.as_ref().iter().copied())
    }
}

impl fmt::Debug for Words<'_> {
    fn fmt(&self, f: &mut fmt::Formatter<'_>) -> fmt::Result {
        f.debug_list().entries(self.iter()).finish()
    }
}
