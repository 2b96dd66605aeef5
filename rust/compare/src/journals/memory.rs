//! The memory in which a journal is lent, with the bytes between an entry's
//! fields.
//!
//! Entries hide these bytes, so a journal is made of words, lent as entries and
//! looked at as words again. That is the only unsafe code here.

#![allow(unsafe_code)]

use std::slice;

/// The words of an entry: block, offset, slot, and then for the old value and
/// for the new one its kind and its payload. In a word with a kind, the bytes
/// after it are padding.
pub type Words = [u64; 7];

/// A runner's type of entries.
///
/// # Safety
///
/// It is laid out as in C and consists of integers, so that any bytes are one.
pub unsafe trait Plain {}

// SAFETY: so they are declared.
unsafe impl Plain for second_runner::Entry {}
#[cfg(feature = "proved")]
unsafe impl Plain for muntyzhap::raw::Entry {}

/// These words as entries. Where one is assigned, its padding has no value any
/// more, and its words are not to be read.
pub fn as_entries<E: Plain>(words: &mut [Words]) -> &mut [E] {
    const {
        assert!(size_of::<E>() == size_of::<Words>());
        assert!(align_of::<E>() <= align_of::<Words>());
    }
    // SAFETY: as many entries of the same size, well aligned, good whatever
    // the words are, and borrowed in their place.
    unsafe { slice::from_raw_parts_mut(words.as_mut_ptr().cast(), words.len()) }
}
