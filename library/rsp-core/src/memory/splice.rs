use crate::support::{BigEndian, ByteOrder};

/// Overwrites the bytes of a list from index `at` on.
#[inline(always)]
pub(crate) fn splice(list: &mut [u8], at: usize, bytes: &[u8]) {
    list[at..at + bytes.len()].copy_from_slice(bytes);
}

/// Overwrites the bytes of a list from index `at` on by those of words, the highest of each word
/// first.
#[inline(always)]
pub(crate) fn splice_words(list: &mut [u8], at: usize, words: &[u32]) {
    BigEndian::write_u32_into(words, &mut list[at..at + 4 * words.len()]);
}
