use crate::memory::splice::{splice, splice_words};
use crate::support::{BigEndian, ByteOrder};

/// DMEM or IMEM: 4096 bytes, whose addresses wrap from the last byte to the first.
///
/// The address of each byte is taken modulo 4096, so an access needs no alignment. Halfwords and
/// words are big-endian.
pub struct SpMem {
    bytes: [u8; 4096],
}

impl SpMem {
    /// A memory of zeros.
    pub fn new() -> SpMem {
        SpMem { bytes: [0; 4096] }
    }

    /// All the bytes, in place.
    #[inline(always)]
    pub fn bytes(&self) -> &[u8; 4096] {
        &self.bytes
    }

    /// The byte at address `a`.
    #[inline]
    pub fn byte(&self, a: u32) -> u8 {
        self.bytes[(a % 4096) as usize]
    }

    /// Writes one byte at address `a`.
    #[inline]
    pub fn set_byte(&mut self, a: u32, b: u8) {
        self.bytes[(a % 4096) as usize] = b;
    }

    /// The halfword at address `a`.
    #[inline]
    pub fn half(&self, a: u32) -> u16 {
        BigEndian::read_u16(&[self.byte(a), self.byte(a.wrapping_add(1))])
    }

    /// Writes a halfword at address `a`.
    #[inline]
    pub fn set_half(&mut self, a: u32, h: u16) {
        let mut bytes = [0; 2];
        BigEndian::write_u16(&mut bytes, h);
        let [high, low] = bytes;
        self.set_byte(a, high);
        self.set_byte(a.wrapping_add(1), low);
    }

    /// The word at address `a`.
    #[inline]
    pub fn word(&self, a: u32) -> u32 {
        let at = (a % 4096) as usize;
        if at <= 4092 {
            BigEndian::read_u32(&[
                self.bytes[at],
                self.bytes[at + 1],
                self.bytes[at + 2],
                self.bytes[at + 3],
            ])
        } else {
            self.wrapping_word(a)
        }
    }

    /// The word at an address, a multiple of 4 below 4096: none of its bytes wraps.
    #[inline(always)]
    pub fn aligned_word(&self, address: usize) -> u32 {
        BigEndian::read_u32(&[
            self.bytes[address],
            self.bytes[address + 1],
            self.bytes[address + 2],
            self.bytes[address + 3],
        ])
    }

    /// The word at address `a`, byte by byte, since some of its bytes wrap.
    #[cold]
    fn wrapping_word(&self, a: u32) -> u32 {
        BigEndian::read_u32(&[
            self.byte(a),
            self.byte(a.wrapping_add(1)),
            self.byte(a.wrapping_add(2)),
            self.byte(a.wrapping_add(3)),
        ])
    }

    /// Writes a word at address `a`.
    #[inline(always)]
    pub fn set_word(&mut self, a: u32, w: u32) {
        let at = (a % 4096) as usize;
        if at <= 4092 {
            let mut bytes = [0; 4];
            BigEndian::write_u32(&mut bytes, w);
            splice(&mut self.bytes, at, &bytes);
        } else {
            self.set_wrapping_word(a, w);
        }
    }

    /// Writes a word at address `a`, byte by byte, since some of its bytes wrap.
    #[cold]
    fn set_wrapping_word(&mut self, a: u32, w: u32) {
        let mut bytes = [0; 4];
        BigEndian::write_u32(&mut bytes, w);
        let [first, second, third, fourth] = bytes;
        self.set_byte(a, first);
        self.set_byte(a.wrapping_add(1), second);
        self.set_byte(a.wrapping_add(2), third);
        self.set_byte(a.wrapping_add(3), fourth);
    }

    /// The sixteen bytes from address `a` on, in place; None if some of them wrap. No vector load
    /// or store reaches more.
    #[inline(always)]
    pub fn whole_window(&self, a: u32) -> Option<&[u8; 16]> {
        self.bytes[(a % 4096) as usize..].first_chunk::<16>()
    }

    /// The sixteen bytes from address `a` on, byte by byte, since some of them wrap: for a caller
    /// that got None from [`SpMem::whole_window`].
    /// It isn't inlined, since its single bytes would break up the one read of sixteen bytes beside
    /// it.
    #[cold]
    #[inline(never)]
    pub fn window(&self, a: u32) -> [u8; 16] {
        [
            self.byte(a),
            self.byte(a.wrapping_add(1)),
            self.byte(a.wrapping_add(2)),
            self.byte(a.wrapping_add(3)),
            self.byte(a.wrapping_add(4)),
            self.byte(a.wrapping_add(5)),
            self.byte(a.wrapping_add(6)),
            self.byte(a.wrapping_add(7)),
            self.byte(a.wrapping_add(8)),
            self.byte(a.wrapping_add(9)),
            self.byte(a.wrapping_add(10)),
            self.byte(a.wrapping_add(11)),
            self.byte(a.wrapping_add(12)),
            self.byte(a.wrapping_add(13)),
            self.byte(a.wrapping_add(14)),
            self.byte(a.wrapping_add(15)),
        ]
    }

    /// At most `n` bytes from address `a` on, up to the first that wraps: at least one, unless `n`
    /// is 0.
    pub fn run(&self, a: u32, n: usize) -> &[u8] {
        let at = (a % 4096) as usize;
        &self.bytes[at..at + n.min(4096 - at)]
    }

    /// Writes consecutive bytes, at most 4096, from address `a` on.
    #[inline(always)]
    pub fn set_bytes(&mut self, a: u32, bytes: &[u8]) {
        let at = (a % 4096) as usize;
        if bytes.len() <= 4096 - at {
            splice(&mut self.bytes, at, bytes);
        } else {
            self.set_wrapping_bytes(a, bytes);
        }
    }

    /// Writes consecutive words from address `a` on, the highest byte of each first. None of their
    /// bytes may wrap.
    #[inline(always)]
    pub fn set_words(&mut self, a: u32, words: &[u32]) {
        splice_words(&mut self.bytes, a as usize, words);
    }

    /// Writes consecutive bytes, at most 4096, from address `a` on. Some of them wrap.
    #[cold]
    #[inline(never)]
    fn set_wrapping_bytes(&mut self, a: u32, bytes: &[u8]) {
        let at = (a % 4096) as usize;
        let (front, back) = bytes.split_at(bytes.len().min(4096 - at));
        splice(&mut self.bytes, at, front);
        splice(&mut self.bytes, 0, back);
    }
}
