//! The part of `core::simd` that the lanes use, over arrays, because stable Rust has none. LLVM compiles nearly all of it to vector
//! instructions; only a shuffle of bytes and the bits of a mask need their own.
use core::array::from_fn;
use core::ops::{Add, BitAnd, BitOr, BitXor, Index, Mul, Not, Shl, Shr, Sub};

#[derive(Clone, Copy, PartialEq, Eq, Debug)]
#[repr(C, align(16))]
pub struct Simd<T, const N: usize>([T; N]);
/// Lanes of all ones or 0.
#[derive(Clone, Copy, PartialEq, Eq, Debug)]
#[repr(C, align(16))]
pub struct Mask<T, const N: usize>([T; N]);

pub type u8x16 = Simd<u8, 16>;
pub type u16x8 = Simd<u16, 8>;
pub type i16x8 = Simd<i16, 8>;
pub type i32x8 = Simd<i32, 8>;
pub type u32x8 = Simd<u32, 8>;
pub type mask16x8 = Mask<i16, 8>;

impl<T: Copy, const N: usize> Simd<T, N> {
    #[inline(always)]
    pub const fn splat(value: T) -> Self {
        Simd([value; N])
    }
    #[inline(always)]
    pub const fn from_array(lanes: [T; N]) -> Self {
        Simd(lanes)
    }
    #[inline(always)]
    pub fn from_slice(lanes: &[T]) -> Self {
        Simd(*lanes[..N].first_chunk::<N>().unwrap())
    }
    #[inline(always)]
    pub const fn to_array(self) -> [T; N] {
        self.0
    }
    #[inline(always)]
    fn zip<R>(self, o: Self, f: impl Fn(T, T) -> R) -> [R; N] {
        from_fn(|i| f(self.0[i], o.0[i]))
    }
    #[inline(always)]
    pub fn cast<U: CastFrom<T>>(self) -> Simd<U, N> {
        Simd(self.0.map(U::of))
    }
    #[inline(always)]
    pub fn swizzle(self, indices: [usize; N]) -> Self {
        Simd(indices.map(|i| self.0[i]))
    }
    #[inline(always)]
    pub fn extract<const START: usize, const LEN: usize>(self) -> Simd<T, LEN> {
        Simd(from_fn(|i| self.0[START + i]))
    }
    #[inline(always)]
    pub fn deinterleave(self, o: Self) -> (Self, Self) {
        let at = |i: usize| if i < N { self.0[i] } else { o.0[i - N] };
        (
            Simd(from_fn(|i| at(2 * i))),
            Simd(from_fn(|i| at(2 * i + 1))),
        )
    }
}
impl<T, const N: usize> Index<usize> for Simd<T, N> {
    type Output = T;
    #[inline(always)]
    fn index(&self, i: usize) -> &T {
        &self.0[i]
    }
}
pub trait CastFrom<T> {
    fn of(value: T) -> Self;
}
macro_rules! casts { ($($from:ty => $to:ty),*) => { $(impl CastFrom<$from> for $to {
    #[inline(always)]
    fn of(value: $from) -> $to { value as $to }
})* } }
casts!(u16 => u32, u32 => u16, i16 => i32, i32 => i16, u8 => u16);
macro_rules! operators { ($t:ty, $n:literal, $mask:ty) => {
    operators!(@ $t, $n, Add add wrapping_add, Sub sub wrapping_sub, Mul mul wrapping_mul, BitAnd bitand bitand, BitOr bitor bitor, BitXor bitxor bitxor);
    impl Shl for Simd<$t, $n> { type Output = Self; #[inline(always)] fn shl(self, o: Self) -> Self { Simd(self.zip(o, |a, b| a << (b & (<$t>::BITS as $t - 1)))) } }
    impl Shr for Simd<$t, $n> { type Output = Self; #[inline(always)] fn shr(self, o: Self) -> Self { Simd(self.zip(o, |a, b| a >> (b & (<$t>::BITS as $t - 1)))) } }
    impl Not for Simd<$t, $n> { type Output = Self; #[inline(always)] fn not(self) -> Self { Simd(self.0.map(|a| !a)) } }
    impl Simd<$t, $n> {
        #[inline(always)] pub fn simd_min(self, o: Self) -> Self { Simd(self.zip(o, |a, b| a.min(b))) }
        #[inline(always)] pub fn simd_max(self, o: Self) -> Self { Simd(self.zip(o, |a, b| a.max(b))) }
        #[inline(always)] pub fn simd_lt(self, o: Self) -> Mask<$mask, $n> { Mask(self.zip(o, |a, b| -<$mask>::from(a < b))) }
        #[inline(always)] pub fn simd_eq(self, o: Self) -> Mask<$mask, $n> { Mask(self.zip(o, |a, b| -<$mask>::from(a == b))) }
        #[inline(always)] pub fn simd_ne(self, o: Self) -> Mask<$mask, $n> { Mask(self.zip(o, |a, b| -<$mask>::from(a != b))) }
    }
};
(@ $t:ty, $n:literal, $($trait:ident $f:ident $g:ident),*) => { $(impl $trait for Simd<$t, $n> {
    type Output = Self;
    #[inline(always)]
    fn $f(self, o: Self) -> Self { Simd(self.zip(o, |a, b| a.$g(b))) }
})* } }
operators!(u8, 16, i8);
operators!(u16, 8, i16);
operators!(i16, 8, i16);
operators!(i32, 8, i32);
operators!(u32, 8, i32);
impl Simd<i32, 8> {
    /// A product that fits: both factors are numbers of 16 bits.
    #[inline(always)]
    pub fn strict_mul(self, o: Self) -> Self {
        self * o
    }
}
macro_rules! bytes { ($($t:ty),*) => { $(impl Simd<$t, 8> {
    #[inline(always)]
    pub fn to_le_bytes(self) -> u8x16 { Simd(if cfg!(target_endian = "little") { unsafe { core::mem::transmute::<[$t; 8], [u8; 16]>(self.0) } } else { from_fn(|i| self.0[i / 2].to_le_bytes()[i % 2]) }) }
    #[inline(always)]
    pub fn from_le_bytes(b: u8x16) -> Self { Simd(if cfg!(target_endian = "little") { unsafe { core::mem::transmute::<[u8; 16], [$t; 8]>(b.0) } } else { from_fn(|i| <$t>::from_le_bytes([b.0[2 * i], b.0[2 * i + 1]])) }) }
})* } }
bytes!(u16, i16);
impl Simd<u8, 16> {
    /// Byte `indices[i]` at each place, and 0 for an index above 15.
    #[inline(always)]
    pub fn swizzle_dyn(self, indices: Self) -> Self {
        #[cfg(target_arch = "x86_64")]
        if x86::has_shuffle() {
            return Simd(unsafe { x86::shuffled(self.0, indices.0) });
        }
        #[cfg(target_arch = "aarch64")]
        return Simd(unsafe {
            core::mem::transmute(core::arch::aarch64::vqtbl1q_u8(
                core::mem::transmute(self.0),
                core::mem::transmute(indices.0),
            ))
        });
        #[cfg(not(target_arch = "aarch64"))]
        Simd(indices.0.map(|i| {
            if i < 16 {
                self.0[usize::from(i & 15)]
            } else {
                0
            }
        }))
    }
}

/// The shuffle of SSSE3, where the processor has it: most since 2006, but a program for any x86-64 may not take it for granted.
#[cfg(target_arch = "x86_64")]
mod x86 {
    use core::arch::x86_64::{__cpuid, __m128i, _mm_adds_epu8, _mm_set1_epi8, _mm_shuffle_epi8};
    use core::mem::transmute;
    use core::sync::atomic::{AtomicU8, Ordering};

    const UNKNOWN: u8 = 2;
    static FOUND: AtomicU8 = AtomicU8::new(UNKNOWN);

    #[inline(always)]
    pub fn has_shuffle() -> bool {
        cfg!(target_feature = "ssse3")
            || match FOUND.load(Ordering::Relaxed) {
                UNKNOWN => find(),
                found => found == 1,
            }
    }

    #[cold]
    #[allow(unused_unsafe)] // a call without a precondition, as later versions of Rust have it
    fn find() -> bool {
        let has = unsafe { __cpuid(1) }.ecx >> 9 & 1 == 1;
        FOUND.store(has.into(), Ordering::Relaxed);
        has
    }

    /// Requires SSSE3.
    #[target_feature(enable = "ssse3")]
    pub fn shuffled(bytes: [u8; 16], indices: [u8; 16]) -> [u8; 16] {
        // An index above 15 gets its highest bit, for which the instruction has 0.
        let (bytes, indices): (__m128i, __m128i) =
            unsafe { (transmute(bytes), transmute(indices)) };
        unsafe {
            transmute(_mm_shuffle_epi8(
                bytes,
                _mm_adds_epu8(indices, _mm_set1_epi8(0x70)),
            ))
        }
    }
}

macro_rules! masks { ($($t:ty, $of:ty, $n:literal);*) => { $(
    impl Mask<$t, $n> {
        #[inline(always)] pub fn splat(value: bool) -> Self { Mask([-<$t>::from(value); $n]) }
        #[inline(always)] pub fn select(self, a: Simd<$of, $n>, b: Simd<$of, $n>) -> Simd<$of, $n> { Simd(from_fn(|i| (a.0[i] & self.0[i] as $of) | (b.0[i] & !self.0[i] as $of))) }
        #[inline(always)] pub fn all(self) -> bool { self.0.iter().all(|&lane| lane != 0) }
    }
    impl BitAnd for Mask<$t, $n> { type Output = Self; #[inline(always)] fn bitand(self, o: Self) -> Self { Mask(from_fn(|i| self.0[i] & o.0[i])) } }
    impl BitOr for Mask<$t, $n> { type Output = Self; #[inline(always)] fn bitor(self, o: Self) -> Self { Mask(from_fn(|i| self.0[i] | o.0[i])) } }
    impl BitXor for Mask<$t, $n> { type Output = Self; #[inline(always)] fn bitxor(self, o: Self) -> Self { Mask(from_fn(|i| self.0[i] ^ o.0[i])) } }
    impl Not for Mask<$t, $n> { type Output = Self; #[inline(always)] fn not(self) -> Self { Mask(self.0.map(|a| !a)) } }
)* } }
masks!(i16, u16, 8; i8, u8, 16);
impl Mask<i16, 8> {
    #[inline(always)]
    pub fn to_bitmask(self) -> u64 {
        #[cfg(target_arch = "x86_64")]
        {
            use core::arch::x86_64::*;
            unsafe {
                (_mm_movemask_epi8(_mm_packs_epi16(
                    core::mem::transmute(self.0),
                    _mm_setzero_si128(),
                )) & 255) as u64
            }
        }
        #[cfg(not(target_arch = "x86_64"))]
        (0..8).fold(0, |bits, i| bits | u64::from(self.0[i] != 0) << i)
    }
}
pub mod prelude {
    pub use super::*;
}
