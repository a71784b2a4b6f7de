/// The weight of a flag's bit if the flag is set, else 0.
#[inline]
pub(crate) fn flag(value: bool, weight: u32) -> u32 {
    if value { weight } else { 0 }
}

/// Whether bit `n` of a word is 1.
#[inline]
pub(crate) fn bit_set(value: u32, n: u32) -> bool {
    value >> n & 1 == 1
}

/// A flag after a write of a word: bit `n` clears it, and bit `n + 1` sets it. Both or neither keep
/// it.
#[inline]
pub(crate) fn after_clear_set(value: u32, n: u32, old: bool) -> bool {
    match (bit_set(value, n), bit_set(value, n + 1)) {
        (true, false) => false,
        (false, true) => true,
        _ => old,
    }
}

/// Whether SP register `n` is a length register, SP_RD_LEN or SP_WR_LEN. Its number is taken modulo
/// 16. A write of it does a DMA.
#[inline(always)]
pub fn is_length_register(n: u32) -> bool {
    n % 16 == 2 || n % 16 == 3
}
