/// Sixteen bits sign-extended to 32: bit 15 is repeated in bits 31 to 16.
#[inline(always)]
pub fn sign_extend(n: u16) -> u32 {
    (n.cast_signed() as i32).cast_unsigned()
}
