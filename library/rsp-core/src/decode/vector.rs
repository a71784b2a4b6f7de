// The instructions of the vector unit, an enum for each group. The number of a variant is its
// function or its operation, which selects it in its group.

/// The control registers of the vector unit.
#[derive(Clone, Copy)]
pub enum Control {
    /// `$vco`, number 0: carry and not-equal, 16 bits.
    Vco,
    /// `$vcc`, number 1: compare and clip, 16 bits.
    Vcc,
    /// `$vce`, number 2, and 3 is read as 2: extra, 8 bits.
    Vce,
}

/// Multiplies of two vectors, lane by lane, into the accumulator.
#[derive(Clone, Copy)]
pub enum VectorMultiplyOp {
    /// `vmulf`: signed fractions, rounded.
    Vmulf = 0x00,
    /// `vmulu`: the same, the result unsigned.
    Vmulu = 0x01,
    /// `vmudl`: the upper half of an unsigned product.
    Vmudl = 0x04,
    /// `vmudm`: signed by unsigned.
    Vmudm = 0x05,
    /// `vmudn`: unsigned by signed.
    Vmudn = 0x06,
    /// `vmudh`: signed, 16 bits up.
    Vmudh = 0x07,
    /// `vmacf`: adds signed fractions.
    Vmacf = 0x08,
    /// `vmacu`: the same, the result unsigned.
    Vmacu = 0x09,
    /// `vmadl`: adds the upper half of an unsigned product.
    Vmadl = 0x0c,
    /// `vmadm`: adds signed by unsigned.
    Vmadm = 0x0d,
    /// `vmadn`: adds unsigned by signed.
    Vmadn = 0x0e,
    /// `vmadh`: adds signed, 16 bits up.
    Vmadh = 0x0f,
}

/// Roundings of the accumulator by its sign.
#[derive(Clone, Copy)]
pub enum VectorRoundOp {
    /// `vrndp`: if it is 0 or more.
    Vrndp = 0x02,
    /// `vrndn`: if it is negative.
    Vrndn = 0x0a,
}

/// Multiplies for MPEG coefficients.
#[derive(Clone, Copy)]
pub enum VectorMpegOp {
    /// `vmulq`: a signed product, rounded toward 0.
    Vmulq = 0x03,
    /// `vmacq`: a step of the accumulator toward an odd multiple of 32.
    Vmacq = 0x0b,
}

/// Sums and differences of two vectors, lane by lane.
#[derive(Clone, Copy)]
pub enum VectorAddOp {
    /// `vadd`: the sum with carry, clamped.
    Vadd = 0x10,
    /// `vsub`: the difference with borrow, clamped.
    Vsub = 0x11,
    /// `vabs`: the second; negated if the first is negative, and 0 if the first is 0.
    Vabs = 0x13,
    /// `vaddc`: the sum modulo 2^16; sets carry.
    Vaddc = 0x14,
    /// `vsubc`: the difference modulo 2^16; sets carry and not-equal.
    Vsubc = 0x15,
}

/// Comparisons of two vectors that select a lane of one of them.
#[derive(Clone, Copy)]
pub enum VectorSelectOp {
    /// `vlt`: the first if it is less.
    Vlt = 0x20,
    /// `veq`: if they are equal.
    Veq = 0x21,
    /// `vne`: if they differ.
    Vne = 0x22,
    /// `vge`: the first if it is not less.
    Vge = 0x23,
}

/// Clips of a vector by another, lane by lane.
#[derive(Clone, Copy)]
pub enum VectorClipOp {
    /// `vcl`: the low half, by the flags of a `vch`.
    Vcl = 0x24,
    /// `vch`: the high half, or a clip alone.
    Vch = 0x25,
    /// `vcr`: a clip in one's complement.
    Vcr = 0x26,
}

/// Logic of two vectors, bit by bit.
#[derive(Clone, Copy)]
pub enum VectorLogicOp {
    /// `vand`: the bits set in both.
    Vand = 0x28,
    /// `vnand`: the bits not set in both.
    Vnand = 0x29,
    /// `vor`: the bits set in either.
    Vor = 0x2a,
    /// `vnor`: the bits set in neither.
    Vnor = 0x2b,
    /// `vxor`: the bits that differ.
    Vxor = 0x2c,
    /// `vnxor`: the bits that agree.
    Vnxor = 0x2d,
}

/// Instructions that write one lane: the divider, and a move.
#[derive(Clone, Copy)]
pub enum VectorDivideOp {
    /// `vrcp`: the reciprocal of a 16-bit number.
    Vrcp = 0x30,
    /// `vrcpl`: the reciprocal of a 32-bit number, whose high half `vrcph` took.
    Vrcpl = 0x31,
    /// `vrcph`: returns the high half of the last result, and takes a high half.
    Vrcph = 0x32,
    /// `vmov`: copies a lane.
    Vmov = 0x33,
    /// `vrsq`: the inverse square root of a 16-bit number.
    Vrsq = 0x34,
    /// `vrsql`: the inverse square root of a 32-bit number, whose high half `vrsqh` took.
    Vrsql = 0x35,
    /// `vrsqh`: as `vrcph`.
    Vrsqh = 0x36,
}

/// Instructions of the vector unit that change nothing.
#[derive(Clone, Copy)]
pub enum VectorNopOp {
    /// `vnop`.
    Vnop = 0x37,
    /// `vnull`.
    Vnull = 0x3f,
}

/// Loads of a vector register from DMEM.
#[derive(Clone, Copy)]
pub enum VectorLoadOp {
    /// `lbv`: one byte.
    Lbv = 0x00,
    /// `lsv`: two bytes.
    Lsv = 0x01,
    /// `llv`: four bytes.
    Llv = 0x02,
    /// `ldv`: eight bytes.
    Ldv = 0x03,
    /// `lqv`: from the address to the end of its quadword.
    Lqv = 0x04,
    /// `lrv`: from the start of its quadword up to the address.
    Lrv = 0x05,
    /// `lpv`: eight bytes, each the high byte of a lane.
    Lpv = 0x06,
    /// `luv`: eight bytes, each half as high as by `lpv`.
    Luv = 0x07,
    /// `lhv`: every second byte, placed as by `luv`.
    Lhv = 0x08,
    /// `lfv`: every fourth byte, into four lanes; its element is 0 or 8.
    Lfv = 0x09,
    /// `ltv`: a quadword, spread over a group of eight registers.
    Ltv = 0x0b,
}

/// Stores of a vector register to DMEM.
#[derive(Clone, Copy)]
pub enum VectorStoreOp {
    /// `sbv`: one byte.
    Sbv = 0x00,
    /// `ssv`: two bytes.
    Ssv = 0x01,
    /// `slv`: four bytes.
    Slv = 0x02,
    /// `sdv`: eight bytes.
    Sdv = 0x03,
    /// `sqv`: from the address to the end of its quadword.
    Sqv = 0x04,
    /// `srv`: from the start of its quadword up to the address.
    Srv = 0x05,
    /// `spv`: eight bytes, the high byte of a lane for each at element 0.
    Spv = 0x06,
    /// `suv`: eight bytes, bits 14 to 7 of a lane for each at element 0.
    Suv = 0x07,
    /// `shv`: bits 14 to 7 of each lane, to every second address.
    Shv = 0x08,
    /// `sfv`: those of four lanes, to every fourth address; its element is 0 or 8.
    Sfv = 0x09,
    /// `swv`: all sixteen bytes; the address wraps in a quadword.
    Swv = 0x0a,
    /// `stv`: a quadword, gathered from a group of eight registers.
    Stv = 0x0b,
}
