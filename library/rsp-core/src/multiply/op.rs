// The operations of this crate, each named as its instruction.

/// The twelve multiplies, lane by lane. The first six replace the accumulator, the last six add to
/// it; the result is a clamp of the accumulator. sa and sb are the lanes of vs and of the selected
/// vt as signed values, ua and ub as unsigned ones.
#[derive(Clone, Copy)]
pub enum MultiplyOp {
    /// `vmulf`: 2 sa sb + 32768, a rounded fraction; signed clamp.
    Vmulf,
    /// `vmulu`: 2 sa sb + 32768; unsigned clamp.
    Vmulu,
    /// `vmudl`: ua ub / 65536, rounded down; low clamp.
    Vmudl,
    /// `vmudm`: sa ub; signed clamp.
    Vmudm,
    /// `vmudn`: ua sb; low clamp.
    Vmudn,
    /// `vmudh`: 65536 sa sb; signed clamp.
    Vmudh,
    /// `vmacf`: adds 2 sa sb; signed clamp.
    Vmacf,
    /// `vmacu`: adds 2 sa sb; unsigned clamp.
    Vmacu,
    /// `vmadl`: adds ua ub / 65536, rounded down; low clamp.
    Vmadl,
    /// `vmadm`: adds sa ub; signed clamp.
    Vmadm,
    /// `vmadn`: adds ua sb; low clamp.
    Vmadn,
    /// `vmadh`: adds 65536 sa sb; signed clamp.
    Vmadh,
}

/// Instructions that add to the accumulators of one sign, to round them.
#[derive(Clone, Copy)]
pub enum RoundOp {
    /// `vrndp`: to those that are 0 or more.
    Vrndp,
    /// `vrndn`: to the negative ones.
    Vrndn,
}

/// Multiplies for MPEG coefficients.
#[derive(Clone, Copy)]
pub enum MpegOp {
    /// `vmulq`: a signed product, rounded toward 0.
    Vmulq,
    /// `vmacq`: adds 32 to, or subtracts it from, bits 47 to 16 of the accumulator, toward 0.
    Vmacq,
}
