// The operation, in its group's crate, of each vector instruction. These crates don't know the
// instruction table, so a name of the table is translated here, by one match for each group, which
// the compiler folds. It costs a second name for 43 instructions. Scalar instructions, vector loads
// and stores have no operations: their crates take the `Inst` itself, whose fields they read.

use crate::compare::{AddOp, ClipOp, LogicOp, SelectOp};
use crate::decode::{
    VectorAddOp, VectorClipOp, VectorDivideOp, VectorLogicOp, VectorMpegOp, VectorMultiplyOp,
    VectorNopOp, VectorRoundOp, VectorSelectOp,
};
use crate::divide::DivideOp;
use crate::multiply::{MpegOp, MultiplyOp, RoundOp};

/// The variant of `$to` that has the name of `$op`, a variant of `$from`.
macro_rules! same_name {
    ($op:expr, $from:ident => $to:ident: $($name:ident)*) => {
        match $op {
            $($from::$name => $to::$name,)*
        }
    };
}

/// The operation of a multiply.
#[inline(always)]
pub(crate) fn multiply_of(op: VectorMultiplyOp) -> MultiplyOp {
    same_name!(op, VectorMultiplyOp => MultiplyOp:
        Vmulf Vmulu Vmudl Vmudm Vmudn Vmudh Vmacf Vmacu Vmadl Vmadm Vmadn Vmadh)
}

/// The operation of a rounding of the accumulators.
#[inline(always)]
pub(crate) fn round_of(op: VectorRoundOp) -> RoundOp {
    same_name!(op, VectorRoundOp => RoundOp: Vrndp Vrndn)
}

/// The operation of a multiply for MPEG coefficients.
#[inline(always)]
pub(crate) fn mpeg_of(op: VectorMpegOp) -> MpegOp {
    same_name!(op, VectorMpegOp => MpegOp: Vmulq Vmacq)
}

/// The operation of a sum or a difference.
#[inline(always)]
pub(crate) fn add_of(op: VectorAddOp) -> AddOp {
    same_name!(op, VectorAddOp => AddOp: Vadd Vsub Vabs Vaddc Vsubc)
}

/// The operation of a comparison.
#[inline(always)]
pub(crate) fn select_of(op: VectorSelectOp) -> SelectOp {
    same_name!(op, VectorSelectOp => SelectOp: Vlt Veq Vne Vge)
}

/// The operation of a clip.
#[inline(always)]
pub(crate) fn clip_of(op: VectorClipOp) -> ClipOp {
    same_name!(op, VectorClipOp => ClipOp: Vcl Vch Vcr)
}

/// The operation of a logic instruction.
#[inline(always)]
pub(crate) fn logic_of(op: VectorLogicOp) -> LogicOp {
    same_name!(op, VectorLogicOp => LogicOp: Vand Vnand Vor Vnor Vxor Vnxor)
}

/// The operation of an instruction that writes one lane.
#[inline(always)]
pub(crate) fn divide_of(op: VectorDivideOp) -> DivideOp {
    same_name!(op, VectorDivideOp => DivideOp: Vrcp Vrcpl Vrcph Vmov Vrsq Vrsql Vrsqh)
}

/// The operation of an instruction of that group that changes nothing.
#[inline(always)]
pub(crate) fn idle_of(op: VectorNopOp) -> DivideOp {
    same_name!(op, VectorNopOp => DivideOp: Vnop Vnull)
}
