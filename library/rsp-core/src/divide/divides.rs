use crate::acc::Acc;
use crate::divide::Divider;
use crate::divide::divider::signed;
use crate::divide::op::DivideOp;
use crate::divide::quotients::{reciprocal, root};
use crate::lanes::{VReg, select};

/// Executes a divide instruction, VMOV, VNOP or VNULL: writes lane `de` of `vd`, and the divider.
/// VNOP and VNULL change nothing.
///
/// The source is lane `e` modulo 8 of `vt`, the register as it was before the instruction. The
/// lanes of `vt` that element `e` selects are written to the low sixteen bits of the accumulators.
/// Requires `e` below 16 and `de` below 8.
#[inline(always)]
pub fn divide_op<A: Acc>(
    op: DivideOp,
    e: usize,
    de: usize,
    vt: &VReg,
    vd: &mut VReg,
    divider: &mut Divider,
    acc: &mut A,
) {
    if !writes(op) {
        return;
    }
    let source = vt.lane(e % 8);
    let selected = select(vt, e);
    vd.set_lane(de, division(op, divider, source, selected.lane(de)));
    acc.set_low(&selected);
}

/// Whether the instruction writes a lane.
#[inline(always)]
fn writes(op: DivideOp) -> bool {
    !matches!(op, DivideOp::Vnop | DivideOp::Vnull)
}

/// What the instruction writes to its lane, from the source and the selected lane. It also updates
/// the divider.
#[inline(always)]
fn division(op: DivideOp, divider: &mut Divider, source: u16, selected: u16) -> u16 {
    match op {
        DivideOp::Vrcp => divider.divided(reciprocal(signed(source))),
        DivideOp::Vrcpl => divider.divided(reciprocal(divider.operand(source))),
        DivideOp::Vrcph | DivideOp::Vrsqh => divider.load(source),
        DivideOp::Vmov | DivideOp::Vnop | DivideOp::Vnull => selected,
        DivideOp::Vrsq => divider.divided(root(signed(source))),
        DivideOp::Vrsql => divider.divided(root(divider.operand(source))),
    }
}
