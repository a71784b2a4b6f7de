use crate::decode::{BranchEqualOp, BranchSignOp, Inst, JumpOp};
use crate::scalar::Regs;

/// The test of a branch on one register.
#[inline(always)]
fn sign_holds(op: BranchSignOp, s: i32) -> bool {
    match op {
        BranchSignOp::Bltz | BranchSignOp::Bltzal => s < 0,
        BranchSignOp::Bgez | BranchSignOp::Bgezal => s >= 0,
        BranchSignOp::Blez => s <= 0,
        BranchSignOp::Bgtz => s > 0,
    }
}

/// The test of a branch on two registers.
#[inline(always)]
fn equal_holds(op: BranchEqualOp, s: u32, t: u32) -> bool {
    match op {
        BranchEqualOp::Beq => s == t,
        BranchEqualOp::Bne => s != t,
    }
}

/// Whether a branch is taken. True for a jump, false for any other instruction.
#[inline(always)]
pub fn taken(inst: &Inst, regs: &Regs) -> bool {
    match *inst {
        Inst::JumpRegister { .. } | Inst::JumpLinkRegister { .. } | Inst::Jump { .. } => true,
        Inst::BranchSign { op, rs, .. } => sign_holds(op, regs.get(rs).cast_signed()),
        Inst::BranchEqual { op, rs, rt, .. } => equal_holds(op, regs.get(rs), regs.get(rt)),
        _ => false,
    }
}

/// The address after `npc`, modulo 4096.
#[inline(always)]
fn address_after(npc: u16) -> u16 {
    ((npc as u32 + 4) % 4096) as u16
}

/// The address `offset` words after `npc`, modulo 4096. The offset is a signed value.
#[inline(always)]
fn branch_target(npc: u16, offset: u16) -> u16 {
    // 4 times 2^16 is a multiple of 4096, so the offset's sign makes no difference.
    ((npc as u32 + 4 * offset as u32) % 4096) as u16
}

/// The target of a branch or jump; for any other instruction `npc + 4` modulo 4096.
///
/// `npc` is the address of the delay slot, from which a branch counts. If it is a multiple of 4,
/// the target is one.
#[inline(always)]
pub fn target(inst: &Inst, regs: &Regs, npc: u16) -> u16 {
    match *inst {
        Inst::JumpRegister { rs } | Inst::JumpLinkRegister { rs, .. } => {
            (regs.get(rs) / 4 % 1024 * 4) as u16
        }
        Inst::BranchSign { offset, .. } | Inst::BranchEqual { offset, .. } => {
            branch_target(npc, offset)
        }
        Inst::Jump { target, .. } => (target as u32 * 4 % 4096) as u16,
        _ => address_after(npc),
    }
}

/// The next `npc`: the target of a taken branch or a jump, else the address after `npc`.
#[inline(always)]
fn next_npc(inst: &Inst, regs: &Regs, npc: u16) -> u16 {
    if taken(inst, regs) {
        target(inst, regs, npc)
    } else {
        address_after(npc)
    }
}

/// Writes the link of an instruction that has one, whether the branch is taken or not.
#[inline(always)]
fn link(inst: &Inst, regs: &mut Regs, npc: u16) {
    match *inst {
        Inst::JumpLinkRegister { rd, .. } => regs.set(rd, u32::from(address_after(npc))),
        Inst::BranchSign {
            op: BranchSignOp::Bltzal | BranchSignOp::Bgezal,
            ..
        }
        | Inst::Jump {
            op: JumpOp::Jal, ..
        } => regs.set(31, u32::from(address_after(npc))),
        _ => {}
    }
}

/// Executes a branch or jump: returns the next `npc`, and then writes the link. So all sources are
/// read first.
///
/// For any other instruction it returns `npc + 4` modulo 4096 and changes nothing. If `npc` is a
/// multiple of 4, the result is one.
#[inline(always)]
pub fn jump(inst: &Inst, regs: &mut Regs, npc: u16) -> u16 {
    let next = next_npc(inst, regs, npc);
    link(inst, regs, npc);
    next
}
