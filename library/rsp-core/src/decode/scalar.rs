// The instructions of the scalar unit, an enum for each group. The number of a variant is its value
// of the opcode, or of the field, that selects it in its group.

/// Shifts by an amount in the word.
#[derive(Clone, Copy)]
pub enum ShiftOp {
    /// `sll`: to the left.
    Sll = 0x00,
    /// `srl`: to the right, zeros from above.
    Srl = 0x02,
    /// `sra`: to the right, the sign from above.
    Sra = 0x03,
}

/// Shifts by the low five bits of a register.
#[derive(Clone, Copy)]
pub enum ShiftVariableOp {
    /// `sllv`: to the left.
    Sllv = 0x04,
    /// `srlv`: to the right, zeros from above.
    Srlv = 0x06,
    /// `srav`: to the right, the sign from above.
    Srav = 0x07,
}

/// Results of two registers.
#[derive(Clone, Copy)]
pub enum RegisterOp {
    /// `add`: the sum modulo 2^32; there is no overflow trap, so it is `addu`.
    Add = 0x20,
    /// `addu`: the sum modulo 2^32.
    Addu = 0x21,
    /// `sub`: the difference modulo 2^32, as `subu`.
    Sub = 0x22,
    /// `subu`: the difference modulo 2^32.
    Subu = 0x23,
    /// `and`, bit by bit.
    And = 0x24,
    /// `or`, bit by bit.
    Or = 0x25,
    /// `xor`: the bits that differ.
    Xor = 0x26,
    /// `nor`: the bits set in neither.
    Nor = 0x27,
    /// `slt`: 1 if the first is less as a signed number, else 0.
    Slt = 0x2a,
    /// `sltu`: 1 if the first is less as an unsigned number, else 0.
    Sltu = 0x2b,
}

/// Branches on the sign of a register.
#[derive(Clone, Copy)]
pub enum BranchSignOp {
    /// `bltz`: taken if it is below 0.
    Bltz,
    /// `bgez`: taken if it is 0 or more.
    Bgez,
    /// `bltzal`: as `bltz`; links, taken or not.
    Bltzal,
    /// `bgezal`: as `bgez`; links, taken or not.
    Bgezal,
    /// `blez`: taken if it is 0 or less.
    Blez,
    /// `bgtz`: taken if it is above 0.
    Bgtz,
}

/// Branches on whether two registers are equal.
#[derive(Clone, Copy)]
pub enum BranchEqualOp {
    /// `beq`: taken if they are equal.
    Beq = 0x04,
    /// `bne`: taken if they differ.
    Bne = 0x05,
}

/// Jumps to an address in the word.
#[derive(Clone, Copy)]
pub enum JumpOp {
    /// `j`: jumps.
    J = 0x02,
    /// `jal`: jumps and links.
    Jal = 0x03,
}

/// Results of a register and an immediate.
#[derive(Clone, Copy)]
pub enum ImmediateOp {
    /// `addi`: the sum with a signed immediate modulo 2^32; there is no overflow trap.
    Addi = 0x08,
    /// `addiu`: as `addi`.
    Addiu = 0x09,
    /// `slti`: 1 if the register is less than the signed immediate, else 0.
    Slti = 0x0a,
    /// `sltiu`: the same comparison, both taken as numbers modulo 2^32.
    Sltiu = 0x0b,
    /// `andi`, bit by bit, with an unsigned immediate.
    Andi = 0x0c,
    /// `ori`, bit by bit, with an unsigned immediate.
    Ori = 0x0d,
    /// `xori`, bit by bit, with an unsigned immediate.
    Xori = 0x0e,
}

/// Loads of a scalar register from DMEM.
#[derive(Clone, Copy)]
pub enum LoadOp {
    /// `lb`: a byte, sign-extended.
    Lb = 0x20,
    /// `lh`: two bytes, sign-extended.
    Lh = 0x21,
    /// `lw`: four bytes.
    Lw = 0x23,
    /// `lbu`: a byte, zero-extended.
    Lbu = 0x24,
    /// `lhu`: two bytes, zero-extended.
    Lhu = 0x25,
    /// `lwu`: four bytes, as `lw`.
    Lwu = 0x27,
}

/// Stores of a scalar register to DMEM.
#[derive(Clone, Copy)]
pub enum StoreOp {
    /// `sb`: the low byte.
    Sb = 0x28,
    /// `sh`: the low two bytes.
    Sh = 0x29,
    /// `sw`: all four bytes.
    Sw = 0x2b,
}

/// Which way a move between a scalar register and a coprocessor goes.
#[derive(Clone, Copy)]
pub enum MoveOp {
    /// `mfc0`, `mfc2`, `cfc2`: into the scalar register.
    From = 0x00,
    /// `mtc0`, `mtc2`, `ctc2`: out of the scalar register.
    To = 0x04,
}
