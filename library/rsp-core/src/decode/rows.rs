// The rows of the instruction table, as the code has them.

use ByteElements::{All, Halves};
use Operand::{
    BranchTarget, ControlRegister, JumpTarget, Scalar, ScalarMemory, ShiftAmount, Signed,
    SpRegister, Unsigned, Vector, VectorByte, VectorElement, VectorLane, VectorMemory,
};

/// The byte elements that an operand can have.
#[derive(Clone, Copy, PartialEq, Eq, Debug)]
pub enum ByteElements {
    /// All sixteen.
    All,
    /// 0 and 8, the first bytes of the halves of a register.
    Halves,
}

/// The kind of an operand. A number is the lowest bit of the register's field in the word; of
/// vector memory it is the scale of the offset.
#[derive(Clone, Copy, PartialEq, Eq, Debug)]
pub enum Operand {
    /// A scalar register.
    Scalar(u8),
    /// A shift amount.
    ShiftAmount,
    /// A signed immediate.
    Signed,
    /// An unsigned immediate.
    Unsigned,
    /// The target of a jump.
    JumpTarget,
    /// The target of a branch.
    BranchTarget,
    /// The offset and the base of a scalar load or store.
    ScalarMemory,
    /// The offset and the base of a vector load or store.
    VectorMemory(u8),
    /// An SP register.
    SpRegister,
    /// A control register of the vector unit.
    ControlRegister,
    /// A vector register.
    Vector(u8),
    /// A vector register and a byte of it.
    VectorByte(u8, ByteElements),
    /// A vector register and an element, which selects lanes of it.
    VectorElement,
    /// A vector register and a lane of it.
    VectorLane,
}

/// A row of the instruction table: its name, what selects it, and its operands.
#[derive(Clone, Copy)]
pub struct TableRow {
    /// The name, in lower case.
    pub name: &'static str,
    /// The bits of a word that select the row.
    pub mask: u32,
    /// These bits of its words, and 0 elsewhere: the word whose fields are 0.
    pub value: u32,
    /// The kinds of its operands, in their order in the text.
    pub operands: &'static [Operand],
}

const NOTHING: &[Operand] = &[];

const SHIFT: &[Operand] = &[Scalar(11), Scalar(16), ShiftAmount];

const SHIFT_BY: &[Operand] = &[Scalar(11), Scalar(16), Scalar(21)];

const SOURCE: &[Operand] = &[Scalar(21)];

const LINK: &[Operand] = &[Scalar(11), Scalar(21)];

const REGISTERS: &[Operand] = &[Scalar(11), Scalar(21), Scalar(16)];

const BRANCH_SIGN: &[Operand] = &[Scalar(21), BranchTarget];

const BRANCH_EQUAL: &[Operand] = &[Scalar(21), Scalar(16), BranchTarget];

const JUMP: &[Operand] = &[JumpTarget];

const SIGNED: &[Operand] = &[Scalar(16), Scalar(21), Signed];

const UNSIGNED: &[Operand] = &[Scalar(16), Scalar(21), Unsigned];

const UPPER: &[Operand] = &[Scalar(16), Unsigned];

const MEMORY: &[Operand] = &[Scalar(16), ScalarMemory];

const MOVE_SP: &[Operand] = &[Scalar(16), SpRegister];

const MOVE_VECTOR: &[Operand] = &[Scalar(16), VectorByte(11, All)];

const MOVE_CONTROL: &[Operand] = &[Scalar(16), ControlRegister];

const VECTORS: &[Operand] = &[Vector(6), Vector(11), VectorElement];

const LANE: &[Operand] = &[VectorLane, VectorElement];

const VECTOR_MEMORY_1: &[Operand] = &[VectorByte(16, All), VectorMemory(1)];

const VECTOR_MEMORY_2: &[Operand] = &[VectorByte(16, All), VectorMemory(2)];

const VECTOR_MEMORY_4: &[Operand] = &[VectorByte(16, All), VectorMemory(4)];

const VECTOR_MEMORY_8: &[Operand] = &[VectorByte(16, All), VectorMemory(8)];

const VECTOR_MEMORY_16: &[Operand] = &[VectorByte(16, All), VectorMemory(16)];

const VECTOR_MEMORY_HALF: &[Operand] = &[VectorByte(16, Halves), VectorMemory(16)];

// The opcodes that several rows share.

pub(crate) const REGIMM: u32 = 1 << 26;

pub(crate) const COP0: u32 = 16 << 26;

pub(crate) const COP2: u32 = 18 << 26;

/// With bit 25: the computing instructions of the vector unit.
pub(crate) const COMPUTING: u32 = COP2 | 1 << 25;

pub(crate) const LWC2: u32 = 50 << 26;

pub(crate) const SWC2: u32 = 58 << 26;

/// The rows of the instruction table, a section for each match of the decoder. A section begins
/// with the mask of its rows, and their value by the number n of a line. A line has the number that
/// the match compares, the row's name, its operands, and the decoder's call. The macro `$then` gets
/// `$more` of the caller, then all sections.
///
/// A section lists its reserved numbers one by one, so that the jump of its match needs no test of
/// a range, or has an arm `otherwise`.
macro_rules! instruction_table {
    ($then:ident $more:tt) => {
        $then! { $more
            special (mask 0xfc00_003f, value 0 | n << 0) {
                0x00 "sll" SHIFT shift(ShiftOp::Sll);
                0x02 "srl" SHIFT shift(ShiftOp::Srl);
                0x03 "sra" SHIFT shift(ShiftOp::Sra);
                0x04 "sllv" SHIFT_BY shift_by(ShiftVariableOp::Sllv);
                0x06 "srlv" SHIFT_BY shift_by(ShiftVariableOp::Srlv);
                0x07 "srav" SHIFT_BY shift_by(ShiftVariableOp::Srav);
                0x08 "jr" SOURCE jump_register;
                0x09 "jalr" LINK jump_link_register;
                0x0d "break" NOTHING break_instruction;
                0x20 "add" REGISTERS register(RegisterOp::Add);
                0x21 "addu" REGISTERS register(RegisterOp::Addu);
                0x22 "sub" REGISTERS register(RegisterOp::Sub);
                0x23 "subu" REGISTERS register(RegisterOp::Subu);
                0x24 "and" REGISTERS register(RegisterOp::And);
                0x25 "or" REGISTERS register(RegisterOp::Or);
                0x26 "xor" REGISTERS register(RegisterOp::Xor);
                0x27 "nor" REGISTERS register(RegisterOp::Nor);
                0x2a "slt" REGISTERS register(RegisterOp::Slt);
                0x2b "sltu" REGISTERS register(RegisterOp::Sltu);
                reserved 0x01 0x05 0x0a 0x0b 0x0c 0x0e 0x0f 0x10 0x11 0x12 0x13 0x14 0x15 0x16
                    0x17 0x18 0x19 0x1a 0x1b 0x1c 0x1d 0x1e 0x1f 0x28 0x29 0x2c 0x2d 0x2e 0x2f
                    0x30 0x31 0x32 0x33 0x34 0x35 0x36 0x37 0x38 0x39 0x3a 0x3b 0x3c 0x3d 0x3e
                    0x3f;
            }
            regimm (mask 0xfc1f_0000, value REGIMM | n << 16) {
                0x00 "bltz" BRANCH_SIGN branch_sign(BranchSignOp::Bltz);
                0x01 "bgez" BRANCH_SIGN branch_sign(BranchSignOp::Bgez);
                0x10 "bltzal" BRANCH_SIGN branch_sign(BranchSignOp::Bltzal);
                0x11 "bgezal" BRANCH_SIGN branch_sign(BranchSignOp::Bgezal);
                otherwise false;
            }
            opcode (mask 0xfc00_0000, value 0 | n << 26) {
                0x06 "blez" BRANCH_SIGN branch_sign(BranchSignOp::Blez);
                0x07 "bgtz" BRANCH_SIGN branch_sign(BranchSignOp::Bgtz);
                0x02 "j" JUMP jump(JumpOp::J);
                0x03 "jal" JUMP jump(JumpOp::Jal);
                0x04 "beq" BRANCH_EQUAL branch_equal(BranchEqualOp::Beq);
                0x05 "bne" BRANCH_EQUAL branch_equal(BranchEqualOp::Bne);
                0x08 "addi" SIGNED with_immediate(ImmediateOp::Addi);
                0x09 "addiu" SIGNED with_immediate(ImmediateOp::Addiu);
                0x0a "slti" SIGNED with_immediate(ImmediateOp::Slti);
                0x0b "sltiu" SIGNED with_immediate(ImmediateOp::Sltiu);
                0x0c "andi" UNSIGNED with_immediate(ImmediateOp::Andi);
                0x0d "ori" UNSIGNED with_immediate(ImmediateOp::Ori);
                0x0e "xori" UNSIGNED with_immediate(ImmediateOp::Xori);
                0x0f "lui" UPPER load_upper;
                0x20 "lb" MEMORY load(LoadOp::Lb);
                0x21 "lh" MEMORY load(LoadOp::Lh);
                0x23 "lw" MEMORY load(LoadOp::Lw);
                0x24 "lbu" MEMORY load(LoadOp::Lbu);
                0x25 "lhu" MEMORY load(LoadOp::Lhu);
                0x27 "lwu" MEMORY load(LoadOp::Lwu);
                0x28 "sb" MEMORY store(StoreOp::Sb);
                0x29 "sh" MEMORY store(StoreOp::Sh);
                0x2b "sw" MEMORY store(StoreOp::Sw);
                reserved 0x00 0x01 0x10 0x11 0x12 0x13 0x14 0x15 0x16 0x17 0x18 0x19 0x1a 0x1b
                    0x1c 0x1d 0x1e 0x1f 0x22 0x26 0x2a 0x2c 0x2d 0x2e 0x2f 0x30 0x31 0x32 0x33
                    0x34 0x35 0x36 0x37 0x38 0x39 0x3a 0x3b 0x3c 0x3d 0x3e 0x3f;
            }
            cop0 (mask 0xffe0_0000, value COP0 | n << 21) {
                0x00 "mfc0" MOVE_SP move_sp(MoveOp::From);
                0x04 "mtc0" MOVE_SP move_sp(MoveOp::To);
                otherwise false;
            }
            cop2 (mask 0xffe0_0000, value COP2 | n << 21) {
                0x00 "mfc2" MOVE_VECTOR move_vector(MoveOp::From);
                0x04 "mtc2" MOVE_VECTOR move_vector(MoveOp::To);
                0x02 "cfc2" MOVE_CONTROL move_control(MoveOp::From);
                0x06 "ctc2" MOVE_CONTROL move_control(MoveOp::To);
                reserved 0x01 0x03 0x05 0x07 0x08 0x09 0x0a 0x0b 0x0c 0x0d 0x0e 0x0f 0x10 0x11
                    0x12 0x13 0x14 0x15 0x16 0x17 0x18 0x19 0x1a 0x1b 0x1c 0x1d 0x1e 0x1f;
            }
            products (mask 0xfe00_003f, value COMPUTING | n << 0) {
                0x00 "vmulf" VECTORS multiply(VectorMultiplyOp::Vmulf);
                0x01 "vmulu" VECTORS multiply(VectorMultiplyOp::Vmulu);
                0x04 "vmudl" VECTORS multiply(VectorMultiplyOp::Vmudl);
                0x05 "vmudm" VECTORS multiply(VectorMultiplyOp::Vmudm);
                0x06 "vmudn" VECTORS multiply(VectorMultiplyOp::Vmudn);
                0x07 "vmudh" VECTORS multiply(VectorMultiplyOp::Vmudh);
                0x08 "vmacf" VECTORS multiply(VectorMultiplyOp::Vmacf);
                0x09 "vmacu" VECTORS multiply(VectorMultiplyOp::Vmacu);
                0x0c "vmadl" VECTORS multiply(VectorMultiplyOp::Vmadl);
                0x0d "vmadm" VECTORS multiply(VectorMultiplyOp::Vmadm);
                0x0e "vmadn" VECTORS multiply(VectorMultiplyOp::Vmadn);
                0x0f "vmadh" VECTORS multiply(VectorMultiplyOp::Vmadh);
                0x02 "vrndp" VECTORS round(VectorRoundOp::Vrndp);
                0x0a "vrndn" VECTORS round(VectorRoundOp::Vrndn);
                0x03 "vmulq" VECTORS mpeg_multiply(VectorMpegOp::Vmulq);
                0x0b "vmacq" VECTORS mpeg_multiply(VectorMpegOp::Vmacq);
                otherwise false;
            }
            others (mask 0xfe00_003f, value COMPUTING | n << 0) {
                0x1d "vsar" VECTORS read_accumulator;
                0x10 "vadd" VECTORS vector_add(VectorAddOp::Vadd);
                0x11 "vsub" VECTORS vector_add(VectorAddOp::Vsub);
                0x13 "vabs" VECTORS vector_add(VectorAddOp::Vabs);
                0x14 "vaddc" VECTORS vector_add(VectorAddOp::Vaddc);
                0x15 "vsubc" VECTORS vector_add(VectorAddOp::Vsubc);
                0x20 "vlt" VECTORS vector_select(VectorSelectOp::Vlt);
                0x21 "veq" VECTORS vector_select(VectorSelectOp::Veq);
                0x22 "vne" VECTORS vector_select(VectorSelectOp::Vne);
                0x23 "vge" VECTORS vector_select(VectorSelectOp::Vge);
                0x24 "vcl" VECTORS vector_clip(VectorClipOp::Vcl);
                0x25 "vch" VECTORS vector_clip(VectorClipOp::Vch);
                0x26 "vcr" VECTORS vector_clip(VectorClipOp::Vcr);
                0x27 "vmrg" VECTORS vector_merge;
                0x28 "vand" VECTORS vector_logic(VectorLogicOp::Vand);
                0x29 "vnand" VECTORS vector_logic(VectorLogicOp::Vnand);
                0x2a "vor" VECTORS vector_logic(VectorLogicOp::Vor);
                0x2b "vnor" VECTORS vector_logic(VectorLogicOp::Vnor);
                0x2c "vxor" VECTORS vector_logic(VectorLogicOp::Vxor);
                0x2d "vnxor" VECTORS vector_logic(VectorLogicOp::Vnxor);
                0x30 "vrcp" LANE divide(VectorDivideOp::Vrcp);
                0x31 "vrcpl" LANE divide(VectorDivideOp::Vrcpl);
                0x32 "vrcph" LANE divide(VectorDivideOp::Vrcph);
                0x33 "vmov" LANE divide(VectorDivideOp::Vmov);
                0x34 "vrsq" LANE divide(VectorDivideOp::Vrsq);
                0x35 "vrsql" LANE divide(VectorDivideOp::Vrsql);
                0x36 "vrsqh" LANE divide(VectorDivideOp::Vrsqh);
                0x37 "vnop" NOTHING idle(VectorNopOp::Vnop);
                0x3f "vnull" NOTHING idle(VectorNopOp::Vnull);
                reserved 0x12 0x16 0x17 0x18 0x19 0x1a 0x1b 0x1c 0x1e 0x1f 0x2e 0x2f 0x38 0x39
                    0x3a 0x3b 0x3c 0x3d 0x3e;
            }
            lwc2 (mask 0xfc00_f800, value LWC2 | n << 11) {
                0x00 "lbv" VECTOR_MEMORY_1 vector_load(VectorLoadOp::Lbv);
                0x01 "lsv" VECTOR_MEMORY_2 vector_load(VectorLoadOp::Lsv);
                0x02 "llv" VECTOR_MEMORY_4 vector_load(VectorLoadOp::Llv);
                0x03 "ldv" VECTOR_MEMORY_8 vector_load(VectorLoadOp::Ldv);
                0x04 "lqv" VECTOR_MEMORY_16 vector_load(VectorLoadOp::Lqv);
                0x05 "lrv" VECTOR_MEMORY_16 vector_load(VectorLoadOp::Lrv);
                0x06 "lpv" VECTOR_MEMORY_8 vector_load(VectorLoadOp::Lpv);
                0x07 "luv" VECTOR_MEMORY_8 vector_load(VectorLoadOp::Luv);
                0x08 "lhv" VECTOR_MEMORY_16 vector_load(VectorLoadOp::Lhv);
                0x09 begins_half "lfv" VECTOR_MEMORY_HALF vector_load(VectorLoadOp::Lfv);
                0x0b "ltv" VECTOR_MEMORY_16 vector_load(VectorLoadOp::Ltv);
                reserved 0x09 0x0a 0x0c 0x0d 0x0e 0x0f 0x10 0x11 0x12 0x13 0x14 0x15 0x16 0x17
                    0x18 0x19 0x1a 0x1b 0x1c 0x1d 0x1e 0x1f;
            }
            swc2 (mask 0xfc00_f800, value SWC2 | n << 11) {
                0x00 "sbv" VECTOR_MEMORY_1 vector_store(VectorStoreOp::Sbv);
                0x01 "ssv" VECTOR_MEMORY_2 vector_store(VectorStoreOp::Ssv);
                0x02 "slv" VECTOR_MEMORY_4 vector_store(VectorStoreOp::Slv);
                0x03 "sdv" VECTOR_MEMORY_8 vector_store(VectorStoreOp::Sdv);
                0x04 "sqv" VECTOR_MEMORY_16 vector_store(VectorStoreOp::Sqv);
                0x05 "srv" VECTOR_MEMORY_16 vector_store(VectorStoreOp::Srv);
                0x06 "spv" VECTOR_MEMORY_8 vector_store(VectorStoreOp::Spv);
                0x07 "suv" VECTOR_MEMORY_8 vector_store(VectorStoreOp::Suv);
                0x08 "shv" VECTOR_MEMORY_16 vector_store(VectorStoreOp::Shv);
                0x09 begins_half "sfv" VECTOR_MEMORY_HALF vector_store(VectorStoreOp::Sfv);
                0x0a "swv" VECTOR_MEMORY_16 vector_store(VectorStoreOp::Swv);
                0x0b "stv" VECTOR_MEMORY_16 vector_store(VectorStoreOp::Stv);
                reserved 0x09 0x0c 0x0d 0x0e 0x0f 0x10 0x11 0x12 0x13 0x14 0x15 0x16 0x17 0x18
                    0x19 0x1a 0x1b 0x1c 0x1d 0x1e 0x1f;
            }
        }
    };
}

/// What a guard adds to the mask of its section.
macro_rules! guard_mask {
    (begins_half) => {
        0x0380
    };
}

/// The lines of all sections as rows.
macro_rules! all_rows {
    (() $($section:ident (mask $mask:literal, value $shared:tt | n << $low:literal) {
        $($n:literal $($guard:ident)? $name:literal $operands:ident $call:ident $(($op:path))?;)*
        $(reserved $($reserved:literal)*;)?
        $(otherwise $otherwise:expr;)?
    })*) => {
        &[$($(TableRow {
            name: $name,
            mask: $mask $(| guard_mask!($guard))?,
            value: $shared | $n << $low,
            operands: $operands,
        },)*)*]
    };
}

/// A match of the decoder: `arms(SECTION(KEY, WORD, VISITOR))` of the table compares KEY with the
/// numbers of a section. It calls the first line whose guard holds, and returns whether there is
/// one.
macro_rules! arms {
    (@($key:expr, $word:ident, $visitor:ident) {
        $($n:literal $($guard:ident)? $name:literal $operands:ident $call:ident $(($op:path))?;)*
        $(reserved $($reserved:literal)*;)?
        $(otherwise $otherwise:expr;)?
    }) => {
        match $key {
            $($n $(if $guard($word))? => {
                $call($word, $($op,)? $visitor);
                true
            })*
            $($($reserved => crate::decode::rows::reserved(),)* _ => unreachable!(),)?
            $(_ => $otherwise,)?
        }
    };
    ((special $at:tt) special $bits:tt $lines:tt $($rest:tt)*) => { arms!(@$at $lines) };
    ((regimm $at:tt) regimm $bits:tt $lines:tt $($rest:tt)*) => { arms!(@$at $lines) };
    ((opcode $at:tt) opcode $bits:tt $lines:tt $($rest:tt)*) => { arms!(@$at $lines) };
    ((cop0 $at:tt) cop0 $bits:tt $lines:tt $($rest:tt)*) => { arms!(@$at $lines) };
    ((cop2 $at:tt) cop2 $bits:tt $lines:tt $($rest:tt)*) => { arms!(@$at $lines) };
    ((products $at:tt) products $bits:tt $lines:tt $($rest:tt)*) => { arms!(@$at $lines) };
    ((others $at:tt) others $bits:tt $lines:tt $($rest:tt)*) => { arms!(@$at $lines) };
    ((lwc2 $at:tt) lwc2 $bits:tt $lines:tt $($rest:tt)*) => { arms!(@$at $lines) };
    ((swc2 $at:tt) swc2 $bits:tt $lines:tt $($rest:tt)*) => { arms!(@$at $lines) };
    ($wanted:tt $other:ident $bits:tt $lines:tt $($rest:tt)*) => { arms!($wanted $($rest)*) };
}

pub(crate) use arms;
pub(crate) use instruction_table;

/// The arm of a reserved word. As a cold function it is rare to the compiler, which so keeps the
/// other arms inlined.
#[cold]
#[inline(never)]
pub(crate) fn reserved() -> bool {
    false
}

static ROWS: &[TableRow] = instruction_table!(all_rows());

/// All rows of the instruction table, in its order.
pub fn table() -> &'static [TableRow] {
    ROWS
}
