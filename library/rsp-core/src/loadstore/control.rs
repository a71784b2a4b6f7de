use crate::decode::{Control, Inst, MoveOp};
use crate::lanes::{Flags, Mask8};
use crate::numbers::sign_extend;

/// What CFC2 reads: VCO or VCC sign-extended, or VCE zero-extended. For another instruction it is
/// 0.
pub fn control_from(inst: &Inst, flags: &Flags) -> u32 {
    match *inst {
        Inst::MoveControl {
            op: MoveOp::From,
            control,
            ..
        } => match control {
            Control::Vco => sign_extend(flags.vco()),
            Control::Vcc => sign_extend(flags.vcc()),
            Control::Vce => u32::from(flags.extra.bits()),
        },
        _ => 0,
    }
}

/// Executes CTC2: VCO and VCC take bits 15 to 0 of `value`, VCE bits 7 to 0. Another instruction
/// changes nothing.
pub fn control_to(inst: &Inst, value: u32, flags: &mut Flags) {
    if let Inst::MoveControl {
        op: MoveOp::To,
        control,
        ..
    } = *inst
    {
        let low = Mask8::from_bits((value % 256) as u8);
        let high = Mask8::from_bits((value / 256 % 256) as u8);
        match control {
            Control::Vco => {
                flags.carry = low;
                flags.differ = high;
            }
            Control::Vcc => {
                flags.compare = low;
                flags.clip = high;
            }
            Control::Vce => flags.extra = low,
        }
    }
}
