use crate::lanes::mask::Mask8;

/// The five flags of each lane, as five masks, whose lane 0 is the lowest bit. VCO is `carry` in
/// bits 0 to 7 and `differ`, not-equal, in bits 8 to 15; VCC is `compare` in bits 0 to 7 and `clip`
/// in bits 8 to 15; VCE is `extra`.
///
/// Most instructions that write VCO clear both of its masks. These aren't neighbours here, because
/// the compiler clears neighbours as one run of bytes, and then needs an instruction for its
/// address.
#[derive(Clone, Copy, PartialEq)]
pub struct Flags {
    /// Bits 0 to 7 of VCO: VADDC's sum passes 65535, VSUBC's difference is below 0, or the signs of
    /// VCH's operands differ.
    pub carry: Mask8,
    /// Bits 0 to 7 of VCC: the answer of VLT, VEQ, VNE or VGE; after a clip, of the comparison with
    /// its lower bound, -b.
    pub compare: Mask8,
    /// Bits 8 to 15 of VCO, not-equal: VSUBC's difference isn't 0; or VCH's sum or difference isn't
    /// 0, and extra is clear.
    pub differ: Mask8,
    /// VCE: VCH's sum is -1.
    pub extra: Mask8,
    /// Bits 8 to 15 of VCC: after a clip, the answer of the comparison with its upper bound, b.
    pub clip: Mask8,
}

impl Flags {
    /// All flags clear, as at the start.
    #[inline]
    pub fn new() -> Self {
        Flags {
            carry: Mask8::splat(false),
            differ: Mask8::splat(false),
            compare: Mask8::splat(false),
            clip: Mask8::splat(false),
            extra: Mask8::splat(false),
        }
    }

    /// VCO as sixteen bits: carry is bits 7 to 0, and not-equal bits 15 to 8.
    #[inline(always)]
    pub fn vco(&self) -> u16 {
        self.read_lanes();
        u16::from(self.carry.bits()) + u16::from(self.differ.bits()) * 256
    }

    /// VCC as sixteen bits: compare is bits 7 to 0, and clip bits 15 to 8.
    #[inline(always)]
    pub fn vcc(&self) -> u16 {
        self.read_lanes();
        u16::from(self.compare.bits()) + u16::from(self.clip.bits()) * 256
    }

    /// Writes VCO, the carry and not-equal flags. VCC and VCE are kept.
    #[inline(always)]
    pub fn set_vco(&mut self, carry: Mask8, differ: Mask8) {
        self.read_lanes();
        self.carry = carry.read();
        self.differ = differ.read();
    }

    /// Clears VCO. VCC and VCE are kept.
    #[inline(always)]
    pub fn clear_vco(&mut self) {
        self.set_vco(Mask8::splat(false), Mask8::splat(false));
    }

    /// Copies the other flags mask by mask, each through a vector register. An assignment would
    /// copy from memory to memory.
    #[inline(always)]
    pub fn copy_from(&mut self, other: &Flags) {
        self.copy_vco(other);
        self.copy_vcc(other);
        self.extra = other.extra.read();
    }

    /// Copies VCO from other flags. VCC and VCE are kept.
    #[inline(always)]
    pub fn copy_vco(&mut self, other: &Flags) {
        self.carry = other.carry.read();
        self.differ = other.differ.read();
    }

    /// Copies VCC from other flags. VCO and VCE are kept.
    #[inline(always)]
    pub fn copy_vcc(&mut self, other: &Flags) {
        self.compare = other.compare.read();
        self.clip = other.clip.read();
    }

    /// Writes VCC, the compare and clip flags. VCO and VCE are kept.
    #[inline(always)]
    pub fn set_vcc(&mut self, compare: Mask8, clip: Mask8) {
        self.read_lanes();
        self.compare = compare.read();
        self.clip = clip.read();
    }

    /// Only the proof of the sources needs this.
    #[inline(always)]
    fn read_lanes(&self) {
        self.carry.read();
        self.differ.read();
        self.compare.read();
        self.clip.read();
        self.extra.read();
    }
}
