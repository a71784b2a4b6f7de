use crate::lanes::VReg;
use crate::support::{BigEndian, ByteOrder};

/// The 32 vector registers.
pub struct VFile {
    registers: [VReg; 32],
}

impl VFile {
    /// Registers of zeros, as at the start.
    pub fn new() -> VFile {
        VFile {
            registers: [VReg::new(); 32],
        }
    }

    /// The registers with these lanes, lane 0 of each first.
    pub fn from_lanes(lanes: &[[u16; 8]; 32]) -> VFile {
        let mut file = VFile::new();
        for n in 0..32 {
            file.put(n, VReg::from_array(lanes[n]));
        }
        file
    }

    /// The lanes of all registers, lane 0 of each first.
    pub fn lanes(&self) -> [[u16; 8]; 32] {
        let mut lanes = [[0; 8]; 32];
        for n in 0..32 {
            lanes[n] = self.registers[n].to_array();
        }
        lanes
    }

    /// Register `n`, below 32.
    #[inline(always)]
    pub fn reg(&self, n: u8) -> VReg {
        self.at(n as usize)
    }

    /// Register `n`, below 32, by an index. From an index LLVM sees that consecutive registers are
    /// at fixed distances.
    #[inline(always)]
    pub(crate) fn at(&self, n: usize) -> VReg {
        self.registers[n]
    }

    /// Writes register `n`, below 32. The others are kept.
    #[inline(always)]
    pub fn set_reg(&mut self, n: u8, v: VReg) {
        self.put(n as usize, v);
    }

    /// Writes register `n`, below 32, by an index. The others are kept.
    #[inline(always)]
    pub(crate) fn put(&mut self, n: usize, v: VReg) {
        // `to_simd` says that v has eight lanes below 2^16, as each register has
        self.registers[n] = VReg::from_simd(v.to_simd());
    }

    /// Bits 14 to 7 of the sixteen bits at bytes `i` and `i + 1` modulo 16 of register `n`.
    #[inline(always)]
    pub(crate) fn bits_14_to_7(&self, n: u8, i: usize) -> u8 {
        let v = self.reg(n);
        let bits = BigEndian::read_u16(&[v.byte(i), v.byte((i + 1) % 16)]);
        (bits / 128 % 256) as u8
    }
}
