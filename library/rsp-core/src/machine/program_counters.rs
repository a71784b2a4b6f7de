/// The address of an instruction in IMEM: a multiple of 4 below 4096. It is kept as the index that
/// a fetch takes.
#[derive(Clone, Copy)]
pub(crate) struct InstructionAddress {
    address: usize,
}

impl InstructionAddress {
    /// The address with this number.
    #[inline(always)]
    pub(crate) fn new(address: u16) -> InstructionAddress {
        InstructionAddress {
            address: usize::from(address),
        }
    }

    /// Its number.
    #[inline(always)]
    pub(crate) fn get(self) -> u16 {
        self.address as u16
    }

    /// The same as an index into IMEM.
    #[inline(always)]
    pub(crate) fn index(self) -> usize {
        self.address
    }

    /// The next address, modulo 4096.
    #[inline(always)]
    pub(crate) fn next(self) -> InstructionAddress {
        InstructionAddress {
            address: (self.address + 4) % 4096,
        }
    }
}

/// pc and npc, the addresses of the next two instructions. The loop of steps keeps them apart from
/// its machine, in registers of the host.
#[derive(Clone, Copy)]
pub(crate) struct ProgramCounters {
    pub(crate) pc: InstructionAddress,
    pub(crate) npc: InstructionAddress,
}

impl ProgramCounters {
    /// pc and npc after an instruction that neither jumps nor branches.
    #[inline(always)]
    pub(crate) fn next(self) -> ProgramCounters {
        ProgramCounters {
            pc: self.npc,
            npc: self.npc.next(),
        }
    }
}
