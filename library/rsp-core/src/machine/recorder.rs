// Savers of the values that the steps of a loop change.

use crate::acc::Acc;
use crate::machine::footprint::Footprint;
use crate::machine::machine::Machine;
use crate::machine::program_counters::ProgramCounters;

/// A recorder. It gets each instruction's footprint before the instruction is executed, and may
/// save the values that the instruction overwrites.
pub(crate) trait Recorder {
    //  The recorder after an instruction with a footprint.

    //  The index of the recorder that gets step `n` of a loop.

    //  Whether a loop ends after a step that starts a DMA.

    /// Saves what it needs of the values before the instruction. The machine's pc and npc are those
    /// of `before`.
    fn save<A: Acc>(&mut self, machine: &Machine<A>, before: ProgramCounters, footprint: Footprint);

    /// The index of the recorder that gets step `n` of a loop.
    fn slot(n: u64) -> usize;

    /// Whether a loop ends after a step that starts a DMA.
    fn ends_at_dma() -> bool;
}

/// Saves nothing. One such recorder gets all steps.
#[derive(Clone, Copy)]
pub(crate) struct NoRecord;

impl Recorder for NoRecord {
    #[inline(always)]
    fn save<A: Acc>(
        &mut self,
        _machine: &Machine<A>,
        _before: ProgramCounters,
        _footprint: Footprint,
    ) {
    }

    #[inline(always)]
    fn slot(_n: u64) -> usize {
        0
    }

    #[inline(always)]
    fn ends_at_dma() -> bool {
        false
    }
}
