/// One third of a 48-bit accumulator.
#[derive(Clone, Copy, PartialEq, Eq, Debug)]
pub enum Part {
    /// Bits 47 to 32.
    High,
    /// Bits 31 to 16.
    Middle,
    /// Bits 15 to 0.
    Low,
}

/// A clamp of a 48-bit accumulator to sixteen bits, by h: the accumulator divided by 65536, rounded
/// down.
#[derive(Clone, Copy, PartialEq, Eq, Debug)]
pub enum Clamp {
    /// h clamped to -32768..=32767, as sixteen bits.
    Signed,
    /// 0 for h below 0, 65535 for h above 32767, else h.
    Unsigned,
    /// The low clamp: 0 for h below -32768, 65535 for h above 32767, else the accumulator's low
    /// sixteen bits.
    LowKind,
}
