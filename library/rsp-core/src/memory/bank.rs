/// A memory that the host can load and inspect.
#[derive(Clone, Copy, Debug, PartialEq, Eq)]
pub enum Bank {
    /// DMEM, the data memory: 4096 bytes.
    Dmem,
    /// IMEM, the instruction memory: 4096 bytes.
    Imem,
    /// The RDRAM image: 64 to 8,388,608 bytes, a multiple of 8.
    Rdram,
}
