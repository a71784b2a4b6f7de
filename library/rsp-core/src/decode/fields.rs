// Fields that instructions with the same operands share.

/// The fields of `$vD, $vS, $vT[e]`.
#[derive(Clone, Copy)]
pub struct VectorFields {
    /// The vector register that is written, below 32.
    pub vd: u8,
    /// The first vector register that is read, below 32.
    pub vs: u8,
    /// The second vector register that is read, below 32.
    pub vt: u8,
    /// The element, which selects lanes of `vt`, below 16.
    pub element: u8,
}

/// The fields of `$vT[e], offset($base)`.
#[derive(Clone, Copy)]
pub struct VectorMemoryFields {
    /// The vector register, below 32.
    pub vt: u8,
    /// The byte of the register at which the transfer begins, below 16; 0 or 8 of `lfv` and `sfv`.
    pub element: u8,
    /// The word's 7 bits, below 128, not sign-extended. The offset in bytes is their signed value
    /// times the instruction's scale.
    pub offset: u8,
    /// The scalar register with the base address, below 32.
    pub base: u8,
}

/// The fields of `$t, offset($base)`.
#[derive(Clone, Copy)]
pub struct ScalarMemoryFields {
    /// The word's 16 bits, not sign-extended: the offset in bytes is their signed value.
    pub offset: u16,
    /// The scalar register that is loaded or stored, below 32.
    pub rt: u8,
    /// The scalar register with the base address, below 32.
    pub base: u8,
}

/// The fields of `$d, $s, $t`, and of `$d, $t, $s`.
#[derive(Clone, Copy)]
pub struct RegisterFields {
    /// The scalar register that is written, below 32.
    pub rd: u8,
    /// The scalar register of bits 25 to 21, below 32.
    pub rs: u8,
    /// The scalar register of bits 20 to 16, below 32.
    pub rt: u8,
}
