/// What the divide instructions keep from one to the next.
#[derive(Clone, Copy, PartialEq, Eq, Debug)]
pub struct Divider {
    /// DIV_IN: the high half of an operand, written by VRCPH and VRSQH.
    pub input: u16,
    /// DIV_OUT: the high half of the last quotient.
    pub output: u16,
    /// The loaded flag: whether the next VRCPL or VRSQL takes `input` as the high half of its
    /// operand.
    pub loaded: bool,
}

impl Divider {
    /// The divider at the start: zeros, and the loaded flag clear.
    #[inline]
    pub fn new() -> Self {
        Divider {
            input: 0,
            output: 0,
            loaded: false,
        }
    }

    /// The operand of VRCPL and VRSQL: 32 bits if the loaded flag is set, else the source alone.
    #[inline]
    pub(crate) fn operand(&self, source: u16) -> i32 {
        if self.loaded {
            ((self.input as u32) << 16 | source as u32).cast_signed()
        } else {
            signed(source)
        }
    }

    /// Writes the high half of a quotient to DIV_OUT, clears the loaded flag, and returns the low
    /// half.
    #[inline]
    pub(crate) fn divided(&mut self, quotient: i32) -> u16 {
        let bits = quotient.cast_unsigned();
        self.output = (bits >> 16) as u16;
        self.loaded = false;
        (bits % 0x1_0000) as u16
    }

    /// Writes the source to DIV_IN, sets the loaded flag, and returns DIV_OUT.
    #[inline]
    pub(crate) fn load(&mut self, source: u16) -> u16 {
        self.input = source;
        self.loaded = true;
        self.output
    }
}

/// The operand of VRCP and VRSQ: a lane as a signed value.
#[inline]
pub(crate) fn signed(source: u16) -> i32 {
    source.cast_signed() as i32
}
