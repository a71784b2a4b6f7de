/// Sums of products. After a multiply that replaces the accumulators, and any list of multiplies
/// that add to them, each accumulator is the sum of all addends, modulo 2^48 as a signed value. The
/// result of each instruction is its clamp of the sum so far. The registers and elements are any.
pub fn l4() {}
