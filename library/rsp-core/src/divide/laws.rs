/// One root for each index: for each index below 512 there is exactly one number whose square,
/// times the radicand, is below 2^44 while the next number's isn't. The root table is defined by
/// that number.
pub fn l2() {}
