use crate::divide::entries::{rcp_entry, rsq_entry};

/// The nine bits below the leading one. Zeros follow if `y` has fewer.
fn nine_bits(y: u32) -> usize {
    (((y as u64) << 9 >> (31 - y.leading_zeros())) & 511) as usize
}

/// An entry with its leading one, `(65536 + entry) * 2^14`, shifted right.
fn scaled(entry: u16, shift: u32) -> u32 {
    (0x1_0000 + entry as u32) << 14 >> shift
}

/// The reciprocal of a positive number.
fn reciprocal_bits(y: u32) -> u32 {
    scaled(rcp_entry(nine_bits(y)), 31 - y.leading_zeros())
}

/// The inverse square root of a positive number.
fn root_bits(y: u32) -> u32 {
    let zeros = y.leading_zeros();
    let index = nine_bits(y) / 2 * 2 + (zeros % 2) as usize;
    scaled(rsq_entry(index), (31 - zeros) / 2)
}

/// The reciprocal of a signed number, by the reciprocal table.
///
/// For 0 it is 7FFFFFFF hex, the greatest number, and for -32768 FFFF0000 hex. For another negative
/// number it is the complement of the reciprocal of its magnitude, which counts one less below
/// -32768.
pub fn reciprocal(x: i32) -> i32 {
    match x {
        0 => i32::MAX,
        -32768 => -65536,
        1.. => reciprocal_bits(x as u32) as i32,
        -32767..=-1 => !(reciprocal_bits(-x as u32) as i32),
        _ => !(reciprocal_bits(!x as u32) as i32),
    }
}

/// The inverse square root of a signed number, by the root table, with the same cases as
/// [`reciprocal`].
pub fn root(x: i32) -> i32 {
    match x {
        0 => i32::MAX,
        -32768 => -65536,
        1.. => root_bits(x as u32) as i32,
        -32767..=-1 => !(root_bits(-x as u32) as i32),
        _ => !(root_bits(!x as u32) as i32),
    }
}
