//! Unsigned LEB128 for 32-bit numbers.
use crate::{refusal::*, Refusal};

/// A fifth byte has place for four bits.
const FIFTH_AT_MOST: u8 = 15;
/// Set "on all but the last byte".
const TOP_BIT: u8 = 0x80;

/// "A number of b significant bits takes the whole part of (b+6)/7 bytes, and zero takes one."
pub fn len(number: u32) -> usize {
    let b = (u32::BITS - number.leading_zeros()) as usize;
    if b == 0 {
        1
    } else {
        (b + 6) / 7
    }
}

/// "Seven bits a byte, lowest first, top bit set on all but the last byte."
pub fn write(number: u32) -> Vec<u8> {
    let mut written = Vec::new();
    let mut rest = number;
    while rest >= u32::from(TOP_BIT) {
        written.push((rest & 0x7F) as u8 | TOP_BIT);
        rest >>= 7;
    }
    written.push(rest as u8);
    written
}

/// The number that starts at `at`, and where it ends: 9, 10. "Refuse any varint longer than its number needs, with 10": such a
/// spelling ends in a byte 0 that is not its first.
pub fn read(input: &[u8], at: usize) -> Result<(u32, usize), Refusal> {
    let mut number = 0;
    let mut end = at;
    for shift in [0, 7, 14, 21] {
        let byte = byte_at(input, end)?;
        end += 1;
        number |= u32::from(byte & !TOP_BIT) << shift;
        if byte == 0 && shift > 0 {
            return Err(VARINT_OVER);
        }
        if byte & TOP_BIT == 0 {
            return Ok((number, end));
        }
    }
    // "The reader takes at most five bytes": a fifth byte with the top bit set is above 15 too, so there is never a sixth.
    let fifth = byte_at(input, end)?;
    if fifth > FIFTH_AT_MOST || fifth == 0 {
        return Err(VARINT_OVER);
    }
    Ok((number | u32::from(fifth) << 28, end + 1))
}

/// 9: "input ends inside a row".
fn byte_at(input: &[u8], at: usize) -> Result<u8, Refusal> {
    input.get(at).copied().ok_or(INPUT_ENDS)
}
