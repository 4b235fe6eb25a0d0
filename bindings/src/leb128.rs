//! Numbers as bytes: unsigned LEB128 (DWARF 5, 7.6), in shortest form.

use alloc::vec::Vec;

/// The bytes of numbers.
pub(crate) fn write(numbers: &[u32]) -> Vec<u8> {
    let mut file = Vec::with_capacity(numbers.len());
    for &number in numbers {
        let mut rest = number;
        while rest >= 128 {
            file.push(rest as u8 | 128);
            rest >>= 7;
        }
        file.push(rest as u8);
    }
    file
}
