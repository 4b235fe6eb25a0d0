//! The numbers of a file: unsigned LEB128 (DWARF 5, 7.6), below 2^32, in shortest form only.

use crate::ReadAnswer;

/// The most groups that a number below 2^32 takes.
const GROUPS: usize = 5;

/// Reads all numbers of `file` into the front of `numbers`, which stays as it is if there is a refusal.
pub fn read(file: &[u8], numbers: &mut [u32]) -> ReadAnswer {
    let mut found = Vec::with_capacity(numbers.len().min(file.len()));
    let mut at = 0;
    while at < file.len() {
        let Some((number, width)) = first_number(&file[at..]) else {
            return ReadAnswer { number: 1, place: at as u64, count: 0 };
        };
        if found.len() == numbers.len() {
            return ReadAnswer { number: 5, place: 0, count: 0 };
        }
        found.push(number);
        at += width;
    }
    numbers[..found.len()].copy_from_slice(&found);
    ReadAnswer { number: 0, place: 0, count: found.len() as u64 }
}

/// The number that `bytes` begin with and its width, unless it is faulty.
#[inline]
fn first_number(bytes: &[u8]) -> Option<(u32, usize)> {
    let mut value = 0;
    for (index, &byte) in bytes.iter().take(GROUPS).enumerate() {
        value |= u32::from(byte & 0x7f) << (7 * index);
        if byte < 0x80 {
            let padded = byte == 0 && index > 0;
            let over = byte > 0x0f && index + 1 == GROUPS;
            return (!padded && !over).then_some((value, index + 1));
        }
    }
    None
}

/// Writes a number in shortest form.
pub fn write(number: u32, file: &mut Vec<u8>) {
    let mut rest = number;
    while rest >= 0x80 {
        file.push(rest as u8 | 0x80);
        rest >>= 7;
    }
    file.push(rest as u8);
}

/// The file of some numbers.
pub fn file_of(numbers: &[u32]) -> Vec<u8> {
    let mut file = Vec::with_capacity(numbers.len());
    for &number in numbers {
        write(number, &mut file);
    }
    file
}
