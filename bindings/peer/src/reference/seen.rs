//! A set of numbers for finding repeats in one list after another.

/// An open table. A slot counts only if it bears the present stamp, so that emptying the set costs nothing.
#[derive(Default)]
pub struct Seen {
    slots: Vec<(u32, u32)>,
    stamp: u32,
    bits: u32,
}

impl Seen {
    /// Empties the set and makes room for `count` numbers.
    pub fn start(&mut self, count: usize) {
        if count == 0 {
            return;
        }
        let size = (2 * count).next_power_of_two();
        if self.slots.len() < size {
            self.slots = vec![(0, 0); size];
        }
        self.bits = size.trailing_zeros();
        self.stamp += 1;
    }

    /// Adds a number; false if it was there already.
    #[inline]
    pub fn insert(&mut self, number: u32) -> bool {
        let mask = (1 << self.bits) - 1;
        let mut at = (number.wrapping_mul(0x9e37_79b1) >> (32 - self.bits)) as usize;
        loop {
            let slot = &mut self.slots[at];
            if slot.0 != self.stamp {
                *slot = (self.stamp, number);
                return true;
            }
            if slot.1 == number {
                return false;
            }
            at = (at + 1) & mask;
        }
    }
}
