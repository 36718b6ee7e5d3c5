//! Draws from a seed (splitmix64): the same seed gives the same draws everywhere.

use std::cell::Cell;

pub struct Random(Cell<u64>);

pub fn mix(value: u64) -> u64 {
    let value = (value ^ (value >> 30)).wrapping_mul(0xBF58_476D_1CE4_E5B9);
    let value = (value ^ (value >> 27)).wrapping_mul(0x94D0_49BB_1331_11EB);
    value ^ (value >> 31)
}

impl Random {
    pub fn new(seed: u64) -> Random {
        Random(Cell::new(seed))
    }

    pub fn draw(&self) -> u64 {
        self.0.set(self.0.get().wrapping_add(0x9E37_79B9_7F4A_7C15));
        mix(self.0.get())
    }

    /// 0 to `end` - 1.
    pub fn below(&self, end: u64) -> u64 {
        ((u128::from(self.draw()) * u128::from(end)) >> 64) as u64
    }

    pub fn below_wide(&self, end: u128) -> u128 {
        ((u128::from(self.draw()) << 64) | u128::from(self.draw())) % end
    }

    pub fn index(&self, length: usize) -> usize {
        self.below(length as u64) as usize
    }

    pub fn between(&self, low: u64, high: u64) -> u64 {
        low + self.below(high - low + 1)
    }

    pub fn byte(&self, low: u8, high: u8) -> u8 {
        self.between(u64::from(low), u64::from(high)) as u8
    }

    /// True once in `of` draws.
    pub fn chance(&self, of: u64) -> bool {
        self.below(of) == 0
    }

    /// The first once in `of` draws.
    pub fn rarely<T>(&self, of: u64, rare: T, usual: T) -> T {
        if self.chance(of) {
            rare
        } else {
            usual
        }
    }

    pub fn pick<T: Copy>(&self, from: &[T]) -> T {
        from[self.index(from.len())]
    }

    /// Any bytes.
    pub fn fill(&self, space: &mut [u8]) {
        let local = Random::new(self.draw());
        for part in space.chunks_mut(8) {
            part.copy_from_slice(&local.draw().to_le_bytes()[..part.len()]);
        }
    }

    /// Bytes 40-FF, which 01 Bytes admits in a text field.
    pub fn fill_text(&self, space: &mut [u8]) {
        self.fill(space);
        lift(space);
    }
}

/// Moves bytes below 40 above it.
pub fn lift(space: &mut [u8]) {
    space.iter_mut().for_each(|byte| *byte |= if *byte < 0x40 { 0x80 } else { 0 });
}
