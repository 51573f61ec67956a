//! The fuzzer's bytes, taken one after the other; zeros behind the end.

pub struct Input<'a> {
    rest: &'a [u8],
}

impl<'a> Input<'a> {
    pub fn new(bytes: &'a [u8]) -> Input<'a> {
        Input { rest: bytes }
    }

    pub fn byte(&mut self) -> u8 {
        match self.rest.split_first() {
            None => 0,
            Some((byte, rest)) => {
                self.rest = rest;
                *byte
            }
        }
    }

    /// A number below a limit, 0 for the limit 0.
    pub fn below(&mut self, limit: usize) -> usize {
        let low = self.byte() as usize;
        let drawn = if limit > 256 {
            low + 256 * self.byte() as usize
        } else {
            low
        };
        drawn.checked_rem(limit).unwrap_or(0)
    }

    /// True for one in so many values of a byte, not for 0.
    pub fn one_in(&mut self, count: u8) -> bool {
        self.byte() % count == count - 1
    }

    /// A unit, or seldom any number: also one whose low byte alone would be a
    /// unit.
    pub fn unit(&mut self) -> u32 {
        if self.one_in(32) {
            u32::from_le_bytes(std::array::from_fn(|_| self.byte()))
        } else {
            u32::from(self.byte() % 8)
        }
    }

    /// All bytes that are left.
    pub fn rest(&mut self) -> &'a [u8] {
        std::mem::take(&mut self.rest)
    }

    /// Changes some bytes of a buffer below an end.
    pub fn patch(&mut self, bytes: &mut [u8], end: usize) {
        for _ in 0..self.below(5) {
            let at = self.below(end);
            let byte = self.byte();
            if let Some(place) = bytes.get_mut(at) {
                *place = byte;
            }
        }
    }
}
