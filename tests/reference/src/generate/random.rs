//! A small generator of random numbers (splitmix64), so that no dependency and
//! no clock decides what is drawn.

#[derive(Clone)]
pub struct Random {
    state: u64,
}

impl Random {
    pub fn new(seed: u64) -> Random {
        Random { state: seed }
    }

    /// A stream of its own for one number under one seed, so that files can be
    /// drawn in any order and by any thread.
    pub fn numbered(seed: u64, number: u64) -> Random {
        let mut outer = Random::new(seed);
        let spread = outer.draw();
        let mut inner = Random::new(spread ^ number.wrapping_mul(0xD6E8_FEB8_6659_FD93));
        inner.draw();
        inner
    }

    pub fn draw(&mut self) -> u64 {
        self.state = self.state.wrapping_add(0x9E37_79B9_7F4A_7C15);
        let mut z = self.state;
        z = (z ^ (z >> 30)).wrapping_mul(0xBF58_476D_1CE4_E5B9);
        z = (z ^ (z >> 27)).wrapping_mul(0x94D0_49BB_1331_11EB);
        z ^ (z >> 31)
    }

    /// A number from 0 to limit − 1. The slight lean of the remainder does no
    /// harm in a test.
    pub fn below(&mut self, limit: u64) -> u64 {
        self.draw() % limit
    }

    pub fn between(&mut self, lowest: i64, highest: i64) -> i64 {
        lowest + self.below((highest - lowest) as u64 + 1) as i64
    }

    /// True `parts` times in `whole`.
    pub fn chance(&mut self, parts: u64, whole: u64) -> bool {
        self.below(whole) < parts
    }

    pub fn pick<T: Copy>(&mut self, choices: &[T]) -> T {
        choices[self.below(choices.len() as u64) as usize]
    }

    /// A number from 1 to highest whose size in bits is drawn first, so that
    /// small ones are as frequent as large ones.
    pub fn spread(&mut self, highest: u64) -> u64 {
        let bits = self.below(u64::from(u64::BITS - highest.leading_zeros()));
        let number = (1 << bits) + self.below(1 << bits);
        number.min(highest)
    }

    pub fn bytes(&mut self, count: usize) -> Vec<u8> {
        (0..count).map(|_| self.draw() as u8).collect()
    }

    pub fn shuffle<T>(&mut self, list: &mut [T]) {
        for last in (1..list.len()).rev() {
            list.swap(last, self.below(last as u64 + 1) as usize);
        }
    }
}
