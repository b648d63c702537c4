//! Random numbers from a seed (splitmix64): mostly what a call accepts, now and then what it must refuse.

pub struct Random(pub u64);

impl Random {
    pub fn next(&mut self) -> u64 {
        self.0 = self.0.wrapping_add(0x9e37_79b9_7f4a_7c15);
        let mut x = self.0;
        x = (x ^ x >> 30).wrapping_mul(0xbf58_476d_1ce4_e5b9);
        x = (x ^ x >> 27).wrapping_mul(0x94d0_49bb_1331_11eb);
        x ^ x >> 31
    }

    pub fn word(&mut self) -> u32 {
        self.next() as u32
    }

    /// Below n, which is not 0.
    pub fn below(&mut self, n: usize) -> usize {
        (self.next() % n as u64) as usize
    }

    /// True once in n.
    pub fn once_in(&mut self, n: usize) -> bool {
        self.below(n) == 0
    }

    pub fn pick<T: Copy>(&mut self, from: &[T]) -> T {
        from[self.below(from.len())]
    }

    /// The first, but once in n the second.
    pub fn mostly<T>(&mut self, n: usize, first: T, second: T) -> T {
        if self.once_in(n) {
            second
        } else {
            first
        }
    }

    pub fn bytes(&mut self, length: usize) -> Vec<u8> {
        (0..length).map(|_| self.next() as u8).collect()
    }

    pub fn words(&mut self, length: usize) -> Vec<u32> {
        (0..length).map(|_| self.word()).collect()
    }

    /// A number of 16 bits, at and near the limits more often than not.
    pub fn half(&mut self) -> u32 {
        let any = self.word() & 0xffff;
        let near = [0, 1, 15, 16, 17, 255, 256, 257, 65_534, 65_535];
        let near = self.pick(&near);
        self.pick(&[near, near, any % 20, any])
    }

    /// Below n, or rarely any number.
    pub fn index(&mut self, n: usize) -> usize {
        let below = self.below(n.max(1));
        let any = self.next() as usize;
        let other = self.pick(&[n, n + 1, 16, 256, 65_536, usize::MAX, any]);
        self.mostly(30, below, other)
    }

    /// n, or rarely a length near it.
    pub fn length(&mut self, n: usize) -> usize {
        let other = self.pick(&[0, n.saturating_sub(1), n + 1, 256, 257]);
        self.mostly(40, n, other)
    }
}
