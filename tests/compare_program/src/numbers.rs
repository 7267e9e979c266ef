//! Numbers that look random and depend on the seed alone.

pub struct Numbers(u64);

impl Numbers {
    /// A part of the comparison has its own numbers, so that a change in one part leaves the others as they were.
    pub fn new(seed: u64, part: &str) -> Numbers {
        let mut numbers = Numbers(seed);
        for byte in part.bytes() {
            numbers.0 = numbers.next() ^ u64::from(byte);
        }
        numbers
    }

    /// The generator known as SplitMix64.
    pub fn next(&mut self) -> u64 {
        self.0 = self.0.wrapping_add(0x9e37_79b9_7f4a_7c15);
        let mut mixed = self.0;
        mixed = (mixed ^ mixed >> 30).wrapping_mul(0xbf58_476d_1ce4_e5b9);
        mixed = (mixed ^ mixed >> 27).wrapping_mul(0x94d0_49bb_1331_11eb);
        mixed ^ mixed >> 31
    }

    pub fn any(&mut self) -> i32 {
        self.next() as i32
    }

    /// 0 to top - 1. The slight slope of the remainder does no harm here.
    pub fn below(&mut self, top: usize) -> usize {
        (self.next() % top as u64) as usize
    }

    /// lowest to highest, both among them.
    pub fn between(&mut self, lowest: i32, highest: i32) -> i32 {
        (i64::from(lowest) + (self.next() % (i64::from(highest) - i64::from(lowest) + 1) as u64) as i64) as i32
    }

    /// True once in `times`.
    pub fn once_in(&mut self, times: usize) -> bool {
        self.below(times) == 0
    }

    pub fn pick<T: Copy>(&mut self, from: &[T]) -> T {
        from[self.below(from.len())]
    }

    pub fn bytes(&mut self, length: usize) -> Vec<u8> {
        (0..length).map(|_| self.next() as u8).collect()
    }
}
