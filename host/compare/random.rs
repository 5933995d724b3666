//! Random numbers from a seed (splitmix64), and the words that matter most.
use crate::field::P;

pub const EDGES: [u64; 16] =
    [0, 1, 2, 3, 5, 7, 15, 16, 31, 0xffff_fffe, 0xffff_ffff, 0x1_0000_0000, 0x1_0000_0001, P - 10, P - 2, P - 1];

#[derive(Clone)]
pub struct Random(u64);

impl Random {
    pub fn new(seed: u64) -> Self {
        Random(seed)
    }

    /// A generator of its own for the n-th piece of work.
    pub fn for_piece(seed: u64, n: u64) -> Self {
        let mut start = Random(seed ^ n.wrapping_mul(0xd134_2543_de82_ef95));
        Random(start.next())
    }

    #[allow(clippy::should_implement_trait)]
    pub fn next(&mut self) -> u64 {
        self.0 = self.0.wrapping_add(0x9e37_79b9_7f4a_7c15);
        let mut z = self.0;
        z = (z ^ (z >> 30)).wrapping_mul(0xbf58_476d_1ce4_e5b9);
        z = (z ^ (z >> 27)).wrapping_mul(0x94d0_49bb_1331_11eb);
        z ^ (z >> 31)
    }

    /// Below n.
    pub fn below(&mut self, n: u64) -> u64 {
        ((self.next() as u128 * n as u128) >> 64) as u64
    }

    pub fn index(&mut self, n: usize) -> usize {
        self.below(n as u64) as usize
    }

    pub fn between(&mut self, low: u64, high: u64) -> u64 {
        low + self.below(high - low + 1)
    }

    /// True once in n times.
    pub fn once_in(&mut self, n: u64) -> bool {
        self.below(n) == 0
    }

    pub fn pick<T: Clone>(&mut self, from: &[T]) -> T {
        from[self.index(from.len())].clone()
    }

    /// A word: an edge, a small one, a u32 or any.
    pub fn word(&mut self) -> u64 {
        match self.below(8) {
            0 | 1 => self.pick(&EDGES),
            2 | 3 => self.below(40),
            4 | 5 => self.u32(),
            _ => self.below(P),
        }
    }

    pub fn words(&mut self, n: usize) -> Vec<u64> {
        (0..n).map(|_| self.word()).collect()
    }

    pub fn u32(&mut self) -> u64 {
        match self.below(4) {
            0 => self.pick(&[0, 1, 2, 3, 0x7fff_ffff, 0x8000_0000, 0xffff_fffe, 0xffff_ffff]),
            1 => self.below(100),
            2 => self.next() >> 32,
            _ => (self.next() >> 32) >> self.below(32),
        }
    }

    /// A number that is no word.
    pub fn too_large(&mut self) -> u64 {
        match self.below(3) {
            0 => P,
            1 => u64::MAX,
            _ => P + self.below(u64::MAX - P),
        }
    }
}
