//! A small deterministic generator (splitmix64): equal seeds, equal cases.

#[derive(Clone, Debug)]
pub struct Rng {
    state: u64,
}

impl Rng {
    pub fn new(seed: u64) -> Rng {
        Rng { state: seed }
    }

    pub fn next_u64(&mut self) -> u64 {
        self.state = self.state.wrapping_add(0x9e37_79b9_7f4a_7c15);
        let mut mixed = self.state;
        mixed = (mixed ^ (mixed >> 30)).wrapping_mul(0xbf58_476d_1ce4_e5b9);
        mixed = (mixed ^ (mixed >> 27)).wrapping_mul(0x94d0_49bb_1331_11eb);
        mixed ^ (mixed >> 31)
    }

    /// Another stream, by which this one's numbers stay what they are.
    pub fn aside(&self) -> Rng {
        Rng::new(!self.state.rotate_left(32))
    }

    /// A third one.
    pub fn far_aside(&self) -> Rng {
        Rng::new(!self.state.rotate_left(16))
    }

    /// A fourth one.
    pub fn farther_aside(&self) -> Rng {
        Rng::new(!self.state.rotate_left(48))
    }

    pub fn next_u32(&mut self) -> u32 {
        (self.next_u64() >> 32) as u32
    }

    /// A number below `bound`, which is not 0. The slight bias of the
    /// remainder does not matter for tests.
    pub fn below(&mut self, bound: usize) -> usize {
        (self.next_u64() % bound as u64) as usize
    }

    /// A number from `low` to `high`, both included.
    pub fn between(&mut self, low: usize, high: usize) -> usize {
        low + self.below(high - low + 1)
    }

    /// True once in `times` on average.
    pub fn one_in(&mut self, times: usize) -> bool {
        self.below(times) == 0
    }

    /// One of the items, which are not none.
    pub fn pick<T: Copy>(&mut self, items: &[T]) -> T {
        items[self.below(items.len())]
    }

    /// A word, often one at an edge of signed or unsigned numbers.
    pub fn edge_word(&mut self) -> u32 {
        const EDGES: [u32; 12] = [
            0,
            1,
            2,
            4,
            0x7f,
            0x80,
            0x7fff,
            0x8000,
            0x7fff_ffff,
            0x8000_0000,
            0xffff_fffe,
            0xffff_ffff,
        ];
        match self.below(3) {
            0 => self.pick(&EDGES),
            1 => self.next_u32() >> self.below(32),
            _ => self.next_u32(),
        }
    }

    /// A word that a sixteen-bit immediate may take past the least or the
    /// greatest signed number.
    pub fn border_word(&mut self) -> u32 {
        let near = 0x8000_0000u32.wrapping_add(self.edge_word() as i16 as u32);
        self.pick(&[0x7fff_ffff, 0x8000_0000, near])
    }

    /// A factor or divisor, often one at which signed and unsigned products and
    /// quotients part. b504 is the greatest number whose square fits.
    pub fn factor_word(&mut self) -> u32 {
        const EDGES: [u32; 13] = [
            0,
            1,
            0xffff_ffff,
            0x8000_0000,
            0x7fff_ffff,
            0x8000,
            0xffff_8000,
            0x7fff,
            0x1_0000,
            0x1_8000,
            0xffff_0000,
            0xb504,
            0xb505,
        ];
        match self.below(6) {
            0 => self.next_u32(),
            1 => (self.below(200) as u32).wrapping_sub(100),
            _ => self.pick(&EDGES),
        }
    }
}
