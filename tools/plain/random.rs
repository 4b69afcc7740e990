// A small generator of numbers (splitmix64): the same seed gives the same run.

pub struct Random {
    state: u64,
}

impl Random {
    /// Each stream of one seed has numbers of its own, so an operation's cases
    /// are the same whether it is asked for alone or with the others.
    pub fn new(seed: u64, stream: u64) -> Random {
        let mut random = Random { state: seed };
        random.state = random.word() ^ stream.wrapping_mul(0xd1b5_4a32_d192_ed03);
        random
    }

    pub fn word(&mut self) -> u64 {
        self.state = self.state.wrapping_add(0x9e37_79b9_7f4a_7c15);
        let mut mixed = self.state;
        mixed = (mixed ^ (mixed >> 30)).wrapping_mul(0xbf58_476d_1ce4_e5b9);
        mixed = (mixed ^ (mixed >> 27)).wrapping_mul(0x94d0_49bb_1331_11eb);
        mixed ^ (mixed >> 31)
    }

    /// A number from 0 to limit - 1.
    pub fn below(&mut self, limit: u64) -> u64 {
        ((self.word() as u128 * limit as u128) >> 64) as u64
    }

    /// A number from first to last, both included.
    pub fn between(&mut self, first: i32, last: i32) -> i32 {
        let size = (last as i64 - first as i64 + 1) as u64;
        (first as i64 + self.below(size) as i64) as i32
    }

    pub fn coin(&mut self) -> bool {
        self.word() >> 63 == 1
    }

    pub fn pick<T: Copy>(&mut self, choices: &[T]) -> T {
        choices[self.below(choices.len() as u64) as usize]
    }

    /// A number of exactly this many binary digits, at least one.
    pub fn of_bits(&mut self, bits: u32) -> u64 {
        (self.word() | 1 << 63) >> (64 - bits)
    }

    /// A number of 1 to most binary digits, every length alike often.
    pub fn up_to_bits(&mut self, most: u32) -> u64 {
        let bits = self.below(most as u64) as u32 + 1;
        self.of_bits(bits)
    }
}
