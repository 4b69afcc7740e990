// An order drawn by a seed: the same for the same seed and texts, on every machine.

pub fn draw(seed: u64, texts: &[&str]) -> u64 {
    let mut state = mixed(seed ^ 0x9e37_79b9_7f4a_7c15);
    for text in texts {
        for byte in text.bytes() {
            state = (state ^ u64::from(byte)).wrapping_mul(0x0000_0100_0000_01b3);
        }
        state = mixed(state.wrapping_add(0x9e37_79b9_7f4a_7c15));
    }
    state
}

// The last step of splitmix64.
fn mixed(x: u64) -> u64 {
    let x = (x ^ (x >> 30)).wrapping_mul(0xbf58_476d_1ce4_e5b9);
    let x = (x ^ (x >> 27)).wrapping_mul(0x94d0_49bb_1331_11eb);
    x ^ (x >> 31)
}
