//! PCG XSH RR 64/32.
use rand_core::utils::NextWord;

const MULTIPLIER: u64 = 6364136223846793005;

#[derive(Clone, PartialEq, Eq, Debug)]
pub struct Lcg64Xsh32 {
    state: u64,
    increment: u64,
}

pub type Pcg32 = Lcg64Xsh32;

impl Lcg64Xsh32 {
    pub fn new(state: u64, stream: u64) -> Self {
        let increment = (stream << 1) | 1;
        let mut pcg = Lcg64Xsh32 { state: state.wrapping_add(increment), increment };
        pcg.step();
        pcg
    }
    #[inline]
    fn step(&mut self) {
        self.state = self.state.wrapping_mul(MULTIPLIER).wrapping_add(self.increment);
    }
}

impl NextWord<u32> for Lcg64Xsh32 {
    #[inline]
    fn next_word(&mut self) -> u32 {
        let state = self.state;
        let rot = (state >> 59) as u32;
        let xsh = ((((state >> 18) ^ state) >> 27) & 0xffff_ffff) as u32;
        self.step();
        xsh.rotate_right(rot)
    }
}
