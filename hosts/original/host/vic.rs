/// The VIC as two inputs: its `ba_low` pin, and the answer of `ba_high_at_phi1`.
pub struct VicII {
    pub ba_low: bool,
    pub ba_high_phi1: bool,
}

impl VicII {
    pub fn ba_high_at_phi1(&self) -> bool {
        self.ba_high_phi1
    }
}
