//! Random numbers that a seed settles, so that each run can be made again.

pub struct Random {
    state: u64,
}

impl Random {
    pub fn new(seed: u64) -> Self {
        Random { state: seed }
    }

    /// Splitmix: every seed gives a good row of numbers.
    fn number(&mut self) -> u64 {
        self.state = self.state.wrapping_add(0x9E37_79B9_7F4A_7C15);
        let mut mixed = self.state;
        mixed = (mixed ^ (mixed >> 30)).wrapping_mul(0xBF58_476D_1CE4_E5B9);
        mixed = (mixed ^ (mixed >> 27)).wrapping_mul(0x94D0_49BB_1331_11EB);
        mixed ^ (mixed >> 31)
    }

    pub fn one_to(&mut self, most: usize) -> usize {
        1 + (self.number() % most as u64) as usize
    }

    pub fn one_of(&mut self, choices: &[usize]) -> usize {
        choices[self.one_to(choices.len()) - 1]
    }
}

/// A text cut at random places.
pub fn random_cut<'a>(text: &'a [u8], random: &mut Random) -> Vec<&'a [u8]> {
    let (mut pieces, mut rest) = (Vec::new(), text);
    while !rest.is_empty() {
        let longest = random.one_of(&[1, 2, 5, 30, 300, 700, 4_096, 70_000]);
        let (piece, behind) = rest.split_at(random.one_to(longest).min(rest.len()));
        pieces.push(piece);
        rest = behind;
    }
    pieces
}
