//! An input as numbers. Each takes a byte or a few, and behind the end all are 0, so that every input means something, and one cut short something simpler.

pub struct Bytes<'a> {
    rest: &'a [u8],
}

/// The ledger's sizes, the limits of its numbers, and what stands beside them.
const LIMITS: [u32; 20] = [
    31,
    32,
    63,
    64,
    65,
    255,
    256,
    1_022,
    1_023,
    1_024,
    65_535,
    65_536,
    1 << 31,
    3_999_999_999,
    4_000_000_000,
    4_000_000_001,
    4_000_000_031,
    4_000_000_032,
    u32::MAX - 1,
    u32::MAX,
];

impl<'a> Bytes<'a> {
    pub fn new(input: &'a [u8]) -> Self {
        Bytes { rest: input }
    }

    pub fn are_over(&self) -> bool {
        self.rest.is_empty()
    }

    pub fn byte(&mut self) -> u8 {
        let Some((&byte, rest)) = self.rest.split_first() else { return 0 };
        self.rest = rest;
        byte
    }

    /// Of one byte, so a limit above 256 isn't reached.
    pub fn below(&mut self, limit: u32) -> u32 {
        u32::from(self.byte()) % limit
    }

    pub fn one_of<T: Copy>(&mut self, choices: &[T]) -> T {
        choices[usize::from(self.byte()) % choices.len()]
    }

    pub fn word(&mut self) -> u32 {
        u32::from_le_bytes([(); 4].map(|()| self.byte()))
    }

    /// Small for the most part; else a limit, or any.
    pub fn number(&mut self) -> u32 {
        match self.byte() {
            small @ 0..=159 => small.into(),
            160..=223 => self.one_of(&LIMITS),
            224..=255 => self.word(),
        }
    }

    /// Small for the most part; else an end of 64 bits, or any.
    pub fn amount(&mut self) -> i64 {
        match self.byte() as i8 {
            small @ -120..=100 => small.into(),
            101..=110 => i64::MAX,
            111..=120 => i64::MIN,
            _ => i64::from(self.word()) << 32 | i64::from(self.word()),
        }
    }
}
