//! Writes the fields of a unit, one in so many of them past its limit.

use crate::random::Random;
use original::bit_writer::BitWriter;

/// A limit was passed: what follows has no meaning.
pub struct Broken;

/// The values of a field that lie just past a limit, and one far behind.
pub fn past(limit: u64) -> [u64; 3] {
    [limit + 1, limit + 2, u64::from(u32::MAX) - 1]
}

pub struct Put<'a> {
    writer: BitWriter,
    pub random: &'a mut Random,
    /// How rarely a limit is passed; 0 is never.
    rarity: usize,
}

impl<'a> Put<'a> {
    pub fn new(random: &'a mut Random, rarity: usize) -> Self {
        Put {
            writer: BitWriter::new(),
            random,
            rarity,
        }
    }

    /// Whether a limit is to be passed here.
    pub fn passes(&mut self) -> bool {
        self.rarity != 0 && self.random.one_in(self.rarity)
    }

    pub fn bits(&mut self, value: u32, n: u32) {
        self.writer.write_bits(value, n);
    }

    pub fn any(&mut self, n: u32) -> u32 {
        let value = self.random.next() as u32 & (u32::MAX >> (32 - n));
        self.bits(value, n);
        value
    }

    pub fn flag(&mut self) -> bool {
        self.any(1) != 0
    }

    /// A flag that is set once in so many times.
    pub fn rare_flag(&mut self, n: usize) -> bool {
        let set = self.random.one_in(n);
        self.bits(set.into(), 1);
        set
    }

    /// ue(v), or now and then 32 zeros.
    pub fn ue(&mut self, value: u64) -> Result<(), Broken> {
        if self.passes() && self.random.one_in(4) {
            self.bits(0, 32);
            return Err(Broken);
        }
        let value = value.min(u64::from(u32::MAX) - 1) as u32;
        self.writer.write_ue(value).map_err(|_| Broken)
    }

    /// ue(v), or one of the values with which the field passes its limits.
    pub fn ue_or(&mut self, value: u64, past: [u64; 3]) -> Result<(), Broken> {
        if self.passes() {
            let value = self.random.pick(&past);
            self.ue(value)?;
            return Err(Broken);
        }
        self.ue(value)
    }

    /// A random value up to a limit, most often at one of its ends.
    pub fn limited(&mut self, most: u64) -> Result<u64, Broken> {
        let value = match self.random.below(4) {
            0 => 0,
            1 => most,
            2 => most.saturating_sub(1),
            _ => self.random.below(most as usize + 1) as u64,
        };
        self.ue_or(value, past(most))?;
        Ok(value)
    }

    pub fn se(&mut self, value: i32) -> Result<(), Broken> {
        self.writer.write_se(value).map_err(|_| Broken)
    }

    pub fn se_or(&mut self, value: i64, past: [i64; 4]) -> Result<(), Broken> {
        if self.passes() {
            let value = self.random.pick(&past);
            self.se(value as i32)?;
            return Err(Broken);
        }
        self.se(value as i32)
    }

    /// A QP or deblocking offset.
    pub fn offset(&mut self) -> Result<(), Broken> {
        let value = match self.random.below(4) {
            0 => -12,
            1 => 12,
            _ => self.random.below(25) as i64 - 12,
        };
        self.se_or(value, [-13, 13, 14, i64::from(i32::MAX)])
    }

    /// Any value of any width.
    pub fn any_ue(&mut self) -> Result<(), Broken> {
        let value = self.random.value();
        self.ue(value.into())
    }

    pub fn any_se(&mut self) -> Result<(), Broken> {
        let value = self.random.value() as i32;
        self.se(value.max(-i32::MAX))
    }

    pub fn trailing_bits(&mut self) {
        self.writer.write_rbsp_trailing_bits();
    }

    pub fn finish(self) -> Vec<u8> {
        self.writer.finish()
    }
}
