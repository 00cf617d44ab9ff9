//! Bits and codes (H.266 9.2), as docs/BEHAVIOUR.md says under "Bits".

use super::must;

pub struct Bits<'a> {
    bytes: &'a [u8],
    at: usize,
}

impl<'a> Bits<'a> {
    pub fn new(bytes: &'a [u8]) -> Self {
        Bits { bytes, at: 0 }
    }

    pub fn at(&self) -> usize {
        self.at
    }

    pub fn left(&self) -> usize {
        self.bytes.len() * 8 - self.at
    }

    fn bit(&self, at: usize) -> bool {
        self.bytes[at / 8] << (at % 8) & 0x80 != 0
    }

    pub fn ones_left(&self) -> usize {
        let whole = self.at.div_ceil(8);
        let ones = |bytes: &[u8]| bytes.iter().map(|byte| byte.count_ones() as usize).sum();
        let front = (self.at..whole * 8).filter(|&at| self.bit(at)).count();
        let rest: usize = ones(&self.bytes[whole..]);
        front + rest
    }

    pub fn flag(&mut self) -> bool {
        self.u(1) != 0
    }

    /// Bits past the end are 0.
    pub fn u(&mut self, n: u32) -> u32 {
        let mut value = 0;
        for _ in 0..n {
            value *= 2;
            if self.left() > 0 {
                value += u32::from(self.bit(self.at));
                self.at += 1;
            }
        }
        value
    }

    pub fn ue(&mut self) -> Result<u32, u8> {
        let end = self.at + self.left().min(32);
        let zeros = (self.at..end).take_while(|&at| !self.bit(at)).count();
        must(zeros < 32, 6)?;
        self.u(zeros as u32 + 1);
        Ok((1 << zeros) - 1 + self.u(zeros as u32))
    }

    pub fn se(&mut self) -> Result<i64, u8> {
        let code = i64::from(self.ue()?);
        Ok(if code % 2 == 1 {
            (code + 1) / 2
        } else {
            -code / 2
        })
    }

    /// Codes whose values have no limits.
    pub fn codes(&mut self, count: u32) -> Result<(), u8> {
        (0..count).try_for_each(|_| self.ue().map(|_| ()))
    }

    /// QP or deblocking offsets.
    pub fn offsets(&mut self, count: u32) -> Result<(), u8> {
        (0..count).try_for_each(|_| must(self.se()?.abs() <= 12, 21))
    }
}
