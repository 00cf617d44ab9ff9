//! The length of a ue(v) code.

use crate::ours::{self, UeSize};
use crate::random::Random;
use crate::tally::{Area, Tally};
use original::{BitstreamError, bit_writer::BitWriter};

pub const AREA: Area = Area {
    name: "sizes",
    weight: 2,
    reach: &[],
    texts: &[],
    exhaustive,
    random,
};

fn original(v: u32) -> Result<UeSize, BitstreamError> {
    let mut writer = BitWriter::new();
    match writer.write_ue(v) {
        Ok(()) => Ok(UeSize {
            refused: 0,
            bits: writer.bit_pos() as u32,
        }),
        Err(BitstreamError::InvalidData(_)) => Ok(UeSize {
            refused: 25,
            bits: 0,
        }),
        Err(other) => Err(other),
    }
}

fn compare(v: u32, tally: &mut Tally) {
    let ours = Ok(ours::ue_size(v));
    let size = v.to_be_bytes().len() - v.leading_zeros() as usize / 8;
    tally.compare(&ours, &original(v), size, || {
        format!("size of {v} ({v:X} hexadecimal)")
    });
}

/// Every value up to 70,000 and those around each power of two.
fn exhaustive(tally: &mut Tally) {
    for v in 0..=70_000 {
        compare(v, tally);
    }
    for k in 0..32 {
        let power = 1u32 << k;
        for v in [power.wrapping_sub(2), power - 1, power, !power] {
            compare(v, tally);
        }
    }
    compare(u32::MAX, tally);
}

fn random(random: &mut Random, tally: &mut Tally) {
    compare(random.value(), tally);
}
