//! The writes to be made, and the room for them.

use super::{Sequence, Write, compare};
use crate::escape;
use crate::random::Random;
use crate::tally::Tally;

/// Each write at every place of a byte, and every string of up to 5 bytes that the escapes tell
/// apart, with every room up to two more than the bytes.
pub fn exhaustive(tally: &mut Tally) {
    let all = |len| 0..=len + 2;
    for write in single_writes() {
        for at in 0..8 {
            let sequence = Sequence {
                writes: vec![Write::Bits(0x35, at), write],
                source: vec![0xA5, 0x0F, 0x93],
            };
            compare(&sequence, all, tally);
        }
    }
    for source in escape::strings(5) {
        let bytes = source.iter().map(|&byte| Write::Bits(byte.into(), 8));
        let copy = Write::Copy(0, source.len() * 8);
        for writes in [bytes.collect(), vec![copy]] {
            let source = source.clone();
            compare(&Sequence { writes, source }, all, tally);
        }
    }
}

fn single_writes() -> Vec<Write> {
    let mut writes: Vec<Write> = (0..4).map(Write::Bit).collect();
    for n in 0..=33 {
        writes.extend([0, 0x5A5A_A5A5, u32::MAX].map(|value| Write::Bits(value, n)));
    }
    for k in 0..32 {
        let power = 1u32 << k;
        for v in [power - 1, power, power + 1, !power, power.wrapping_neg()] {
            writes.extend([Write::Ue(v), Write::Se(v as i32)]);
        }
    }
    for count in 0..=26 {
        writes.extend((0..=26).map(|from| Write::Copy(from, count)));
        writes.extend((0..9).map(|back| Write::Copy(usize::MAX - back, count)));
    }
    writes
}

pub fn random(random: &mut Random, tally: &mut Tally) {
    let source = match random.below(4) {
        0 => escape::bytes(random),
        _ => vec![],
    };
    let small = random.one_in(3);
    let writes = (0..random.below(16))
        .map(|_| random_write(random, small, source.len() * 8))
        .collect();
    let sequence = Sequence { writes, source };
    compare(&sequence, |len| rooms(random, len), tally);
}

fn random_write(random: &mut Random, small: bool, source_bits: usize) -> Write {
    let value = if small {
        random.pick(&[0, 0, 0, 1, 2, 3])
    } else {
        random.value()
    };
    match random.below(64) {
        0 => Write::Ue(u32::MAX - random.below(2) as u32),
        1 => Write::Se(i32::MIN + random.below(2) as i32),
        2 => Write::Bits(value, random.value()),
        3..12 => Write::Bit(value),
        12..24 => Write::Bits(value, random.below(33) as u32),
        24..32 => Write::Bits(value, 8 * random.below(5) as u32),
        32..42 => Write::Ue(value),
        42..52 => Write::Se((value as i32).wrapping_mul(random.pick(&[1, -1]))),
        _ => {
            let from = random.place(source_bits);
            let count = match random.below(4) {
                0 => source_bits.saturating_sub(from),
                1 => random.below(source_bits + 40),
                _ => random.below(65),
            };
            Write::Copy(from, count)
        }
    }
}

/// From nothing to ample, around the exact length.
fn rooms(random: &mut Random, len: usize) -> [usize; 6] {
    let (less, more) = (random.below(len + 1), len + random.below(40));
    [0, less, len.saturating_sub(1), len, len + 1, more]
}
