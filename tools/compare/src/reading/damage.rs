//! Damaged units.

use super::units::HEADER;
use crate::random::Random;

/// Does one to three things to a copy.
pub fn damaged(random: &mut Random, nal: &[u8]) -> Vec<u8> {
    let mut nal = nal.to_vec();
    for _ in 0..1 + random.below(2) * random.below(3) {
        damage(random, &mut nal);
    }
    nal
}

fn damage(random: &mut Random, nal: &mut Vec<u8>) {
    // The header is met rarely: behind it lies what is to be read.
    let from = if random.one_in(32) { 0 } else { HEADER.len() };
    if nal.len() <= from {
        return nal.push(random.byte());
    }
    let at = from + random.below(nal.len() - from);
    match random.below(16) {
        0..5 => nal[at] ^= 1 << random.below(8),
        5 => nal[at] = random.byte(),
        6 => nal[at] = random.pick(&[0, 1, 3, 0x80, 0xFF]),
        7 => {
            nal.remove(at);
        }
        8 => nal.insert(at, random.byte()),
        9 => nal.insert(at, random.pick(&[0, 1, 3, 0x80, 0xFF])),
        10 => {
            let zeros = [0, 0, random.pick(&[0, 1, 3])];
            nal.splice(at..at, zeros);
        }
        11..14 => nal.truncate(at),
        14 => nal.extend((0..1 + random.below(8)).map(|_| random.byte())),
        _ => nal.extend((0..1 + random.below(8)).map(|_| random.pick(&[0, 0, 3, 0x80]))),
    }
}

/// Bytes at will behind a header.
pub fn noise(random: &mut Random) -> Vec<u8> {
    let mut nal = HEADER.to_vec();
    let sparse = random.one_in(3);
    for _ in 0..random.below(80) {
        let mask = if sparse { random.byte() } else { 0xFF };
        nal.push(random.byte() & mask);
    }
    nal
}
