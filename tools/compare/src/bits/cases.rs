//! The bytes and the reads to be made of them.

use super::{Read, compare};
use crate::ours::Cursor;
use crate::random::Random;
use crate::tally::Tally;
use original::bit_writer::BitWriter;

/// The most bytes on which extension bits are asked for: the original's time grows with the square.
const SHORT: usize = 64;

fn from(at: usize) -> Cursor {
    Cursor { at, refused: 0 }
}

/// Each read from every place of a string of up to 1 byte, and codes with up to 40 leading zeros,
/// cut off at every byte.
pub fn exhaustive(tally: &mut Tally) {
    let mut reads: Vec<Read> = (0..=33).map(Read::U).collect();
    reads.extend([Read::Ue, Read::Se, Read::TrailingBits]);
    reads.extend([Read::MoreData, Read::ExtensionBits]);
    for read in reads {
        for at in 0..=10 {
            compare(&[], from(at), &[read], tally);
            for byte in 0..=255 {
                compare(&[byte], from(at), &[read], tally);
            }
        }
    }
    for at in 0..8 {
        for zeros in 0..=40 {
            let mut writer = BitWriter::new();
            writer.write_bits(u32::MAX, at as u32);
            writer.write_bits_u64(1, zeros + 1);
            writer.write_bits_u64(0x5A5A_A5A5_FFFF_0F0F, 64);
            let bytes = writer.finish();
            for len in 0..=bytes.len() {
                for read in [Read::Ue, Read::Se] {
                    compare(&bytes[..len], from(at), &[read, Read::U(9)], tally);
                }
            }
        }
    }
}

pub fn random(random: &mut Random, tally: &mut Tally) {
    if random.one_in(3) {
        let (bytes, reads) = coded(random);
        return compare(&bytes, from(0), &reads, tally);
    }
    let bytes = bytes(random);
    let start = Cursor {
        at: random.place(bytes.len() * 8),
        refused: if random.one_in(64) { random.byte() } else { 0 },
    };
    let reads: Vec<Read> = (0..1 + random.below(12))
        .map(|_| read(random, bytes.len()))
        .collect();
    compare(&bytes, start, &reads, tally);
}

fn bytes(random: &mut Random) -> Vec<u8> {
    let len = match random.below(1000) {
        0 => random.below(8192),
        1..300 => random.below(SHORT + 1),
        _ => random.below(12),
    };
    let style = random.below(4);
    if style == 3 {
        return runs(random, len);
    }
    let byte = |_| match style {
        0 => random.byte(),
        1 => random.byte() & random.byte() & random.byte(),
        _ if random.one_in(8) => 1 << random.below(8),
        _ => 0,
    };
    (0..len).map(byte).collect()
}

/// Single 1 bits, each after up to 40 zeros.
fn runs(random: &mut Random, len: usize) -> Vec<u8> {
    let mut bytes = vec![0; len];
    let mut at = random.below(41);
    while at < len * 8 {
        bytes[at / 8] |= 0x80 >> (at % 8);
        at += 1 + random.below(41);
    }
    bytes
}

fn read(random: &mut Random, len: usize) -> Read {
    match random.below(32) {
        0..12 => Read::U(random.below(33) as u32),
        12 => Read::U(random.value()),
        13..22 => Read::Ue,
        22..26 => Read::Se,
        26..28 => Read::TrailingBits,
        28..31 => Read::MoreData,
        _ if len <= SHORT => Read::ExtensionBits,
        _ => Read::MoreData,
    }
}

/// Coded fields and extension bits, with the reads that fit them; now and then cut off.
fn coded(random: &mut Random) -> (Vec<u8>, Vec<Read>) {
    let mut writer = BitWriter::new();
    let mut reads = vec![];
    for _ in 0..random.below(16) {
        let value = random.value();
        let width = random.below(33) as u32;
        let read = random.pick(&[Read::U(width), Read::Ue, Read::Se]);
        match read {
            Read::U(n) => writer.write_bits(value, n),
            Read::Ue => writer.write_ue(value.min(u32::MAX - 1)).unwrap(),
            _ => writer.write_se((value as i32).max(-i32::MAX)).unwrap(),
        }
        reads.push(read);
    }
    if random.one_in(2) {
        writer.write_bits(random.value(), random.below(33) as u32);
    }
    reads.extend([Read::MoreData, Read::ExtensionBits, Read::TrailingBits]);
    writer.write_rbsp_trailing_bits();
    let mut bytes = writer.finish();
    if random.one_in(3) {
        bytes.truncate(random.below(bytes.len() + 1));
    }
    (bytes, reads)
}
