//! Escaping and unescaping.

use crate::ours::{self, ByteCount};
use crate::random::Random;
use crate::tally::{Area, Hex, Tally};
use original::nal;

pub const AREA: Area = Area {
    name: "escaping",
    weight: 4,
    reach: &[],
    texts: &[],
    exhaustive,
    random,
};

const MAX_BYTES: usize = 65_535;

/// Bytes after the output that was lent.
pub const GUARD: usize = 8;

/// The bytes that the rules tell apart.
const ALPHABET: [u8; 6] = [0, 1, 2, 3, 4, 0xFF];

struct Direction {
    name: &'static str,
    ours: fn(&[u8], &mut [u8]) -> ByteCount,
    original: fn(&[u8]) -> Vec<u8>,
    /// The room that is asked for, from the input and what is to be put there.
    least_room: fn(&[u8], &[u8]) -> usize,
    /// The refusal where there is less.
    short_of_room: u8,
}

const UNESCAPE: Direction = Direction {
    name: "unescape",
    ours: ours::ebsp_to_rbsp,
    original: nal::ebsp_to_rbsp,
    least_room: |ebsp, _| ebsp.len(),
    short_of_room: 4,
};

const ESCAPE: Direction = Direction {
    name: "escape",
    ours: ours::rbsp_to_ebsp,
    original: nal::rbsp_to_ebsp,
    least_room: |_, ebsp| ebsp.len(),
    short_of_room: 29,
};

/// The answer, and what the bytes lent hold afterwards, with those behind the output.
#[derive(Debug, PartialEq)]
struct Answer<'a> {
    count: ByteCount,
    input_kept: bool,
    out: Hex<'a>,
}

pub fn pattern(len: usize) -> Vec<u8> {
    (0..len).map(|i| i as u8 ^ 0xA5).collect()
}

fn compare(direction: &Direction, input: &[u8], put: &[u8], room: usize, tally: &mut Tally) {
    let (lent, mut out) = (input.to_vec(), pattern(room + GUARD));
    let mut expected = out.clone();
    let count = (direction.ours)(&lent, &mut out[..room]);
    let ours = Answer {
        count,
        input_kept: lent == input,
        out: Hex(&out),
    };
    let refused = if input.len() > MAX_BYTES {
        3
    } else if room < (direction.least_room)(input, put) {
        direction.short_of_room
    } else {
        0
    };
    let bytes = if refused == 0 { put.len() } else { 0 };
    expected[..bytes].copy_from_slice(&put[..bytes]);
    let original = Answer {
        count: ByteCount { refused, bytes },
        input_kept: true,
        out: Hex(&expected),
    };
    tally.compare(&ours, &original, input.len(), || {
        format!("{} {:?} with room {room}", direction.name, Hex(input))
    });
}

/// Every string of up to `longest` bytes over the alphabet.
pub fn strings(longest: usize) -> Vec<Vec<u8>> {
    let mut strings = vec![vec![]];
    let mut of_last_length = 0..1;
    for _ in 0..longest {
        for i in of_last_length.clone() {
            for byte in ALPHABET {
                strings.push([&strings[i][..], &[byte]].concat());
            }
        }
        of_last_length = of_last_length.end..strings.len();
    }
    strings
}

/// The strings of up to 6 bytes, with every room up to one more than the most.
fn exhaustive(tally: &mut Tally) {
    for input in &strings(6) {
        for direction in [&UNESCAPE, &ESCAPE] {
            let put = (direction.original)(input);
            for room in 0..=10 {
                compare(direction, input, &put, room, tally);
            }
        }
    }
}

fn random(random: &mut Random, tally: &mut Tally) {
    let bytes = bytes(random);
    let (direction, input) = match random.below(4) {
        0 => (&UNESCAPE, bytes),
        1 => (&UNESCAPE, nal::rbsp_to_ebsp(&bytes)),
        _ => (&ESCAPE, bytes),
    };
    let put = (direction.original)(&input);
    let room = room(random, input.len(), put.len());
    compare(direction, &input, &put, room, tally);
}

pub fn bytes(random: &mut Random) -> Vec<u8> {
    let len = match random.below(1000) {
        0 => MAX_BYTES - 1 + random.below(3),
        1..5 => random.below(MAX_BYTES + 2),
        5..50 => random.below(1024),
        _ => random.below(24),
    };
    let style = random.below(4);
    let byte = |_| match style {
        0 => random.byte(),
        1 => random.pick(&ALPHABET),
        2 if random.one_in(4) => 0,
        2 => random.byte(),
        _ if random.one_in(8) => random.pick(&ALPHABET),
        _ => 0,
    };
    (0..len).map(byte).collect()
}

/// From nothing to ample, most often within two bytes of what the input or the answer takes.
fn room(random: &mut Random, input: usize, put: usize) -> usize {
    let near = random.pick(&[input, put]) + random.below(5);
    match random.below(8) {
        0 => random.below(input + 1),
        1 => random.below(2 * input + 16),
        2 => put,
        _ => near.saturating_sub(2),
    }
}
