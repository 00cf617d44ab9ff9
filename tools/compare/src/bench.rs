//! What the calls cost. Times are the best of several rounds, in nanoseconds per call, read or
//! write.

mod questions;
mod reading;
mod sets;
mod writing;

use crate::ours::{self, Cursor};
use crate::random::Random;
use original::{bit_reader::BitReader, bit_writer::BitWriter, nal};
use std::hint::black_box;
use std::time::{Duration, Instant};

const ROUND: Duration = Duration::from_millis(20);
const ROUNDS: usize = 9;
const LONGEST: usize = 65_535;

pub fn run() {
    println!(
        "{:<48} {:>12} {:>12} {:>7}",
        "ns/op", "ours", "Rust", "ratio"
    );
    let mut random = Random::new(1, "bench");
    escaping(&mut random);
    bits(&mut random);
    extension_bits();
    writing::run(&mut random);
    reading::run();
    sets::run();
    questions::run();
}

/// The time of a call in nanoseconds. A call of a second and more is made once.
fn time<T>(mut call: impl FnMut() -> T) -> f64 {
    let start = Instant::now();
    black_box(call());
    let first = start.elapsed();
    if first >= Duration::from_secs(1) {
        return first.as_secs_f64() * 1e9;
    }
    let calls = (ROUND.as_nanos() / first.as_nanos().max(1)).clamp(1, 1_000_000) as u32;
    let round = || {
        let start = Instant::now();
        for _ in 0..calls {
            black_box(call());
        }
        start.elapsed().as_secs_f64() * 1e9 / f64::from(calls)
    };
    std::iter::repeat_with(round)
        .take(ROUNDS)
        .fold(f64::MAX, f64::min)
}

fn row(name: &str, ours: f64, original: Option<f64>) {
    match original {
        Some(o) => println!("{name:<48} {ours:>12.1} {o:>12.1} {:>7.2}", ours / o),
        None => println!("{name:<48} {ours:>12.1} {:>12} {:>7}", "-", "-"),
    }
}

/// With ample room, where our escaping need not count first.
fn escaping(random: &mut Random) {
    let plain: Vec<u8> = (0..LONGEST).map(|_| random.byte() | 4).collect();
    let sparse: Vec<u8> = (0..LONGEST).map(|_| random.byte()).collect();
    let dense: Vec<u8> = (0..LONGEST)
        .map(|_| random.pick(&[0, 0, 0, 1, 3, 200]))
        .collect();
    let mut out = vec![0; LONGEST * 2];
    for (name, bytes) in [("plain", plain), ("sparse", sparse), ("dense", dense)] {
        row(
            &format!("unescape {LONGEST} bytes, {name}"),
            time(|| ours::ebsp_to_rbsp(black_box(&bytes), &mut out)),
            Some(time(|| nal::ebsp_to_rbsp(black_box(&bytes)))),
        );
        row(
            &format!("escape {LONGEST} bytes, {name}"),
            time(|| ours::rbsp_to_ebsp(black_box(&bytes), &mut out)),
            Some(time(|| nal::rbsp_to_ebsp(black_box(&bytes)))),
        );
    }
}

/// The time of each of `reads` reads, made by our reader and by the original's.
fn reads(
    name: &str,
    bytes: &[u8],
    reads: usize,
    ours: impl Fn(&[u8], Cursor) -> (u32, Cursor),
    original: impl Fn(&mut BitReader<'_>) -> u32,
) {
    let ours = time(|| {
        let (mut sum, mut cursor) = (0u32, Cursor { at: 0, refused: 0 });
        for _ in 0..reads {
            let (value, next) = ours(bytes, cursor);
            sum = sum.wrapping_add(value);
            cursor = next;
        }
        sum
    });
    let original = time(|| {
        let mut reader = BitReader::new(black_box(bytes));
        (0..reads).fold(0u32, |sum, _| sum.wrapping_add(original(&mut reader)))
    });
    row(name, ours / reads as f64, Some(original / reads as f64));
}

fn bits(random: &mut Random) {
    let bytes: Vec<u8> = (0..4096).map(|_| random.byte()).collect();
    for (name, n) in [("flag, u(1)", 1), ("u(4)", 4), ("u(32)", 32)] {
        let n = black_box(n);
        reads(
            name,
            &bytes,
            bytes.len() * 8 / n as usize,
            |s, c| {
                let read = ours::read_u(s, c, n);
                (read.value, read.next)
            },
            |reader| reader.u(n),
        );
    }
    for (name, most) in [("ue below 16", 16), ("ue below 65536", 65536)] {
        let mut writer = BitWriter::new();
        for _ in 0..4096 {
            writer.write_ue(random.below(most) as u32).unwrap();
        }
        reads(
            name,
            &writer.finish(),
            4096,
            |s, c| {
                let read = ours::read_ue(s, c);
                (read.value, read.next)
            },
            |reader| reader.ue().unwrap(),
        );
    }
}

fn extension_bits() {
    let original = |bytes: &[u8]| {
        let (mut reader, mut bits) = (BitReader::new(bytes), 0);
        while reader.more_rbsp_data() {
            reader.u(1);
            bits += 1;
        }
        bits
    };
    for (zeros, end, both) in [
        (LONGEST, &[][..], false),
        (LONGEST - 1, &[3], false),
        (2000, &[], true),
        (2000, &[3], true),
    ] {
        let bytes = [&vec![0; zeros][..], end].concat();
        let then = if end.is_empty() { "" } else { ", then 03" };
        row(
            &format!("extension bits, {zeros} zero bytes{then}"),
            time(|| ours::extension_bits(black_box(&bytes), 0)),
            both.then(|| time(|| original(black_box(&bytes)))),
        );
    }
}
