//! Writing, with the trailing bits and with ample room.

use super::{LONGEST, row, time};
use crate::ours::{self, Sink};
use crate::random::Random;
use original::{bit_reader::BitReader, bit_writer::BitWriter, nal};
use std::hint::black_box;

/// The time of each of `count` writes, made by our writer and by the original's, plain and escaped.
/// Ours needs one pass where the room is known to be ample, be it the output's or a buffer's, else
/// two, the first of which counts.
fn writes(
    name: &str,
    count: usize,
    ours: impl Fn(Sink, &mut [u8], usize) -> Sink,
    original: impl Fn(&mut BitWriter, usize),
) {
    let mut out = vec![0; LONGEST * 2];
    for (kind, escape) in [("plain", false), ("escaped", true)] {
        let pass = |out: &mut [u8]| {
            let sink = (0..count).fold(ours::sink(escape), |sink, i| ours(sink, out, i));
            ours::close(sink, out)
        };
        let original = time(|| {
            let mut writer = BitWriter::new();
            (0..count).for_each(|i| original(&mut writer, i));
            writer.write_rbsp_trailing_bits();
            let rbsp = writer.finish();
            if escape {
                nal::rbsp_to_ebsp(&rbsp)
            } else {
                rbsp
            }
        });
        let one = time(|| pass(&mut out));
        let two = time(|| {
            let counted = pass(&mut []);
            (ours::sink_answer(counted, out.len()), pass(&mut out))
        });
        for (passes, ours) in [("one pass", one), ("two passes", two)] {
            row(
                &format!("{name}, {kind}, {passes}"),
                ours / count as f64,
                Some(original / count as f64),
            );
        }
    }
}

pub fn run(random: &mut Random) {
    let values: Vec<u32> = (0..4096).map(|_| random.next() as u32).collect();
    writes(
        "write a flag, u(1)",
        values.len(),
        |sink, out, i| ours::put_bit(sink, out, values[i]),
        |writer, i| writer.write_bit(values[i]),
    );
    for (name, n) in [("write u(8)", 8), ("write u(32)", 32)] {
        let n = black_box(n);
        writes(
            name,
            values.len(),
            |sink, out, i| ours::put_bits(sink, out, values[i], n),
            |writer, i| writer.write_bits(values[i], n),
        );
    }
    for (name, most) in [("write ue below 16", 16), ("write ue below 65536", 65536)] {
        writes(
            name,
            values.len(),
            |sink, out, i| ours::put_ue(sink, out, values[i] % most),
            |writer, i| writer.write_ue(values[i] % most).unwrap(),
        );
    }
    let bytes: Vec<u8> = (0..=LONGEST).map(|_| random.byte()).collect();
    for from in [0, 3] {
        writes(
            &format!("copy {LONGEST} bytes, bit {from}"),
            1,
            |sink, out, _| ours::put_copy(sink, out, black_box(&bytes), from, LONGEST * 8),
            |writer, _| {
                let mut reader = BitReader::new(black_box(&bytes));
                reader.skip(from);
                for _ in 0..LONGEST * 8 {
                    writer.write_bit(reader.u(1));
                }
            },
        );
    }
}
