//! Reading whole sets. Ours clears 36 KB of tables in each call, which the original does not have.

use super::{row, time};
use crate::reading::{Lengths, Lent, SMALLEST};
use crate::sets::laid::{self, partitioned, slice, then};
use original::h266::pps::{
    VvcPps, VvcPpsChromaToolOffsets, VvcPpsDeblocking, parse_pps, write_pps_nal,
};
use std::hint::black_box;

pub fn run() {
    for (name, record) in records() {
        let nal = write_pps_nal(&record).unwrap();
        let mut lent = Lent::new(&Lengths::least(&nal));
        row(
            &format!("read a set, {name}"),
            time(|| lent.parse_pps(black_box(&nal))),
            Some(time(|| parse_pps(black_box(&nal)))),
        );
    }
}

/// Sets from the smallest to the largest.
pub fn records() -> [(&'static str, VvcPps); 8] {
    let smallest = parse_pps(&SMALLEST).unwrap();
    let extended = |zeros: usize| VvcPps {
        pps_extension_flag: 1,
        pps_extension_data: [&vec![0; zeros * 8][..], &[1]].concat(),
        ..smallest.clone()
    };
    [
        ("unpartitioned", smallest.clone()),
        ("4 × 3 tiles, 6 slices", typical()),
        (
            "30 × 33 tiles, one slice",
            partitioned(&[0; 30], &[0; 33], 1, 0, vec![]),
        ),
        (
            "30 × 33 tiles, 990 slices",
            partitioned(&[0; 30], &[0; 33], 0, 989, vec![slice(0, 0); 989]),
        ),
        ("1,000 slices with deltas", deltas()),
        ("1,000 slices of a tile", split()),
        ("800 extension bytes, zeros", extended(800)),
        ("8,000 extension bytes, zeros", extended(8000)),
    ]
}

fn typical() -> VvcPps {
    VvcPps {
        chroma_tool_offsets: Some(VvcPpsChromaToolOffsets::default()),
        deblocking: Some(VvcPpsDeblocking::default()),
        ..partitioned(&[3, 3, 3, 2], &[2, 2, 2], 0, 5, vec![slice(1, 0); 5])
    }
}

/// From the first of two tiles to the second and back.
fn deltas() -> VvcPps {
    let entry = |i| then(if i % 2 == 0 { 1 } else { -1 }, slice(0, 0));
    partitioned(&[0, 0], &[0], 0, 999, (0..999).map(entry).collect())
}

fn split() -> VvcPps {
    let heights_minus1 = [&[0; 999][..], &[1]].concat();
    partitioned(&[0], &[1000], 0, 999, vec![laid::split(&heights_minus1)])
}
