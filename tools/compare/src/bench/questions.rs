//! The questions on a record, which the original does not have.

use super::reading::records;
use super::{row, time};
use crate::sets::Set;
use crate::sets::laid::{most_slices, partitioned, slice, then};
use original::h266::pps::VvcPps;
use std::hint::black_box;

pub fn run() {
    let mut asked: Vec<(&str, VvcPps)> = records()[..6].to_vec();
    asked.push(("30 × 33 tiles, 1,000 slices", most_slices()));
    asked.push(("30 × 33 tiles, 1,000 slices over all", all_over()));
    for (name, record) in asked {
        let Set { pps, lent, .. } = Set::least(&record);
        let times = [
            ("grid", time(|| lent.tile_grid(black_box(&pps)))),
            ("plan", time(|| lent.slice_plan(black_box(&pps)))),
            ("cover", time(|| lent.cover(black_box(&pps)))),
        ];
        for (question, ours) in times {
            row(&format!("{question}, {name}"), ours, None);
        }
    }
}

/// Every other slice holds all tiles, and those between all but one.
fn all_over() -> VvcPps {
    let entry = |i| match i % 2 {
        0 => then(1, slice(29, 32)),
        _ => then(-1, slice(28, 32)),
    };
    partitioned(&[0; 30], &[0; 33], 0, 999, (0..999).map(entry).collect())
}
