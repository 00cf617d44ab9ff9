//! What the records have to reach.

use super::counted::Counted;
use super::picture::Picture;
use super::second;
use crate::sets::Set;
use crate::sets::second::partition::{self, By};
use crate::tally::Tally;

/// The numbers, of which 0 is an acceptance, in the order of `REACH`.
const NUMBERS: [u8; 16] = [0, 5, 7, 9, 10, 11, 12, 13, 14, 15, 16, 17, 18, 19, 25, 26];

pub const REACH: [&str; 16 + 5 + 21] = [
    "accepted",
    "refused with 5",
    "7",
    "9",
    "10",
    "11",
    "12",
    "13",
    "14",
    "15",
    "16",
    "17",
    "18",
    "19",
    "25",
    "26",
    "26 for a flag over 1",
    "26 for the presence",
    "26 for a delta flag",
    "26 for a height",
    "26 as in writing",
    "refused as in the Rust",
    "unpartitioned",
    "not rectangular",
    "a slice per subpicture",
    "whole",
    "gap",
    "double",
    "gap and double",
    "counted by blocks",
    "counted by tiles",
    "30 columns",
    "990 rows",
    "990 tiles",
    "1,000 slices",
    "990 tiles and 1,000 slices",
    "splits",
    "tiles in 1,000 slices",
    "deltas",
    "2^27 CTBs high",
    "4294967295 samples",
    "written by the Rust",
];

/// Of an answer, with the original's number where it tests the same.
pub fn refused(set: &Set, refused: u8, shared: Option<u8>, tally: &mut Tally) {
    if let Some(place) = NUMBERS.iter().position(|&number| number == refused) {
        tally.reached(place);
    }
    if refused == 26 {
        tally.reached(16 + why_26(set));
    }
    if shared.is_some_and(|number| number != 0) {
        tally.reached(21);
    }
}

/// Of a record that is accepted, with the count where slices are coded.
pub fn accepted(
    set: &Set,
    picture: &Picture,
    counted: Option<&Counted>,
    shared: Option<u8>,
    tally: &mut Tally,
) {
    let p = &set.pps.partition;
    let partitioned = p.present != 0;
    let samples = [
        set.pps.pps_pic_width_in_luma_samples,
        set.pps.pps_pic_height_in_luma_samples,
    ];
    let slices = counted.map_or(0, |c| c.places.len());
    let (gap, double) = (
        counted.is_some_and(Counted::gap),
        counted.is_some_and(Counted::double),
    );
    let small = picture.blocks() <= super::SMALL;
    let tiles = picture.tiles();
    let reached = [
        !partitioned,
        partitioned && p.pps_rect_slice_flag == 0,
        partitioned && p.pps_rect_slice_flag != 0 && p.pps_single_slice_per_subpic_flag != 0,
        counted.is_some() && !gap && !double,
        gap,
        double && !gap,
        gap && double,
        counted.is_some() && small,
        counted.is_some() && !small,
        picture.columns() == 30,
        picture.rows() == 990,
        tiles == 990,
        slices == 1000,
        tiles == 990 && slices == 1000,
        slices > p.num_rect_slices as usize + 1,
        slices == 1000 && tiles == 1,
        counted.is_some() && p.pps_tile_idx_delta_present_flag != 0,
        partitioned && picture.height() == 1 << 27,
        partitioned && samples.contains(&u32::MAX),
        shared == Some(0),
    ];
    for (i, &reached) in reached.iter().enumerate() {
        if reached {
            tally.reached(22 + i);
        }
    }
}

/// Its place among the reasons in `REACH`.
fn why_26(set: &Set) -> usize {
    let Set { pps, lent, .. } = set;
    if second::flag_over_1(pps) {
        0
    } else if !second::rightly_present(pps) {
        1
    } else if partition::tested(pps, lent, By::Writing) == Err(26) {
        4
    } else if partition::uncoded_delta_flag(&pps.partition) {
        2
    } else {
        3
    }
}
