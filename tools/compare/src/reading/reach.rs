//! What the units have to reach.

use super::second::{LONGEST, Second};
use crate::tally::Tally;
use original::h266::pps::VvcPps;

/// The first 24 by the number of the refusal.
pub const REACH: [&str; 24 + 19] = [
    "accepted",
    "refused with 1",
    "2",
    "3",
    "4",
    "5",
    "6",
    "7",
    "8",
    "9",
    "10",
    "11",
    "12",
    "13",
    "14",
    "15",
    "16",
    "17",
    "18",
    "19",
    "20",
    "21",
    "22",
    "23",
    "17 for a split count",
    "subpicture ids",
    "1,000 of them",
    "partitions",
    "990 tiles in 30 columns",
    "990 rows",
    "largest pictures",
    "slice entries",
    "999 of them",
    "1,000 slices",
    "splits",
    "1,000 split heights",
    "deltas",
    "chroma lists",
    "deblocking offsets",
    "extension bits",
    "escape bytes",
    "65,535 bytes",
    "written longer than that",
];

pub fn number(second: &Second, tally: &mut Tally) {
    tally.reached(second.refused.into());
    if second.seen.early_17 > 0 {
        tally.reached(24);
    }
}

/// What is written of an accepted set is too long to be read again.
pub fn too_long(tally: &mut Tally) {
    tally.reached(42);
}

/// Of a set that is accepted.
pub fn accepted(nal: &[u8], p: &VvcPps, second: &Second, tally: &mut Tally) {
    let seen = &second.seen;
    let ids = p.subpic_id_mapping.as_ref();
    let ids = ids.map_or(0, |m| m.pps_subpic_ids.len());
    let part = p.partition.as_ref();
    let slices = part.map_or(&[][..], |part| &part.rect_slices);
    let last_slice = part.map_or(0, |part| part.pps_num_slices_in_pic_minus1);
    let splits = slices
        .iter()
        .filter_map(|e| e.exp_slice_heights_in_ctus_minus1.as_ref());
    let split_heights: usize = splits.map(Vec::len).sum();
    let chroma = p.chroma_tool_offsets.as_ref();
    let deblocking = p.deblocking.as_ref();
    let samples = [
        p.pps_pic_width_in_luma_samples,
        p.pps_pic_height_in_luma_samples,
    ];
    let reached = [
        ids > 0,
        ids == 1000,
        part.is_some(),
        seen.columns == 30 && seen.rows == 33,
        seen.rows == 990,
        samples == [u32::MAX - 1; 2],
        !slices.is_empty(),
        slices.len() == 999,
        last_slice == 999,
        split_heights > 0,
        split_heights == 1000,
        part.is_some_and(|part| part.pps_tile_idx_delta_present_flag != 0),
        chroma.is_some_and(|c| c.cu_chroma_qp_offset_list.is_some()),
        deblocking.is_some_and(|d| d.pps_deblocking_filter_disabled_flag == 0),
        !p.pps_extension_data.is_empty(),
        second.rbsp.len() + 2 < nal.len(),
        nal.len() == LONGEST,
    ];
    for (i, &reached) in reached.iter().enumerate() {
        if reached {
            tally.reached(25 + i);
        }
    }
}
