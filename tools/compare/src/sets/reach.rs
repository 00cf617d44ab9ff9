//! What the sets have to reach.

use super::record::Set;
use super::second;
use crate::reading::{Lengths, Lent};
use crate::tally::Tally;
use original::h266::pps::VvcPps;

/// The numbers, of which 0 is an acceptance, in the order of `REACH`.
const NUMBERS: [u8; 23] = [
    0, 5, 7, 8, 9, 10, 11, 12, 13, 14, 15, 16, 17, 18, 19, 20, 21, 24, 25, 26, 27, 28, 29,
];

pub const REACH: [&str; 23 + 4 + 14] = [
    "accepted",
    "refused with 5",
    "7",
    "8",
    "9",
    "10",
    "11",
    "12",
    "13",
    "14",
    "15",
    "16",
    "17",
    "18",
    "19",
    "20",
    "21",
    "24",
    "25",
    "26",
    "27",
    "28",
    "29",
    "5 for a table",
    "5 for a count",
    "5 for the split counts",
    "5 for the extension bits",
    "subpicture ids",
    "1,000 of them",
    "partitions",
    "slice entries",
    "999 of them",
    "splits",
    "deltas",
    "chroma lists",
    "deblocking offsets",
    "extension bits",
    "escape bytes",
    "over 65,535 bytes",
    "flags over 1",
    "slices that are read otherwise",
];

/// Of an answer.
pub fn number(refused: u8, tally: &mut Tally) {
    if let Some(place) = NUMBERS.iter().position(|&number| number == refused) {
        tally.reached(place);
    }
}

fn all(first: usize, reached: &[bool], tally: &mut Tally) {
    for (i, &reached) in reached.iter().enumerate() {
        if reached {
            tally.reached(first + i);
        }
    }
}

/// What alone is the reason for 5.
pub fn refused(set: &Set, refused: u8, tally: &mut Tally) {
    if refused != 5 {
        return;
    }
    let wrong = [
        !second::tables_long(&set.lent),
        !second::counts_fit(&set.pps),
        !second::splits_fit(set),
        !second::extension_lent(set),
    ];
    if wrong.iter().filter(|&&wrong| wrong).count() == 1 {
        all(23, &wrong, tally);
    }
}

/// Of a set that the original writes.
pub fn accepted(set: &Set, p: &VvcPps, nal: &[u8], tally: &mut Tally) {
    let ids = p.subpic_id_mapping.as_ref();
    let ids = ids.map_or(0, |m| m.pps_subpic_ids.len());
    let part = p.partition.as_ref();
    let slices = part.map_or(&[][..], |part| &part.rect_slices);
    let splits = slices
        .iter()
        .filter_map(|e| e.exp_slice_heights_in_ctus_minus1.as_ref());
    let chroma = p.chroma_tool_offsets.as_ref();
    let deblocking = p.deblocking.as_ref();
    let flags = [
        p.pps_mixed_nalu_types_in_pic_flag,
        p.pps_no_pic_partition_flag,
        p.pps_cabac_init_present_flag,
        p.pps_extension_flag,
    ];
    let reached = [
        ids > 0,
        ids == 1000,
        part.is_some(),
        !slices.is_empty(),
        slices.len() == 999,
        splits.map(Vec::len).sum::<usize>() > 0,
        slices.iter().any(|e| e.pps_tile_idx_delta_val.is_some()),
        chroma.is_some_and(|c| c.cu_chroma_qp_offset_list.is_some()),
        deblocking.is_some_and(|d| d.pps_deblocking_filter_disabled_flag == 0),
        !p.pps_extension_data.is_empty(),
        nal.windows(3).any(|bytes| bytes == [0, 0, 3]),
        nal.len() > 65_535,
        flags.iter().any(|&flag| flag > 1),
        !slices.is_empty() && read_otherwise(set, slices.len(), nal),
    ];
    all(27, &reached, tally);
}

/// An uncoded height that isn't the inherited one, or a delta flag that isn't written.
fn read_otherwise(set: &Set, entries: usize, nal: &[u8]) -> bool {
    let mut lent = Lent::new(&Lengths::least(nal));
    let refused = lent.parse_pps(nal).refused;
    let heights = |lent: &Lent| -> Vec<u32> {
        let entries = lent.entries.held()[..entries].iter();
        entries
            .map(|e| e.pps_slice_height_in_tiles_minus1)
            .collect()
    };
    refused != 0 || heights(&lent) != heights(&set.lent)
}
