//! A second reading of the table of refusals (docs/BEHAVIOUR.md), for the questions: which number a set
//! gets. The tests of the partition are those of writing, with two more.

use crate::ours::{Partition, Pps};
use crate::reading::second::must;
use crate::sets::Set;
use crate::sets::second::partition::{self, By};
use crate::sets::second::{counts_fit, splits_fit, tables_long};

/// 0 where nothing is refused.
pub fn refusal(set: &Set) -> u8 {
    tested(set).err().unwrap_or(0)
}

fn tested(set: &Set) -> Result<(), u8> {
    let Set { pps, lent, .. } = set;
    must(tables_long(lent), 5)?;
    must(counts_fit(pps) && splits_fit(set), 5)?;
    must(pps.pps_pic_width_in_luma_samples != 0, 7)?;
    must(pps.pps_pic_height_in_luma_samples != 0, 7)?;
    must(!flag_over_1(pps) && rightly_present(pps), 26)?;
    if pps.partition.present != 0 {
        partition::tested(pps, lent, By::Questions)?;
    }
    Ok(())
}

/// The no-partition flag, or one of a present partition.
pub fn flag_over_1(p: &Pps) -> bool {
    let in_partition = p.partition.present != 0 && flags(&p.partition).iter().any(|&f| f > 1);
    p.pps_no_pic_partition_flag > 1 || in_partition
}

fn flags(p: &Partition) -> [u8; 5] {
    [
        p.pps_loop_filter_across_tiles_enabled_flag,
        p.pps_rect_slice_flag,
        p.pps_single_slice_per_subpic_flag,
        p.pps_tile_idx_delta_present_flag,
        p.pps_loop_filter_across_slices_enabled_flag,
    ]
}

pub fn rightly_present(p: &Pps) -> bool {
    (p.partition.present != 0) == (p.pps_no_pic_partition_flag == 0)
}
