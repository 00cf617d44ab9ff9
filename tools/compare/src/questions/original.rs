//! What the original says of the same records: its tile sizes, and its refusal where it tests the
//! same.

use super::second;
use super::shown::Grid;
use crate::reading::Runs;
use crate::sets::Set;
use crate::sets::second::partition::{self, By};
use crate::tally::Tally;
use original::BitstreamError;
use original::h266::pps::{VvcPps, write_pps};
use original::h266::tile_sizes::derive_tile_sizes;

/// The set with nothing but what the questions look at.
fn bare(set: &Set) -> VvcPps {
    let record = set.original();
    VvcPps {
        pps_pic_width_in_luma_samples: record.pps_pic_width_in_luma_samples,
        pps_pic_height_in_luma_samples: record.pps_pic_height_in_luma_samples,
        pps_no_pic_partition_flag: record.pps_no_pic_partition_flag,
        partition: record.partition,
        ..VvcPps::default()
    }
}

/// What writing answers, where it tests the same.
pub fn written(set: &Set, refused: u8) -> Option<Result<Vec<u8>, BitstreamError>> {
    let asked = refused != 5 && same_tests(set);
    asked.then(|| write_pps(&bare(set)))
}

/// Writing refuses a side of 4294967295 samples; the questions refuse flags over 1 and, beyond
/// those, add two tests to the partition's.
fn same_tests(set: &Set) -> bool {
    let Set { pps, lent, .. } = set;
    let samples = [
        pps.pps_pic_width_in_luma_samples,
        pps.pps_pic_height_in_luma_samples,
    ];
    let tested = |by| partition::tested(pps, lent, by);
    !samples.contains(&u32::MAX)
        && !second::flag_over_1(pps)
        && (pps.partition.present == 0 || tested(By::Writing) == tested(By::Questions))
}

/// The sizes of the columns and rows of a partition that is accepted, beside the original's.
pub fn same_sizes(set: &Set, grid: &Grid, tally: &mut Tally) {
    let record = bare(set);
    let Some(part) = &record.partition else {
        return;
    };
    let sizes = |explicit: &[u32], ctbs: u64, most: u64| -> Vec<u32> {
        let sizes = derive_tile_sizes(explicit, ctbs, most, "").unwrap_or_default();
        sizes.iter().map(|&size| size as u32).collect()
    };
    let widths = &part.pps_tile_column_widths_minus1;
    let columns = sizes(widths, record.pic_width_in_ctbs(), 30);
    let most_rows = 990 / columns.len().max(1) as u64;
    let heights = &part.pps_tile_row_heights_minus1;
    let rows = sizes(heights, record.pic_height_in_ctbs(), most_rows);
    let ours = (
        Runs(grid.column_widths_in_use()),
        Runs(grid.row_heights_in_use()),
    );
    tally.compare(&ours, &(Runs(&columns), Runs(&rows)), 0, || {
        format!("the sizes of {set:?}")
    });
}
