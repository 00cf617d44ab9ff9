//! The partition block of a set to be written or asked about: tiles, then the rectangular slices (H.266
//! 6.5.1, 7.4.3.5).

use crate::ours::{Partition, Pps};
use crate::reading::Lent;
use crate::reading::second::must;
use crate::reading::second::partition::{Grid, filled, moved, slices_of_tile};

/// Who tests: the questions add two tests.
#[derive(Clone, Copy, PartialEq)]
pub enum By {
    Writing,
    Questions,
}

pub fn tested(pps: &Pps, lent: &Lent, by: By) -> Result<(), u8> {
    let p = &pps.partition;
    let grid = grid(pps, lent)?;
    must(grid.tiles() > 1 || p.pps_rect_slice_flag == 1, 26)?;
    if p.pps_rect_slice_flag != 0 && p.pps_single_slice_per_subpic_flag == 0 {
        must(p.pps_num_slices_in_pic_minus1 <= 999, 14)?;
        must(by == By::Writing || !uncoded_delta_flag(p), 26)?;
        slices(p, &grid, lent, by)
    } else {
        must(p.num_rect_slices == 0, 26)
    }
}

/// A delta flag with N under 2, where it isn't coded.
pub fn uncoded_delta_flag(p: &Partition) -> bool {
    p.pps_tile_idx_delta_present_flag != 0 && p.pps_num_slices_in_pic_minus1 < 2
}

/// The picture in CTBs.
pub fn ctbs(pps: &Pps) -> Result<[u64; 2], u8> {
    let log2_minus5 = pps.partition.pps_log2_ctu_size_minus5;
    must(log2_minus5 <= 2, 9)?;
    let in_ctbs = |samples: u32| u64::from(samples).div_ceil(32 << log2_minus5);
    Ok([
        in_ctbs(pps.pps_pic_width_in_luma_samples),
        in_ctbs(pps.pps_pic_height_in_luma_samples),
    ])
}

pub fn grid(pps: &Pps, lent: &Lent) -> Result<Grid, u8> {
    let p = &pps.partition;
    let [width, height] = ctbs(pps)?;
    let widths = sizes(lent.tile_column_widths.held(), p.num_tile_column_widths);
    let heights = sizes(lent.tile_row_heights.held(), p.num_tile_row_heights);
    must(!widths.is_empty() && !heights.is_empty(), 10)?;
    must(widths.iter().all(|&size| size <= width), 11)?;
    must(heights.iter().all(|&size| size <= height), 11)?;
    let columns = filled(&widths, width, 30)?.len() as u64;
    let row_heights = filled(&heights, height, 990 / columns)?;
    Ok(Grid {
        columns,
        row_heights,
    })
}

/// The first entries of a table of sizes or heights minus 1.
fn sizes(table: &[u32], count: u32) -> Vec<u64> {
    let sizes = table.iter().map(|&minus1| u64::from(minus1) + 1);
    sizes.take(count as usize).collect()
}

fn slices(p: &Partition, grid: &Grid, lent: &Lent, by: By) -> Result<(), u8> {
    let last = u64::from(p.pps_num_slices_in_pic_minus1);
    let deltas = p.pps_tile_idx_delta_present_flag != 0;
    let mut split_heights = lent.split_heights.held();
    let mut entries = lent.entries.held()[..p.num_rect_slices as usize].iter();
    let (mut slice, mut tile, mut preceding_height) = (0, 0, 0);
    while slice < last {
        let entry = entries.next().ok_or(26)?;
        let width = u64::from(entry.pps_slice_width_in_tiles_minus1);
        let height = u64::from(entry.pps_slice_height_in_tiles_minus1);
        let (column, row) = (tile % grid.columns, tile / grid.columns);
        must(column + width < grid.columns, 15)?;
        must(row + height < grid.rows(), 15)?;
        let coded = deltas || column == 0;
        let inferred = if row + 1 == grid.rows() {
            0
        } else {
            preceding_height
        };
        must(by == By::Writing || coded || height == inferred, 26)?;
        preceding_height = height;
        let row_height = grid.row_heights[row as usize];
        let may_split = width == 0 && height == 0 && row_height > 1;
        must((entry.split_present != 0) == may_split, 26)?;
        if may_split {
            let count = entry.pps_num_exp_slices_in_tile;
            must(u64::from(count) < row_height, 16)?;
            let heights = sizes(split_heights, count);
            must(heights.iter().all(|&height| height <= row_height), 16)?;
            split_heights = &split_heights[count as usize..];
            slice += slices_of_tile(&heights, row_height, last - slice + 1)? - 1;
        }
        // A delta stands where deltas are on and slices are to come.
        let delta = entry.delta_present != 0;
        must(delta == (deltas && slice < last), 26)?;
        if delta {
            let delta = entry.pps_tile_idx_delta_val;
            must(delta != i32::MIN, 25)?;
            tile = moved(tile, delta.into(), grid.tiles())?;
        } else if slice < last {
            tile = grid.next(tile, width, height)?;
        }
        slice += 1;
    }
    must(entries.next().is_none(), 26)
}
