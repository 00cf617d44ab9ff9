//! Changes to a set that the questions tell apart.

use crate::ours::RectSlice;
use crate::random::Random;
use crate::sets::Set;
use crate::sets::change;
use crate::sets::second::partition;

/// Changes one thing, mostly in the partition.
pub fn change(random: &mut Random, set: &mut Set) {
    let Set { pps, lent, .. } = set;
    let p = &mut pps.partition;
    match random.below(16) {
        0 => p.pps_num_slices_in_pic_minus1 ^= 1,
        1 => p.num_rect_slices ^= 1,
        2 => p.pps_tile_idx_delta_present_flag ^= random.pick(&[1, 1, 2]),
        3 => p.pps_single_slice_per_subpic_flag ^= 1,
        4 => p.pps_rect_slice_flag ^= 1,
        // Another picture, which its tiles fill otherwise.
        5 => pps.pps_pic_width_in_luma_samples = 1 + random.value() % 4000,
        6 => pps.pps_pic_height_in_luma_samples = 1 + random.value() % 4000,
        7 => pps.pps_pic_height_in_luma_samples = u32::MAX,
        8..10 => {
            let entry = random.below((p.num_rect_slices as usize).clamp(1, 30));
            if let Some(entry) = lent.entries.lent().get_mut(entry) {
                entry.pps_slice_height_in_tiles_minus1 = random.below(3) as u32;
            }
        }
        10 => {
            let entry = random.below((p.num_rect_slices as usize).clamp(1, 30));
            if let Some(entry) = lent.entries.lent().get_mut(entry) {
                let deltas = [i32::MIN, i32::MIN + 1, i32::MAX, 0, 1, -1];
                entry.pps_tile_idx_delta_val = random.pick(&deltas);
            }
        }
        _ => change::change(random, set),
    }
}

/// Slices with deltas in place of what there is, where there are several tiles. Now and then the last of
/// them starts at tile 0 and holds all.
pub fn move_about(random: &mut Random, set: &mut Set) {
    let Set { pps, lent, .. } = set;
    let grid = match partition::grid(pps, lent) {
        Ok(grid) if grid.tiles() > 1 && lent.lengths().tables_long() => grid,
        _ => return,
    };
    let p = &mut pps.partition;
    let count = random.pick(&[2, 2, 3, 5, 9, 40, 999]);
    p.pps_rect_slice_flag = 1;
    p.pps_single_slice_per_subpic_flag = 0;
    p.pps_tile_idx_delta_present_flag = 1;
    p.pps_num_slices_in_pic_minus1 = count as u32;
    p.num_rect_slices = count as u32;
    let (mut tile, all_at_last) = (0, random.one_in(2));
    let up_to = |random: &mut Random, most: u64| {
        let most = if random.one_in(2) { most } else { most.min(2) };
        random.below(most as usize) as u32
    };
    for i in 0..count {
        let (column, row) = (tile % grid.columns, tile / grid.columns);
        let width = up_to(random, grid.columns - column);
        let height = up_to(random, grid.rows() - row);
        let may_split = width == 0 && height == 0 && grid.row_heights[row as usize] > 1;
        let mut next = random.below(grid.tiles() as usize) as u64;
        if all_at_last && i + 1 == count {
            next = 0;
        }
        if next == tile {
            next = (tile + 1) % grid.tiles();
        }
        lent.entries.lent()[i] = RectSlice {
            pps_slice_width_in_tiles_minus1: width,
            pps_slice_height_in_tiles_minus1: height,
            split_present: may_split.into(),
            pps_num_exp_slices_in_tile: 0,
            delta_present: 1,
            pps_tile_idx_delta_val: (next as i64 - tile as i64) as i32,
        };
        tile = next;
    }
}
