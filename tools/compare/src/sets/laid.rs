//! Records of partitioned pictures.

use original::h266::pps::{VvcPps, VvcPpsPartition, VvcPpsRectSlice};

/// With CTUs of 128 samples, and a picture that is as large as the sizes; with deltas where an entry has
/// one.
pub fn partitioned(
    columns_minus1: &[u32],
    rows_minus1: &[u32],
    single_slice: u8,
    last_slice: u32,
    rect_slices: Vec<VvcPpsRectSlice>,
) -> VvcPps {
    let samples = |sizes: &[u32]| sizes.iter().map(|size| (size + 1) * 128).sum();
    let deltas = rect_slices
        .iter()
        .any(|e| e.pps_tile_idx_delta_val.is_some());
    VvcPps {
        pps_pic_width_in_luma_samples: samples(columns_minus1),
        pps_pic_height_in_luma_samples: samples(rows_minus1),
        partition: Some(VvcPpsPartition {
            pps_log2_ctu_size_minus5: 2,
            pps_tile_column_widths_minus1: columns_minus1.to_vec(),
            pps_tile_row_heights_minus1: rows_minus1.to_vec(),
            pps_rect_slice_flag: 1,
            pps_single_slice_per_subpic_flag: single_slice,
            pps_num_slices_in_pic_minus1: last_slice,
            pps_tile_idx_delta_present_flag: deltas.into(),
            rect_slices,
            ..VvcPpsPartition::default()
        }),
        ..VvcPps::default()
    }
}

/// So many tiles, minus 1.
pub fn slice(width: u32, height: u32) -> VvcPpsRectSlice {
    VvcPpsRectSlice {
        pps_slice_width_in_tiles_minus1: width,
        pps_slice_height_in_tiles_minus1: height,
        ..VvcPpsRectSlice::default()
    }
}

/// One tile in slices of so many CTBs, minus 1; as one slice where there are none.
pub fn split(heights: &[u32]) -> VvcPpsRectSlice {
    VvcPpsRectSlice {
        exp_slice_heights_in_ctus_minus1: Some(heights.to_vec()),
        ..VvcPpsRectSlice::default()
    }
}

/// The entry, and the way to the next tile.
pub fn then(delta: i32, entry: VvcPpsRectSlice) -> VvcPpsRectSlice {
    VvcPpsRectSlice {
        pps_tile_idx_delta_val: Some(delta),
        ..entry
    }
}

/// 30 × 33 tiles, the first ten in two slices each and the others in one: 1,000 slices, every block in
/// one.
pub fn most_slices() -> VvcPps {
    let mut rect_slices = vec![split(&[0]); 10];
    rect_slices.resize(989, split(&[]));
    partitioned(&[0; 30], &[1; 33], 0, 999, rect_slices)
}
