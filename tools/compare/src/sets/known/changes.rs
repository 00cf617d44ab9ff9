//! The known sets, and changes to them with the number that each is to give.

use crate::sets::Set;
use original::h266::pps::{
    VvcPps, VvcPpsChromaToolOffsets, VvcPpsDeblocking, VvcPpsPartition, VvcPpsRectSlice,
    VvcPpsSubpicIdMapping,
};

pub type Change = fn(&mut Set);

/// To the smallest set.
pub const UNPARTITIONED: &[(u8, Change)] = &[
    (0, |_| ()),
    (24, |s| s.pps.pps_pic_parameter_set_id = 64),
    (24, |s| s.pps.pps_seq_parameter_set_id = 16),
    (7, |s| s.pps.pps_pic_height_in_luma_samples = 0),
    (25, |s| s.pps.pps_pic_width_in_luma_samples = u32::MAX),
    (25, |s| s.pps.pps_init_qp_minus26 = i32::MIN),
    (25, |s| {
        s.pps.pps_conf_win_offsets.present = 1;
        s.pps.pps_conf_win_offsets.pps_conf_win_top_offset = u32::MAX;
    }),
    (25, |s| {
        s.pps.pps_scaling_win_offsets.present = 1;
        s.pps.pps_scaling_win_offsets.pps_scaling_win_left_offset = i32::MIN;
    }),
    (25, |s| {
        s.pps.pps_ref_wraparound_enabled_flag = 1;
        s.pps.pps_pic_width_minus_wraparound_offset = u32::MAX;
    }),
    // Flags over 1 are written as 1.
    (0, |s| s.pps.pps_no_pic_partition_flag = 2),
    (0, |s| s.pps.pps_cabac_init_present_flag = 255),
    // A partition that is missing, and one that is not to be.
    (26, |s| s.pps.pps_no_pic_partition_flag = 0),
    (26, |s| s.pps.partition.present = 1),
    // Subpictures that are not coded without a partition.
    (26, |s| {
        s.pps.subpic_id_mapping.present = 1;
        s.pps.subpic_id_mapping.pps_num_subpics_minus1 = 1;
    }),
    // Fields of absent blocks are not looked at.
    (0, |s| s.pps.partition.num_rect_slices = u32::MAX),
    (0, |s| s.pps.deblocking.pps_luma_beta_offset_div2 = 13),
    (20, |s| s.pps.pps_num_ref_idx_default_active_minus1_l0 = 15),
    (20, |s| s.pps.pps_num_ref_idx_default_active_minus1_l1 = 15),
    // Extension bits outside the bytes lent, without their flag, and of a flag without any.
    (5, |s| s.pps.pps_extension_data_bits = 1),
    (0, |s| s.pps.pps_extension_data_first_bit = usize::MAX),
    (0, |s| s.pps.pps_extension_flag = 1),
    (5, |s| {
        s.pps.pps_extension_data_first_bit = usize::MAX;
        s.pps.pps_extension_data_bits = usize::MAX;
    }),
    // 5 comes first.
    (5, |s| {
        s.pps.pps_pic_parameter_set_id = 64;
        s.pps.pps_extension_data_bits = 1;
    }),
];

/// 2 × 2 tiles of one CTB by two, N 2: tile 0 in two slices, then the rest; every block.
pub fn partitioned() -> VvcPps {
    let entry = VvcPpsRectSlice {
        exp_slice_heights_in_ctus_minus1: Some(vec![0]),
        ..VvcPpsRectSlice::default()
    };
    VvcPps {
        pps_pic_width_in_luma_samples: 64,
        pps_pic_height_in_luma_samples: 128,
        subpic_id_mapping: Some(VvcPpsSubpicIdMapping {
            pps_num_subpics_minus1: 1,
            pps_subpic_id_len_minus1: 3,
            pps_subpic_ids: vec![15, 0],
        }),
        partition: Some(VvcPpsPartition {
            pps_tile_column_widths_minus1: vec![0],
            pps_tile_row_heights_minus1: vec![1],
            pps_rect_slice_flag: 1,
            pps_num_slices_in_pic_minus1: 2,
            rect_slices: vec![entry],
            ..VvcPpsPartition::default()
        }),
        chroma_tool_offsets: Some(VvcPpsChromaToolOffsets {
            cu_chroma_qp_offset_list: Some(vec![(-12, 12, None)]),
            ..VvcPpsChromaToolOffsets::default()
        }),
        deblocking: Some(VvcPpsDeblocking::default()),
        pps_extension_flag: 1,
        pps_extension_data: vec![0, 1],
        ..VvcPps::default()
    }
}

/// To the partitioned set.
pub const PARTITIONED: &[(u8, Change)] = &[
    (0, |_| ()),
    (8, |s| s.pps.subpic_id_mapping.pps_num_subpics_minus1 = 1000),
    (8, |s| s.pps.subpic_id_mapping.pps_subpic_id_len_minus1 = 16),
    (27, |s| s.pps.subpic_id_mapping.num_subpic_ids = 1),
    (27, |s| s.lent.subpic_ids.lent()[0] = 16),
    (5, |s| s.pps.subpic_id_mapping.num_subpic_ids = 1001),
    (9, |s| s.pps.partition.pps_log2_ctu_size_minus5 = 3),
    (10, |s| s.pps.partition.num_tile_row_heights = 0),
    (5, |s| s.pps.partition.num_tile_column_widths = 31),
    (11, |s| s.lent.tile_column_widths.lent()[0] = 2),
    (11, |s| s.lent.tile_row_heights.lent()[0] = 4),
    (12, |s| {
        s.pps.partition.num_tile_column_widths = 2;
        s.lent.tile_column_widths.lent()[1] = 1;
    }),
    (12, |s| {
        s.pps.partition.num_tile_row_heights = 2;
        s.lent.tile_row_heights.lent()[1] = 2;
    }),
    (13, |s| s.pps.pps_pic_width_in_luma_samples = 31 * 32),
    // Two columns leave 495 rows.
    (13, |s| s.pps.pps_pic_height_in_luma_samples = 496 * 64),
    (26, |s| one_tile(s, 0)),
    (26, |s| one_tile(s, 2)),
    (26, |s| s.pps.partition.pps_single_slice_per_subpic_flag = 1),
    (14, |s| s.pps.partition.pps_num_slices_in_pic_minus1 = 1000),
    (15, |s| {
        s.lent.entries.lent()[0].pps_slice_width_in_tiles_minus1 = 2
    }),
    (16, |s| {
        s.lent.entries.lent()[0].pps_num_exp_slices_in_tile = 2
    }),
    (16, |s| s.lent.split_heights.lent()[0] = 2),
    // A row of 3 CTBs: heights 2 and 2 pass it.
    (16, |s| {
        s.lent.tile_row_heights.lent()[0] = 2;
        s.lent.entries.lent()[0].pps_num_exp_slices_in_tile = 2;
        s.lent.split_heights.lent()[..2].fill(1);
    }),
    (17, |s| s.lent.tile_row_heights.lent()[0] = 3),
    // The last slice is one of the split.
    (0, |s| s.pps.partition.pps_num_slices_in_pic_minus1 = 1),
    (18, |s| deltas(s, 0)),
    (18, |s| deltas(s, 4)),
    (18, |s| deltas(s, -1)),
    (0, |s| deltas(s, 3)),
    (25, |s| deltas(s, i32::MIN)),
    // No slice follows the split.
    (26, |s| {
        s.pps.partition.pps_num_slices_in_pic_minus1 = 1;
        deltas(s, 1);
    }),
    // One row, and a slice of all its tiles.
    (19, |s| {
        s.lent.tile_row_heights.lent()[0] = 3;
        s.lent.entries.lent()[0].pps_slice_width_in_tiles_minus1 = 1;
        s.lent.entries.lent()[0].split_present = 0;
    }),
    (5, |s| {
        s.lent.entries.lent()[0].pps_num_exp_slices_in_tile = 1001
    }),
    (26, |s| s.lent.entries.lent()[0].split_present = 0),
    (26, |s| s.lent.entries.lent()[0].delta_present = 1),
    (26, |s| s.pps.partition.pps_tile_idx_delta_present_flag = 1),
    (26, |s| s.pps.partition.num_rect_slices = 0),
    (26, |s| {
        s.pps.partition.num_rect_slices = 2;
        s.lent.entries.lent()[1].split_present = 0;
    }),
    (5, |s| s.pps.partition.num_rect_slices = 1000),
    (21, |s| s.pps.chroma_tool_offsets.pps_cb_qp_offset = 13),
    (21, |s| s.pps.chroma_tool_offsets.pps_cr_qp_offset = -13),
    (21, |s| {
        s.pps
            .chroma_tool_offsets
            .pps_joint_cbcr_qp_offset_present_flag = 1;
        s.pps.chroma_tool_offsets.pps_joint_cbcr_qp_offset_value = 13;
    }),
    (21, |s| s.triples[0].cb = -13),
    (21, |s| s.triples[0].cr = 13),
    (0, |s| s.triples[0].joint = 13),
    (21, |s| {
        s.pps
            .chroma_tool_offsets
            .pps_joint_cbcr_qp_offset_present_flag = 1;
        s.triples[0].joint = 13;
    }),
    (21, |s| {
        s.pps.chroma_tool_offsets.cu_chroma_qp_offset_list_len = 7
    }),
    (21, |s| s.pps.deblocking.pps_cr_tc_offset_div2 = 13),
    (26, |s| s.pps.pps_extension_flag = 0),
    (28, |s| s.pps.pps_extension_data_bits = 1),
];

fn deltas(s: &mut Set, delta: i32) {
    s.pps.partition.pps_tile_idx_delta_present_flag = 1;
    s.lent.entries.lent()[0].delta_present = 1;
    s.lent.entries.lent()[0].pps_tile_idx_delta_val = delta;
}

fn one_tile(s: &mut Set, rect_slice_flag: u8) {
    s.lent.tile_column_widths.lent()[0] = 1;
    s.lent.tile_row_heights.lent()[0] = 3;
    s.pps.partition.pps_rect_slice_flag = rect_slice_flag;
}
