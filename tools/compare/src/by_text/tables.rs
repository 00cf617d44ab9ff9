//! The texts of the original's `parse_pps` and `write_pps`, by who can meet them. Each is met in
//! every run, or the run fails. Left out, so that meeting one ends the run:
//!
//! - the header's own text for a unit under 2 bytes, since `parse_pps` tests that before;
//! - an end between the stop bit and the end of its byte, since an RBSP is whole bytes;
//! - a third offset in some triples of a list only, since ours share one flag.

use super::Text;

/// Of reading, writing and the questions.
pub const ANYWHERE: &[Text] = &[
    ("pps_pic_width/height_in_luma_samples must be > 0", 7),
    ("pps_log2_ctu_size_minus5 > 2", 9),
    ("pps_tile_column_width_minus1 >= PicWidthInCtbsY", 11),
    ("pps_tile_row_height_minus1 >= PicHeightInCtbsY", 11),
    ("explicit tile column sizes exceed the picture", 12),
    ("explicit tile row sizes exceed the picture", 12),
    ("derived tile column count", 13),
    ("derived tile row count", 13),
    ("pps_num_exp_slices_in_tile >= RowHeightVal", 16),
    ("pps_exp_slice_height_in_ctus_minus1 >= RowHeightVal", 16),
    ("pps_exp_slice_height_in_ctus_minus1 overruns", 16),
    ("tile splits into more slices", 17),
    ("pps_tile_idx_delta_val = ", 18),
    ("pps_tile_idx_delta_val walks outside", 18),
    ("rectangular-slice walk runs off", 19),
];

pub const READ_OR_WRITTEN: &[Text] = &[
    ("pps_num_subpics_minus1 exceeds", 8),
    ("pps_subpic_id_len_minus1 > 15", 8),
    ("pps_num_ref_idx_default_active_minus1 > 14", 20),
    ("pps_cb_qp_offset = ", 21),
    ("pps_cr_qp_offset = ", 21),
    ("pps_joint_cbcr_qp_offset_value = ", 21),
    ("pps_cb_qp_offset_list = ", 21),
    ("pps_cr_qp_offset_list = ", 21),
    ("pps_joint_cbcr_qp_offset_list = ", 21),
    ("deblocking offset ", 21),
];

pub const READ: &[Text] = &[
    ("H.266 PPS NAL needs at least the 2-byte header", 1),
    ("expected PPS NAL", 2),
    ("ue(v): 32 or more leading zero bits", 6),
    ("explicit tile column/row count exceeds", 10),
    ("pps_num_slices_in_pic_minus1 = ", 14),
    ("pps_slice_width_in_tiles_minus1 overruns", 15),
    ("pps_slice_height_in_tiles_minus1 overruns", 15),
    ("pps_chroma_qp_offset_list_len_minus1 > 5", 21),
    ("rbsp_trailing_bits: no bits left for stop bit", 22),
    ("rbsp_trailing_bits: rbsp_stop_one_bit was 0", 23),
    ("rbsp_trailing_bits: alignment_zero_bit was 1", 23),
];

/// Of the partition.
pub const WRITTEN_OR_ASKED: &[Text] = &[
    ("partition block must be present iff", 26),
    ("partition block needs at least one explicit", 10),
    ("pps_rect_slice_flag must carry its inferred value", 26),
    ("pps_num_slices_in_pic_minus1 exceeds", 14),
    ("rect_slices has fewer entries", 26),
    ("rect slice overruns the tile grid", 15),
    ("exp_slice_heights_in_ctus_minus1 presence contradicts", 26),
    ("pps_tile_idx_delta_val present on the final", 26),
    ("pps_tile_idx_delta_val presence contradicts", 26),
    ("write_se: value too large", 25),
    ("rect_slices has more entries", 26),
    ("rect_slices must be empty", 26),
];

pub const WRITTEN: &[Text] = &[
    ("PPS/SPS id out of range", 24),
    ("write_ue: value u32::MAX", 25),
    ("pps_num_subpics_minus1 must carry its inferred value", 26),
    ("pps_subpic_id count != ", 27),
    ("pps_subpic_id = ", 27),
    ("pps_chroma_qp_offset_list_len_minus1 outside", 21),
    ("pps_extension_data must end in a 1", 28),
    ("pps_extension_data requires pps_extension_flag", 26),
];
