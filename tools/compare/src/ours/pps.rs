//! The record with what stands beside it, and what reading answers, as in include/vvc_pps.h.

#[repr(C)]
#[derive(Clone, Debug, Default, PartialEq)]
pub struct ConfWinOffsets {
    pub present: u8,
    pub pps_conf_win_left_offset: u32,
    pub pps_conf_win_right_offset: u32,
    pub pps_conf_win_top_offset: u32,
    pub pps_conf_win_bottom_offset: u32,
}

#[repr(C)]
#[derive(Clone, Debug, Default, PartialEq)]
pub struct ScalingWinOffsets {
    pub present: u8,
    pub pps_scaling_win_left_offset: i32,
    pub pps_scaling_win_right_offset: i32,
    pub pps_scaling_win_top_offset: i32,
    pub pps_scaling_win_bottom_offset: i32,
}

#[repr(C)]
#[derive(Clone, Debug, Default, PartialEq)]
pub struct SubpicIdMapping {
    pub present: u8,
    pub pps_num_subpics_minus1: u32,
    pub pps_subpic_id_len_minus1: u32,
    pub num_subpic_ids: u32,
}

#[repr(C)]
#[derive(Clone, Debug, Default, PartialEq)]
pub struct Partition {
    pub present: u8,
    pub pps_log2_ctu_size_minus5: u8,
    pub num_tile_column_widths: u32,
    pub num_tile_row_heights: u32,
    pub pps_loop_filter_across_tiles_enabled_flag: u8,
    pub pps_rect_slice_flag: u8,
    pub pps_single_slice_per_subpic_flag: u8,
    pub pps_num_slices_in_pic_minus1: u32,
    pub pps_tile_idx_delta_present_flag: u8,
    pub num_rect_slices: u32,
    pub pps_loop_filter_across_slices_enabled_flag: u8,
}

#[repr(C)]
#[derive(Clone, Debug, Default, PartialEq)]
pub struct ChromaToolOffsets {
    pub present: u8,
    pub pps_cb_qp_offset: i32,
    pub pps_cr_qp_offset: i32,
    pub pps_joint_cbcr_qp_offset_present_flag: u8,
    pub pps_joint_cbcr_qp_offset_value: i32,
    pub pps_slice_chroma_qp_offsets_present_flag: u8,
    pub pps_cu_chroma_qp_offset_list_enabled_flag: u8,
    pub cu_chroma_qp_offset_list_len: u32,
}

#[repr(C)]
#[derive(Clone, Debug, Default, PartialEq)]
pub struct Deblocking {
    pub present: u8,
    pub pps_deblocking_filter_override_enabled_flag: u8,
    pub pps_deblocking_filter_disabled_flag: u8,
    pub pps_dbf_info_in_ph_flag: u8,
    pub pps_luma_beta_offset_div2: i32,
    pub pps_luma_tc_offset_div2: i32,
    pub pps_cb_beta_offset_div2: i32,
    pub pps_cb_tc_offset_div2: i32,
    pub pps_cr_beta_offset_div2: i32,
    pub pps_cr_tc_offset_div2: i32,
}

#[repr(C)]
#[derive(Clone, Debug, Default, PartialEq)]
pub struct Pps {
    pub pps_pic_parameter_set_id: u8,
    pub pps_seq_parameter_set_id: u8,
    pub pps_mixed_nalu_types_in_pic_flag: u8,
    pub pps_pic_width_in_luma_samples: u32,
    pub pps_pic_height_in_luma_samples: u32,
    pub pps_conf_win_offsets: ConfWinOffsets,
    pub pps_scaling_win_offsets: ScalingWinOffsets,
    pub pps_output_flag_present_flag: u8,
    pub pps_no_pic_partition_flag: u8,
    pub subpic_id_mapping: SubpicIdMapping,
    pub partition: Partition,
    pub pps_cabac_init_present_flag: u8,
    pub pps_num_ref_idx_default_active_minus1_l0: u32,
    pub pps_num_ref_idx_default_active_minus1_l1: u32,
    pub pps_rpl1_idx_present_flag: u8,
    pub pps_weighted_pred_flag: u8,
    pub pps_weighted_bipred_flag: u8,
    pub pps_ref_wraparound_enabled_flag: u8,
    pub pps_pic_width_minus_wraparound_offset: u32,
    pub pps_init_qp_minus26: i32,
    pub pps_cu_qp_delta_enabled_flag: u8,
    pub chroma_tool_offsets: ChromaToolOffsets,
    pub deblocking: Deblocking,
    pub pps_rpl_info_in_ph_flag: u8,
    pub pps_sao_info_in_ph_flag: u8,
    pub pps_alf_info_in_ph_flag: u8,
    pub pps_wp_info_in_ph_flag: u8,
    pub pps_qp_delta_info_in_ph_flag: u8,
    pub pps_picture_header_extension_present_flag: u8,
    pub pps_slice_header_extension_present_flag: u8,
    pub pps_extension_flag: u8,
    pub pps_extension_data_first_bit: usize,
    pub pps_extension_data_bits: usize,
}

#[repr(C)]
#[derive(Clone, Copy, Debug, Default, PartialEq)]
pub struct RectSlice {
    pub pps_slice_width_in_tiles_minus1: u32,
    pub pps_slice_height_in_tiles_minus1: u32,
    pub split_present: u32,
    pub pps_num_exp_slices_in_tile: u32,
    pub delta_present: u32,
    pub pps_tile_idx_delta_val: i32,
}

#[repr(C)]
#[derive(Clone, Copy, Debug, Default, PartialEq)]
pub struct QpOffsets {
    pub cb: i32,
    pub cr: i32,
    pub joint: i32,
}

#[repr(C)]
#[derive(Clone, Debug, Default, PartialEq)]
pub struct PpsRead {
    pub refused: u8,
    pub bytes_taken: usize,
    pub pps: Pps,
    pub triples: [QpOffsets; 6],
}

/// What reading is lent beside the work buffer.
pub struct Tables<'a> {
    pub subpic_ids: &'a mut [u32],
    pub tile_column_widths: &'a mut [u32],
    pub tile_row_heights: &'a mut [u32],
    pub entries: &'a mut [RectSlice],
    pub split_heights: &'a mut [u32],
}

unsafe extern "C" {
    fn vvc_parse_pps(
        nal: *const u8,
        nal_len: usize,
        work: *mut u8,
        work_len: usize,
        subpic_ids: *mut u32,
        subpic_ids_len: usize,
        tile_column_widths: *mut u32,
        tile_column_widths_len: usize,
        tile_row_heights: *mut u32,
        tile_row_heights_len: usize,
        entries: *mut RectSlice,
        entries_len: usize,
        split_heights: *mut u32,
        split_heights_len: usize,
    ) -> PpsRead;
}

pub fn parse_pps(nal: &[u8], work: &mut [u8], t: Tables<'_>) -> PpsRead {
    unsafe {
        vvc_parse_pps(
            nal.as_ptr(),
            nal.len(),
            work.as_mut_ptr(),
            work.len(),
            t.subpic_ids.as_mut_ptr(),
            t.subpic_ids.len(),
            t.tile_column_widths.as_mut_ptr(),
            t.tile_column_widths.len(),
            t.tile_row_heights.as_mut_ptr(),
            t.tile_row_heights.len(),
            t.entries.as_mut_ptr(),
            t.entries.len(),
            t.split_heights.as_mut_ptr(),
            t.split_heights.len(),
        )
    }
}
