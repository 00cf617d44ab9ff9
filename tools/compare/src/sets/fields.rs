//! The fields of a record, of its slice entries and its triples by their types, to be changed one at
//! a time.

use crate::ours::{Pps, QpOffsets, RectSlice};

pub fn bytes(p: &mut Pps) -> Vec<&mut u8> {
    let (part, chroma, deblocking) = (
        &mut p.partition,
        &mut p.chroma_tool_offsets,
        &mut p.deblocking,
    );
    vec![
        &mut p.pps_pic_parameter_set_id,
        &mut p.pps_seq_parameter_set_id,
        &mut p.pps_mixed_nalu_types_in_pic_flag,
        &mut p.pps_conf_win_offsets.present,
        &mut p.pps_scaling_win_offsets.present,
        &mut p.pps_output_flag_present_flag,
        &mut p.pps_no_pic_partition_flag,
        &mut p.subpic_id_mapping.present,
        &mut part.present,
        &mut part.pps_log2_ctu_size_minus5,
        &mut part.pps_loop_filter_across_tiles_enabled_flag,
        &mut part.pps_rect_slice_flag,
        &mut part.pps_single_slice_per_subpic_flag,
        &mut part.pps_tile_idx_delta_present_flag,
        &mut part.pps_loop_filter_across_slices_enabled_flag,
        &mut p.pps_cabac_init_present_flag,
        &mut p.pps_rpl1_idx_present_flag,
        &mut p.pps_weighted_pred_flag,
        &mut p.pps_weighted_bipred_flag,
        &mut p.pps_ref_wraparound_enabled_flag,
        &mut p.pps_cu_qp_delta_enabled_flag,
        &mut chroma.present,
        &mut chroma.pps_joint_cbcr_qp_offset_present_flag,
        &mut chroma.pps_slice_chroma_qp_offsets_present_flag,
        &mut chroma.pps_cu_chroma_qp_offset_list_enabled_flag,
        &mut deblocking.present,
        &mut deblocking.pps_deblocking_filter_override_enabled_flag,
        &mut deblocking.pps_deblocking_filter_disabled_flag,
        &mut deblocking.pps_dbf_info_in_ph_flag,
        &mut p.pps_rpl_info_in_ph_flag,
        &mut p.pps_sao_info_in_ph_flag,
        &mut p.pps_alf_info_in_ph_flag,
        &mut p.pps_wp_info_in_ph_flag,
        &mut p.pps_qp_delta_info_in_ph_flag,
        &mut p.pps_picture_header_extension_present_flag,
        &mut p.pps_slice_header_extension_present_flag,
        &mut p.pps_extension_flag,
    ]
}

pub fn numbers(p: &mut Pps) -> Vec<&mut u32> {
    let (conf, part) = (&mut p.pps_conf_win_offsets, &mut p.partition);
    vec![
        &mut p.pps_pic_width_in_luma_samples,
        &mut p.pps_pic_height_in_luma_samples,
        &mut conf.pps_conf_win_left_offset,
        &mut conf.pps_conf_win_right_offset,
        &mut conf.pps_conf_win_top_offset,
        &mut conf.pps_conf_win_bottom_offset,
        &mut p.subpic_id_mapping.pps_num_subpics_minus1,
        &mut p.subpic_id_mapping.pps_subpic_id_len_minus1,
        &mut p.subpic_id_mapping.num_subpic_ids,
        &mut part.num_tile_column_widths,
        &mut part.num_tile_row_heights,
        &mut part.pps_num_slices_in_pic_minus1,
        &mut part.num_rect_slices,
        &mut p.pps_num_ref_idx_default_active_minus1_l0,
        &mut p.pps_num_ref_idx_default_active_minus1_l1,
        &mut p.pps_pic_width_minus_wraparound_offset,
        &mut p.chroma_tool_offsets.cu_chroma_qp_offset_list_len,
    ]
}

pub fn signed(p: &mut Pps) -> Vec<&mut i32> {
    let (scaling, chroma, deblocking) = (
        &mut p.pps_scaling_win_offsets,
        &mut p.chroma_tool_offsets,
        &mut p.deblocking,
    );
    vec![
        &mut scaling.pps_scaling_win_left_offset,
        &mut scaling.pps_scaling_win_right_offset,
        &mut scaling.pps_scaling_win_top_offset,
        &mut scaling.pps_scaling_win_bottom_offset,
        &mut p.pps_init_qp_minus26,
        &mut chroma.pps_cb_qp_offset,
        &mut chroma.pps_cr_qp_offset,
        &mut chroma.pps_joint_cbcr_qp_offset_value,
        &mut deblocking.pps_luma_beta_offset_div2,
        &mut deblocking.pps_luma_tc_offset_div2,
        &mut deblocking.pps_cb_beta_offset_div2,
        &mut deblocking.pps_cb_tc_offset_div2,
        &mut deblocking.pps_cr_beta_offset_div2,
        &mut deblocking.pps_cr_tc_offset_div2,
    ]
}

/// Presence flags too, of which all but 0 say the same.
pub fn entry_numbers(entries: &mut [RectSlice]) -> Vec<&mut u32> {
    let mut numbers = vec![];
    for e in entries {
        numbers.extend([
            &mut e.pps_slice_width_in_tiles_minus1,
            &mut e.pps_slice_height_in_tiles_minus1,
            &mut e.split_present,
            &mut e.pps_num_exp_slices_in_tile,
            &mut e.delta_present,
        ]);
    }
    numbers
}

pub fn deltas(entries: &mut [RectSlice]) -> Vec<&mut i32> {
    let deltas = entries.iter_mut().map(|e| &mut e.pps_tile_idx_delta_val);
    deltas.collect()
}

pub fn offsets(triples: &mut [QpOffsets; 6]) -> Vec<&mut i32> {
    let mut offsets = vec![];
    for triple in triples {
        offsets.extend([&mut triple.cb, &mut triple.cr, &mut triple.joint]);
    }
    offsets
}
