//! What the original's record is in ours, in the triples beside it and in the lent tables.

use super::lent::Lent;
use crate::ours::{
    ChromaToolOffsets, ConfWinOffsets, Deblocking, Partition, Pps, QpOffsets, RectSlice,
    ScalingWinOffsets, SubpicIdMapping,
};
use original::h266::pps::{
    VvcPps, VvcPpsChromaToolOffsets, VvcPpsDeblocking, VvcPpsPartition, VvcPpsRectSlice,
    VvcPpsSubpicIdMapping,
};

/// Puts the entries in use into tables that are clear.
pub fn fill(p: &VvcPps, lent: &mut Lent) {
    if let Some(m) = &p.subpic_id_mapping {
        lent.subpic_ids.put(m.pps_subpic_ids.iter().copied());
    }
    if let Some(part) = &p.partition {
        let widths = &part.pps_tile_column_widths_minus1;
        let heights = &part.pps_tile_row_heights_minus1;
        lent.tile_column_widths.put(widths.iter().copied());
        lent.tile_row_heights.put(heights.iter().copied());
        fill_slices(part, lent);
    }
}

fn fill_slices(part: &VvcPpsPartition, lent: &mut Lent) {
    let splits = part
        .rect_slices
        .iter()
        .flat_map(|e| &e.exp_slice_heights_in_ctus_minus1);
    lent.split_heights.put(splits.flatten().copied());
    lent.entries.put(part.rect_slices.iter().map(entry));
}

fn entry(e: &VvcPpsRectSlice) -> RectSlice {
    let split = e.exp_slice_heights_in_ctus_minus1.as_ref();
    let delta = e.pps_tile_idx_delta_val;
    RectSlice {
        pps_slice_width_in_tiles_minus1: e.pps_slice_width_in_tiles_minus1,
        pps_slice_height_in_tiles_minus1: e.pps_slice_height_in_tiles_minus1,
        split_present: split.is_some().into(),
        pps_num_exp_slices_in_tile: split.map_or(0, Vec::len) as u32,
        delta_present: delta.is_some().into(),
        pps_tile_idx_delta_val: delta.unwrap_or(0),
    }
}

/// The chroma list, and `rest` behind it.
pub fn triples(p: &VvcPps, rest: QpOffsets) -> [QpOffsets; 6] {
    let chroma = p.chroma_tool_offsets.as_ref();
    let list = chroma.and_then(|c| c.cu_chroma_qp_offset_list.as_ref());
    let mut triples = [rest; 6];
    for (place, &(cb, cr, joint)) in triples.iter_mut().zip(list.into_iter().flatten()) {
        let joint = joint.unwrap_or(0);
        *place = QpOffsets { cb, cr, joint };
    }
    triples
}

pub fn record(p: &VvcPps, extension_first_bit: usize) -> Pps {
    Pps {
        pps_pic_parameter_set_id: p.pps_pic_parameter_set_id,
        pps_seq_parameter_set_id: p.pps_seq_parameter_set_id,
        pps_mixed_nalu_types_in_pic_flag: p.pps_mixed_nalu_types_in_pic_flag,
        pps_pic_width_in_luma_samples: p.pps_pic_width_in_luma_samples,
        pps_pic_height_in_luma_samples: p.pps_pic_height_in_luma_samples,
        pps_conf_win_offsets: p.pps_conf_win_offsets.map(conf_win).unwrap_or_default(),
        pps_scaling_win_offsets: p
            .pps_scaling_win_offsets
            .map(scaling_win)
            .unwrap_or_default(),
        pps_output_flag_present_flag: p.pps_output_flag_present_flag,
        pps_no_pic_partition_flag: p.pps_no_pic_partition_flag,
        subpic_id_mapping: p
            .subpic_id_mapping
            .as_ref()
            .map(subpic_ids)
            .unwrap_or_default(),
        partition: p.partition.as_ref().map(partition).unwrap_or_default(),
        pps_cabac_init_present_flag: p.pps_cabac_init_present_flag,
        pps_num_ref_idx_default_active_minus1_l0: p.pps_num_ref_idx_default_active_minus1[0],
        pps_num_ref_idx_default_active_minus1_l1: p.pps_num_ref_idx_default_active_minus1[1],
        pps_rpl1_idx_present_flag: p.pps_rpl1_idx_present_flag,
        pps_weighted_pred_flag: p.pps_weighted_pred_flag,
        pps_weighted_bipred_flag: p.pps_weighted_bipred_flag,
        pps_ref_wraparound_enabled_flag: p.pps_pic_width_minus_wraparound_offset.is_some().into(),
        pps_pic_width_minus_wraparound_offset: p.pps_pic_width_minus_wraparound_offset.unwrap_or(0),
        pps_init_qp_minus26: p.pps_init_qp_minus26,
        pps_cu_qp_delta_enabled_flag: p.pps_cu_qp_delta_enabled_flag,
        chroma_tool_offsets: p
            .chroma_tool_offsets
            .as_ref()
            .map(chroma)
            .unwrap_or_default(),
        deblocking: p.deblocking.as_ref().map(deblocking).unwrap_or_default(),
        pps_rpl_info_in_ph_flag: p.pps_rpl_info_in_ph_flag,
        pps_sao_info_in_ph_flag: p.pps_sao_info_in_ph_flag,
        pps_alf_info_in_ph_flag: p.pps_alf_info_in_ph_flag,
        pps_wp_info_in_ph_flag: p.pps_wp_info_in_ph_flag,
        pps_qp_delta_info_in_ph_flag: p.pps_qp_delta_info_in_ph_flag,
        pps_picture_header_extension_present_flag: p.pps_picture_header_extension_present_flag,
        pps_slice_header_extension_present_flag: p.pps_slice_header_extension_present_flag,
        pps_extension_flag: p.pps_extension_flag,
        pps_extension_data_first_bit: extension_first_bit,
        pps_extension_data_bits: p.pps_extension_data.len(),
    }
}

fn conf_win((left, right, top, bottom): (u32, u32, u32, u32)) -> ConfWinOffsets {
    ConfWinOffsets {
        present: 1,
        pps_conf_win_left_offset: left,
        pps_conf_win_right_offset: right,
        pps_conf_win_top_offset: top,
        pps_conf_win_bottom_offset: bottom,
    }
}

fn scaling_win((left, right, top, bottom): (i32, i32, i32, i32)) -> ScalingWinOffsets {
    ScalingWinOffsets {
        present: 1,
        pps_scaling_win_left_offset: left,
        pps_scaling_win_right_offset: right,
        pps_scaling_win_top_offset: top,
        pps_scaling_win_bottom_offset: bottom,
    }
}

fn subpic_ids(m: &VvcPpsSubpicIdMapping) -> SubpicIdMapping {
    SubpicIdMapping {
        present: 1,
        pps_num_subpics_minus1: m.pps_num_subpics_minus1,
        pps_subpic_id_len_minus1: m.pps_subpic_id_len_minus1,
        num_subpic_ids: m.pps_subpic_ids.len() as u32,
    }
}

fn partition(p: &VvcPpsPartition) -> Partition {
    Partition {
        present: 1,
        pps_log2_ctu_size_minus5: p.pps_log2_ctu_size_minus5,
        num_tile_column_widths: p.pps_tile_column_widths_minus1.len() as u32,
        num_tile_row_heights: p.pps_tile_row_heights_minus1.len() as u32,
        pps_loop_filter_across_tiles_enabled_flag: p.pps_loop_filter_across_tiles_enabled_flag,
        pps_rect_slice_flag: p.pps_rect_slice_flag,
        pps_single_slice_per_subpic_flag: p.pps_single_slice_per_subpic_flag,
        pps_num_slices_in_pic_minus1: p.pps_num_slices_in_pic_minus1,
        pps_tile_idx_delta_present_flag: p.pps_tile_idx_delta_present_flag,
        num_rect_slices: p.rect_slices.len() as u32,
        pps_loop_filter_across_slices_enabled_flag: p.pps_loop_filter_across_slices_enabled_flag,
    }
}

fn chroma(c: &VvcPpsChromaToolOffsets) -> ChromaToolOffsets {
    let joint = c.pps_joint_cbcr_qp_offset_value;
    let list = c.cu_chroma_qp_offset_list.as_ref();
    ChromaToolOffsets {
        present: 1,
        pps_cb_qp_offset: c.pps_cb_qp_offset,
        pps_cr_qp_offset: c.pps_cr_qp_offset,
        pps_joint_cbcr_qp_offset_present_flag: joint.is_some().into(),
        pps_joint_cbcr_qp_offset_value: joint.unwrap_or(0),
        pps_slice_chroma_qp_offsets_present_flag: c.pps_slice_chroma_qp_offsets_present_flag,
        pps_cu_chroma_qp_offset_list_enabled_flag: list.is_some().into(),
        cu_chroma_qp_offset_list_len: list.map_or(0, Vec::len) as u32,
    }
}

fn deblocking(d: &VvcPpsDeblocking) -> Deblocking {
    Deblocking {
        present: 1,
        pps_deblocking_filter_override_enabled_flag: d.pps_deblocking_filter_override_enabled_flag,
        pps_deblocking_filter_disabled_flag: d.pps_deblocking_filter_disabled_flag,
        pps_dbf_info_in_ph_flag: d.pps_dbf_info_in_ph_flag,
        pps_luma_beta_offset_div2: d.pps_luma_beta_offset_div2,
        pps_luma_tc_offset_div2: d.pps_luma_tc_offset_div2,
        pps_cb_beta_offset_div2: d.pps_cb_offsets_div2.0,
        pps_cb_tc_offset_div2: d.pps_cb_offsets_div2.1,
        pps_cr_beta_offset_div2: d.pps_cr_offsets_div2.0,
        pps_cr_tc_offset_div2: d.pps_cr_offsets_div2.1,
    }
}
