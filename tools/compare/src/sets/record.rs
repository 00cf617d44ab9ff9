//! A record with what stands and is lent beside it, and the original's record of the same set.

use crate::ours::{Partition, Pps, QpOffsets, RectSlice};
use crate::reading::{Lengths, Lent, expected, extension};
use original::h266::pps::{
    VvcPps, VvcPpsChromaToolOffsets, VvcPpsDeblocking, VvcPpsPartition, VvcPpsRectSlice,
    VvcPpsSubpicIdMapping,
};

/// A triple past the list.
const BEHIND_THE_LIST: QpOffsets = QpOffsets {
    cb: -1,
    cr: -2,
    joint: -3,
};

#[derive(Clone, Debug)]
pub struct Set {
    pub pps: Pps,
    pub triples: [QpOffsets; 6],
    pub lent: Lent,
}

impl Set {
    /// The extension bits lie in the work buffer from a bit on; its other bytes, the unused places
    /// of the tables and the triples past the list hold anything.
    pub fn new(record: &VvcPps, lengths: &Lengths, first_bit: usize) -> Self {
        let mut lent = Lent::new(lengths);
        expected::fill(record, &mut lent);
        for (i, &bit) in record.pps_extension_data.iter().enumerate() {
            let at = first_bit + i;
            if let Some(byte) = lent.work.lent().get_mut(at / 8) {
                let mask = 0x80 >> (at % 8);
                *byte = if bit == 0 {
                    *byte & !mask
                } else {
                    *byte | mask
                };
            }
        }
        Set {
            pps: expected::record(record, first_bit),
            triples: expected::triples(record, BEHIND_THE_LIST),
            lent,
        }
    }

    /// With the least that must be lent.
    pub fn least(record: &VvcPps) -> Self {
        let mut lengths = Lengths::least(&[]);
        lengths.work = record.pps_extension_data.len().div_ceil(8);
        Set::new(record, &lengths, 0)
    }

    /// The original's record, where every count is within its table.
    pub fn original(&self) -> VvcPps {
        let (p, lent) = (&self.pps, &self.lent);
        let (conf, scaling) = (&p.pps_conf_win_offsets, &p.pps_scaling_win_offsets);
        let wraparound = p.pps_ref_wraparound_enabled_flag != 0;
        VvcPps {
            pps_pic_parameter_set_id: p.pps_pic_parameter_set_id,
            pps_seq_parameter_set_id: p.pps_seq_parameter_set_id,
            pps_mixed_nalu_types_in_pic_flag: p.pps_mixed_nalu_types_in_pic_flag,
            pps_pic_width_in_luma_samples: p.pps_pic_width_in_luma_samples,
            pps_pic_height_in_luma_samples: p.pps_pic_height_in_luma_samples,
            pps_conf_win_offsets: (conf.present != 0).then_some((
                conf.pps_conf_win_left_offset,
                conf.pps_conf_win_right_offset,
                conf.pps_conf_win_top_offset,
                conf.pps_conf_win_bottom_offset,
            )),
            pps_scaling_win_offsets: (scaling.present != 0).then_some((
                scaling.pps_scaling_win_left_offset,
                scaling.pps_scaling_win_right_offset,
                scaling.pps_scaling_win_top_offset,
                scaling.pps_scaling_win_bottom_offset,
            )),
            pps_output_flag_present_flag: p.pps_output_flag_present_flag,
            pps_no_pic_partition_flag: p.pps_no_pic_partition_flag,
            subpic_id_mapping: self.subpic_ids(),
            partition: (p.partition.present != 0).then(|| partition(&p.partition, lent)),
            pps_cabac_init_present_flag: p.pps_cabac_init_present_flag,
            pps_num_ref_idx_default_active_minus1: [
                p.pps_num_ref_idx_default_active_minus1_l0,
                p.pps_num_ref_idx_default_active_minus1_l1,
            ],
            pps_rpl1_idx_present_flag: p.pps_rpl1_idx_present_flag,
            pps_weighted_pred_flag: p.pps_weighted_pred_flag,
            pps_weighted_bipred_flag: p.pps_weighted_bipred_flag,
            pps_pic_width_minus_wraparound_offset: wraparound
                .then_some(p.pps_pic_width_minus_wraparound_offset),
            pps_init_qp_minus26: p.pps_init_qp_minus26,
            pps_cu_qp_delta_enabled_flag: p.pps_cu_qp_delta_enabled_flag,
            chroma_tool_offsets: self.chroma(),
            deblocking: self.deblocking(),
            pps_rpl_info_in_ph_flag: p.pps_rpl_info_in_ph_flag,
            pps_sao_info_in_ph_flag: p.pps_sao_info_in_ph_flag,
            pps_alf_info_in_ph_flag: p.pps_alf_info_in_ph_flag,
            pps_wp_info_in_ph_flag: p.pps_wp_info_in_ph_flag,
            pps_qp_delta_info_in_ph_flag: p.pps_qp_delta_info_in_ph_flag,
            pps_picture_header_extension_present_flag: p.pps_picture_header_extension_present_flag,
            pps_slice_header_extension_present_flag: p.pps_slice_header_extension_present_flag,
            pps_extension_flag: p.pps_extension_flag,
            pps_extension_data: extension(p, lent.work.held()),
        }
    }

    fn subpic_ids(&self) -> Option<VvcPpsSubpicIdMapping> {
        let m = &self.pps.subpic_id_mapping;
        (m.present != 0).then(|| VvcPpsSubpicIdMapping {
            pps_num_subpics_minus1: m.pps_num_subpics_minus1,
            pps_subpic_id_len_minus1: m.pps_subpic_id_len_minus1,
            pps_subpic_ids: front(self.lent.subpic_ids.held(), m.num_subpic_ids),
        })
    }

    fn chroma(&self) -> Option<VvcPpsChromaToolOffsets> {
        let c = &self.pps.chroma_tool_offsets;
        let joint = c.pps_joint_cbcr_qp_offset_present_flag != 0;
        // Seven stand for any number over six.
        let listed = c.cu_chroma_qp_offset_list_len.min(7) as usize;
        let triple = |i: usize| {
            let triple = self.triples.get(i).copied().unwrap_or_default();
            (triple.cb, triple.cr, joint.then_some(triple.joint))
        };
        (c.present != 0).then(|| VvcPpsChromaToolOffsets {
            pps_cb_qp_offset: c.pps_cb_qp_offset,
            pps_cr_qp_offset: c.pps_cr_qp_offset,
            pps_joint_cbcr_qp_offset_value: joint.then_some(c.pps_joint_cbcr_qp_offset_value),
            pps_slice_chroma_qp_offsets_present_flag: c.pps_slice_chroma_qp_offsets_present_flag,
            cu_chroma_qp_offset_list: (c.pps_cu_chroma_qp_offset_list_enabled_flag != 0)
                .then(|| (0..listed).map(triple).collect()),
        })
    }

    fn deblocking(&self) -> Option<VvcPpsDeblocking> {
        let d = &self.pps.deblocking;
        (d.present != 0).then_some(VvcPpsDeblocking {
            pps_deblocking_filter_override_enabled_flag: d
                .pps_deblocking_filter_override_enabled_flag,
            pps_deblocking_filter_disabled_flag: d.pps_deblocking_filter_disabled_flag,
            pps_dbf_info_in_ph_flag: d.pps_dbf_info_in_ph_flag,
            pps_luma_beta_offset_div2: d.pps_luma_beta_offset_div2,
            pps_luma_tc_offset_div2: d.pps_luma_tc_offset_div2,
            pps_cb_offsets_div2: (d.pps_cb_beta_offset_div2, d.pps_cb_tc_offset_div2),
            pps_cr_offsets_div2: (d.pps_cr_beta_offset_div2, d.pps_cr_tc_offset_div2),
        })
    }
}

fn front<T: Clone>(table: &[T], count: u32) -> Vec<T> {
    table[..count as usize].to_vec()
}

fn partition(p: &Partition, lent: &Lent) -> VvcPpsPartition {
    VvcPpsPartition {
        pps_log2_ctu_size_minus5: p.pps_log2_ctu_size_minus5,
        pps_tile_column_widths_minus1: front(
            lent.tile_column_widths.held(),
            p.num_tile_column_widths,
        ),
        pps_tile_row_heights_minus1: front(lent.tile_row_heights.held(), p.num_tile_row_heights),
        pps_loop_filter_across_tiles_enabled_flag: p.pps_loop_filter_across_tiles_enabled_flag,
        pps_rect_slice_flag: p.pps_rect_slice_flag,
        pps_single_slice_per_subpic_flag: p.pps_single_slice_per_subpic_flag,
        pps_num_slices_in_pic_minus1: p.pps_num_slices_in_pic_minus1,
        pps_tile_idx_delta_present_flag: p.pps_tile_idx_delta_present_flag,
        rect_slices: rect_slices(p.num_rect_slices as usize, lent),
        pps_loop_filter_across_slices_enabled_flag: p.pps_loop_filter_across_slices_enabled_flag,
    }
}

fn rect_slices(count: usize, lent: &Lent) -> Vec<VvcPpsRectSlice> {
    let mut split_heights = lent.split_heights.held().iter().copied();
    let entry = |e: &RectSlice| VvcPpsRectSlice {
        pps_slice_width_in_tiles_minus1: e.pps_slice_width_in_tiles_minus1,
        pps_slice_height_in_tiles_minus1: e.pps_slice_height_in_tiles_minus1,
        exp_slice_heights_in_ctus_minus1: (e.split_present != 0).then(|| {
            let count = e.pps_num_exp_slices_in_tile as usize;
            split_heights.by_ref().take(count).collect()
        }),
        pps_tile_idx_delta_val: (e.delta_present != 0).then_some(e.pps_tile_idx_delta_val),
    };
    lent.entries.held()[..count].iter().map(entry).collect()
}
