//! A second reading of the table of refusals (docs/BEHAVIOUR.md), for writing: which number a set
//! gets before the output is looked at. It is neither the library nor the original, and speaks
//! alone of 5; of every other number the original's text has to say the same (`by_text`).

pub mod partition;

use super::record::Set;
use crate::ours::{ChromaToolOffsets, Deblocking, Pps, QpOffsets, SubpicIdMapping};
use crate::reading::Lent;
use crate::reading::second::must;

/// 0 where nothing is refused.
pub fn refusal(set: &Set) -> u8 {
    tested(set).err().unwrap_or(0)
}

fn tested(set: &Set) -> Result<(), u8> {
    let Set { pps, triples, lent } = set;
    must(tables_long(lent), 5)?;
    must(counts_fit(pps) && splits_fit(set) && extension_lent(set), 5)?;
    let partitioned = pps.pps_no_pic_partition_flag == 0;
    front(pps)?;
    if pps.subpic_id_mapping.present != 0 {
        subpic_ids(&pps.subpic_id_mapping, partitioned, lent.subpic_ids.held())?;
    }
    must((pps.partition.present != 0) == partitioned, 26)?;
    if partitioned {
        partition::tested(pps, lent, partition::By::Writing)?;
    }
    back(pps, triples)?;
    extension(set)
}

// ---- 5

/// Also the tables of absent parts.
pub fn tables_long(lent: &Lent) -> bool {
    lent.lengths().tables_long()
}

/// Counts of present parts only.
pub fn counts_fit(p: &Pps) -> bool {
    let (ids, part) = (&p.subpic_id_mapping, &p.partition);
    let no_more = |present: u8, count: u32, most: u32| present == 0 || count <= most;
    no_more(ids.present, ids.num_subpic_ids, 1000)
        && no_more(part.present, part.num_tile_column_widths, 30)
        && no_more(part.present, part.num_tile_row_heights, 990)
        && no_more(part.present, part.num_rect_slices, 999)
}

/// The split heights of the entries in use are no more than their table holds.
pub fn splits_fit(set: &Set) -> bool {
    let Set { pps, lent, .. } = set;
    let entries = lent.entries.held().iter();
    let sum: u64 = entries
        .take(pps.partition.num_rect_slices as usize)
        .filter(|e| e.split_present != 0)
        .map(|e| u64::from(e.pps_num_exp_slices_in_tile))
        .sum();
    pps.partition.present == 0 || sum <= 1000
}

/// The extension bits lie in the bytes lent, where there are any.
pub fn extension_lent(set: &Set) -> bool {
    let first = set.pps.pps_extension_data_first_bit as u128;
    let bits = set.pps.pps_extension_data_bits as u128;
    bits == 0 || first + bits <= 8 * set.lent.work.held().len() as u128
}

// ---- in the order of the fields

fn ue(value: u32) -> Result<(), u8> {
    must(value != u32::MAX, 25)
}

fn se(value: i32) -> Result<(), u8> {
    must(value != i32::MIN, 25)
}

fn offset(value: i32) -> Result<(), u8> {
    must((-12..=12).contains(&value), 21)
}

fn front(p: &Pps) -> Result<(), u8> {
    must(p.pps_pic_parameter_set_id <= 63, 24)?;
    must(p.pps_seq_parameter_set_id <= 15, 24)?;
    let samples = [
        p.pps_pic_width_in_luma_samples,
        p.pps_pic_height_in_luma_samples,
    ];
    must(!samples.contains(&0), 7)?;
    samples.into_iter().try_for_each(ue)?;
    let conf = &p.pps_conf_win_offsets;
    if conf.present != 0 {
        ue(conf.pps_conf_win_left_offset)?;
        ue(conf.pps_conf_win_right_offset)?;
        ue(conf.pps_conf_win_top_offset)?;
        ue(conf.pps_conf_win_bottom_offset)?;
    }
    let scaling = &p.pps_scaling_win_offsets;
    if scaling.present != 0 {
        se(scaling.pps_scaling_win_left_offset)?;
        se(scaling.pps_scaling_win_right_offset)?;
        se(scaling.pps_scaling_win_top_offset)?;
        se(scaling.pps_scaling_win_bottom_offset)?;
    }
    Ok(())
}

fn subpic_ids(m: &SubpicIdMapping, partitioned: bool, ids: &[u32]) -> Result<(), u8> {
    match partitioned {
        true => must(m.pps_num_subpics_minus1 <= 999, 8)?,
        false => must(m.pps_num_subpics_minus1 == 0, 26)?,
    }
    must(m.pps_subpic_id_len_minus1 <= 15, 8)?;
    must(m.num_subpic_ids == m.pps_num_subpics_minus1 + 1, 27)?;
    let too_large = 1 << (m.pps_subpic_id_len_minus1 + 1);
    let ids = &ids[..m.num_subpic_ids as usize];
    must(ids.iter().all(|&id| id < too_large), 27)
}

fn back(p: &Pps, triples: &[QpOffsets; 6]) -> Result<(), u8> {
    must(p.pps_num_ref_idx_default_active_minus1_l0 <= 14, 20)?;
    must(p.pps_num_ref_idx_default_active_minus1_l1 <= 14, 20)?;
    if p.pps_ref_wraparound_enabled_flag != 0 {
        ue(p.pps_pic_width_minus_wraparound_offset)?;
    }
    se(p.pps_init_qp_minus26)?;
    let chroma = p.chroma_tool_offsets.present != 0;
    if chroma {
        chroma_tool_offsets(&p.chroma_tool_offsets, triples)?;
    }
    if p.deblocking.present != 0 && p.deblocking.pps_deblocking_filter_disabled_flag == 0 {
        deblocking_offsets(&p.deblocking, chroma)?;
    }
    Ok(())
}

fn chroma_tool_offsets(c: &ChromaToolOffsets, triples: &[QpOffsets; 6]) -> Result<(), u8> {
    offset(c.pps_cb_qp_offset)?;
    offset(c.pps_cr_qp_offset)?;
    let joint = c.pps_joint_cbcr_qp_offset_present_flag != 0;
    if joint {
        offset(c.pps_joint_cbcr_qp_offset_value)?;
    }
    if c.pps_cu_chroma_qp_offset_list_enabled_flag != 0 {
        let len = c.cu_chroma_qp_offset_list_len;
        must((1..=6).contains(&len), 21)?;
        for triple in &triples[..len as usize] {
            offset(triple.cb)?;
            offset(triple.cr)?;
            if joint {
                offset(triple.joint)?;
            }
        }
    }
    Ok(())
}

fn deblocking_offsets(d: &Deblocking, chroma: bool) -> Result<(), u8> {
    offset(d.pps_luma_beta_offset_div2)?;
    offset(d.pps_luma_tc_offset_div2)?;
    if chroma {
        offset(d.pps_cb_beta_offset_div2)?;
        offset(d.pps_cb_tc_offset_div2)?;
        offset(d.pps_cr_beta_offset_div2)?;
        offset(d.pps_cr_tc_offset_div2)?;
    }
    Ok(())
}

/// Extension bits want their flag, and end in 1.
fn extension(set: &Set) -> Result<(), u8> {
    let p = &set.pps;
    if p.pps_extension_data_bits == 0 {
        return Ok(());
    }
    must(p.pps_extension_flag != 0, 26)?;
    let last = p.pps_extension_data_first_bit + p.pps_extension_data_bits - 1;
    let byte = set.lent.work.held()[last / 8];
    must(byte << (last % 8) & 0x80 != 0, 28)
}
