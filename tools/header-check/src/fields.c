/* Every field of every answer at the place that the header gives it: units whose bits are made here, by nothing of the
 * library, are read, and each field, table and triple is held to what was put there; then all of it is written again.
 * C99 and C++. The last line is `N held, M wrong`. */
#include "vvc_pps.h"

#include <stdio.h>
#include <string.h>

static unsigned held, wrong;

static void hold(const char *what, long long is, long long wanted) {
    held++;
    if (is != wanted) {
        wrong++;
        printf("wrong: %s is %lld, not %lld\n", what, is, wanted);
    }
}

static void same(const char *what, const void *is, const void *wanted, size_t bytes) {
    hold(what, memcmp(is, wanted, bytes), 0);
}

/* ---- bits */

static uint8_t rbsp[8192], nal[16384];
static size_t bit, nal_len;

static void put(uint32_t value, unsigned n) {
    while (n-- > 0) {
        if (value >> n & 1)
            rbsp[bit / 8] = (uint8_t)(rbsp[bit / 8] | 0x80 >> bit % 8);
        bit++;
    }
}

static void put_ue(uint32_t value) {
    unsigned zeros = 0;
    while ((uint64_t)value + 1 >= (uint64_t)2 << zeros)
        zeros++;
    put(0, zeros);
    put(value + 1, zeros + 1);
}

static void put_se(int32_t value) {
    put_ue(value > 0 ? 2 * (uint32_t)value - 1 : 2 * (0 - (uint32_t)value));
}

/* 00 81, then the bytes with 03 after two zeros where the next is up to 03. The last byte has the stop bit. */
static void put_nal(void) {
    size_t i, zeros = 0;
    nal[0] = 0x00;
    nal[1] = 0x81;
    nal_len = 2;
    for (i = 0; i < (bit + 7) / 8; i++) {
        if (zeros >= 2 && rbsp[i] <= 3) {
            nal[nal_len++] = 3;
            zeros = 0;
        }
        nal[nal_len++] = rbsp[i];
        zeros = rbsp[i] == 0 ? zeros + 1 : 0;
    }
}

static uint64_t state = 1;

static uint32_t any(uint32_t below) {
    state ^= state << 13;
    state ^= state >> 7;
    state ^= state << 17;
    return (uint32_t)(state >> 32) % below;
}

static uint8_t flag(uint8_t *field) {
    *field = (uint8_t)any(2);
    put(*field, 1);
    return *field;
}

static void ue(uint32_t *field, uint32_t below) {
    *field = any(below);
    put_ue(*field);
}

static void se(int32_t *field, int32_t most) {
    *field = (int32_t)any(2 * (uint32_t)most + 1) - most;
    put_se(*field);
}

/* ---- a unit, and what it is to be read as (H.266 7.3.2.5) */

enum { UNPARTITIONED, SPLIT, EACH_TILE, OVERLAPPING, RASTER, SINGLE, LAYOUTS };

static VvcPps pps;
static VvcPpsTables tables;

static void put_subpic_ids(int partitioned) {
    VvcPpsSubpicIdMapping *m = &pps.subpic_id_mapping;
    uint32_t i;
    if (!flag(&m->present))
        return;
    if (partitioned)
        ue(&m->pps_num_subpics_minus1, 20);
    ue(&m->pps_subpic_id_len_minus1, 16);
    m->num_subpic_ids = m->pps_num_subpics_minus1 + 1;
    for (i = 0; i < m->num_subpic_ids; i++) {
        tables.subpic_ids[i] = any((uint32_t)2 << m->pps_subpic_id_len_minus1);
        put(tables.subpic_ids[i], m->pps_subpic_id_len_minus1 + 1);
    }
}

/* An entry whose width and height are coded where they are not under 0, with a split where its count isn't. */
static void put_entry(int width, int height, int count, int32_t delta) {
    VvcPpsRectSlice *e = &tables.entries[pps.partition.num_rect_slices++];
    if (width >= 0) {
        e->pps_slice_width_in_tiles_minus1 = (uint32_t)width;
        put_ue(e->pps_slice_width_in_tiles_minus1);
    }
    if (height >= 0) {
        e->pps_slice_height_in_tiles_minus1 = (uint32_t)height;
        put_ue(e->pps_slice_height_in_tiles_minus1);
    }
    if (count >= 0) {
        e->split_present = 1;
        e->pps_num_exp_slices_in_tile = (uint32_t)count;
        put_ue(e->pps_num_exp_slices_in_tile);
        if (count == 2) {
            put_ue(tables.split_heights[0] = 0);
            put_ue(tables.split_heights[1] = 1);
        }
    }
    if (pps.partition.pps_tile_idx_delta_present_flag) {
        e->delta_present = 1;
        e->pps_tile_idx_delta_val = delta;
        put_se(delta);
    }
}

/* 16 × 15 CTBs of 64 samples in columns of 6, 5, 5 and rows of 4, 4, 4, 3. */
static void put_partition(int layout) {
    VvcPpsPartition *p = &pps.partition;
    int i;
    p->present = 1;
    put(p->pps_log2_ctu_size_minus5 = 1, 2);
    put_ue((p->num_tile_column_widths = 2) - 1);
    put_ue((p->num_tile_row_heights = 1) - 1);
    put_ue(tables.tile_column_widths[0] = 5);
    put_ue(tables.tile_column_widths[1] = 4);
    put_ue(tables.tile_row_heights[0] = 3);
    flag(&p->pps_loop_filter_across_tiles_enabled_flag);
    put(p->pps_rect_slice_flag = layout != RASTER, 1);
    if (p->pps_rect_slice_flag)
        put(p->pps_single_slice_per_subpic_flag = layout == SINGLE, 1);
    switch (layout) {
    case SPLIT: /* tile 0 in rows of 1, 2 and 1, then from tile 1 on */
        put_ue(p->pps_num_slices_in_pic_minus1 = 3);
        put(p->pps_tile_idx_delta_present_flag = 1, 1);
        put_entry(0, 0, 2, 1);
        break;
    case EACH_TILE:
        put_ue(p->pps_num_slices_in_pic_minus1 = 11);
        put(0, 1);
        for (i = 0; i < 11; i++)
            put_entry(i % 3 < 2 ? 0 : -1, i % 3 == 0 && i < 9 ? 0 : -1, 0, 0);
        break;
    case OVERLAPPING: /* two tiles, then six from tile 4, then all */
        put_ue(p->pps_num_slices_in_pic_minus1 = 2);
        put(p->pps_tile_idx_delta_present_flag = 1, 1);
        put_entry(1, 0, -1, 4);
        put_entry(1, 2, -1, -4);
        break;
    }
    flag(&p->pps_loop_filter_across_slices_enabled_flag);
}

static void put_chroma(void) {
    VvcPpsChromaToolOffsets *c = &pps.chroma_tool_offsets;
    uint32_t i;
    if (!flag(&c->present))
        return;
    se(&c->pps_cb_qp_offset, 12);
    se(&c->pps_cr_qp_offset, 12);
    if (flag(&c->pps_joint_cbcr_qp_offset_present_flag))
        se(&c->pps_joint_cbcr_qp_offset_value, 12);
    flag(&c->pps_slice_chroma_qp_offsets_present_flag);
    if (!flag(&c->pps_cu_chroma_qp_offset_list_enabled_flag))
        return;
    c->cu_chroma_qp_offset_list_len = 1 + any(6);
    put_ue(c->cu_chroma_qp_offset_list_len - 1);
    for (i = 0; i < c->cu_chroma_qp_offset_list_len; i++) {
        se(&tables.triples[i].cb, 12);
        se(&tables.triples[i].cr, 12);
        if (c->pps_joint_cbcr_qp_offset_present_flag)
            se(&tables.triples[i].joint, 12);
    }
}

static void put_deblocking(int partitioned) {
    VvcPpsDeblocking *d = &pps.deblocking;
    if (!flag(&d->present))
        return;
    flag(&d->pps_deblocking_filter_override_enabled_flag);
    flag(&d->pps_deblocking_filter_disabled_flag);
    if (partitioned && d->pps_deblocking_filter_override_enabled_flag)
        flag(&d->pps_dbf_info_in_ph_flag);
    if (d->pps_deblocking_filter_disabled_flag)
        return;
    se(&d->pps_luma_beta_offset_div2, 12);
    se(&d->pps_luma_tc_offset_div2, 12);
    if (!pps.chroma_tool_offsets.present) {
        d->pps_cb_beta_offset_div2 = d->pps_cr_beta_offset_div2 = d->pps_luma_beta_offset_div2;
        d->pps_cb_tc_offset_div2 = d->pps_cr_tc_offset_div2 = d->pps_luma_tc_offset_div2;
        return;
    }
    se(&d->pps_cb_beta_offset_div2, 12);
    se(&d->pps_cb_tc_offset_div2, 12);
    se(&d->pps_cr_beta_offset_div2, 12);
    se(&d->pps_cr_tc_offset_div2, 12);
}

static void put_picture_header_flags(void) {
    flag(&pps.pps_rpl_info_in_ph_flag);
    flag(&pps.pps_sao_info_in_ph_flag);
    flag(&pps.pps_alf_info_in_ph_flag);
    if ((pps.pps_weighted_pred_flag || pps.pps_weighted_bipred_flag) && pps.pps_rpl_info_in_ph_flag)
        flag(&pps.pps_wp_info_in_ph_flag);
    flag(&pps.pps_qp_delta_info_in_ph_flag);
}

static void put_extension(void) {
    uint32_t bits = any(40), i;
    if (!flag(&pps.pps_extension_flag) || bits == 0)
        return;
    pps.pps_extension_data_first_bit = bit;
    pps.pps_extension_data_bits = bits;
    for (i = 1; i < bits; i++)
        put(any(2), 1);
    put(1, 1);
}

static void put_unit(int layout) {
    const int partitioned = layout != UNPARTITIONED;
    memset(&pps, 0, sizeof pps);
    memset(&tables, 0, sizeof tables);
    memset(rbsp, 0, sizeof rbsp);
    bit = 0;
    put(pps.pps_pic_parameter_set_id = (uint8_t)any(64), 6);
    put(pps.pps_seq_parameter_set_id = (uint8_t)any(16), 4);
    flag(&pps.pps_mixed_nalu_types_in_pic_flag);
    put_ue(pps.pps_pic_width_in_luma_samples = partitioned ? 1000 : 1 + any(100000));
    put_ue(pps.pps_pic_height_in_luma_samples = partitioned ? 903 : 1 + any(100000));
    if (flag(&pps.pps_conf_win_offsets.present)) {
        ue(&pps.pps_conf_win_offsets.pps_conf_win_left_offset, 5000);
        ue(&pps.pps_conf_win_offsets.pps_conf_win_right_offset, 5000);
        ue(&pps.pps_conf_win_offsets.pps_conf_win_top_offset, 5000);
        ue(&pps.pps_conf_win_offsets.pps_conf_win_bottom_offset, 5000);
    }
    if (flag(&pps.pps_scaling_win_offsets.present)) {
        se(&pps.pps_scaling_win_offsets.pps_scaling_win_left_offset, 5000);
        se(&pps.pps_scaling_win_offsets.pps_scaling_win_right_offset, 5000);
        se(&pps.pps_scaling_win_offsets.pps_scaling_win_top_offset, 5000);
        se(&pps.pps_scaling_win_offsets.pps_scaling_win_bottom_offset, 5000);
    }
    flag(&pps.pps_output_flag_present_flag);
    put(pps.pps_no_pic_partition_flag = !partitioned, 1);
    put_subpic_ids(partitioned);
    if (partitioned)
        put_partition(layout);
    flag(&pps.pps_cabac_init_present_flag);
    ue(&pps.pps_num_ref_idx_default_active_minus1_l0, 15);
    ue(&pps.pps_num_ref_idx_default_active_minus1_l1, 15);
    flag(&pps.pps_rpl1_idx_present_flag);
    flag(&pps.pps_weighted_pred_flag);
    flag(&pps.pps_weighted_bipred_flag);
    if (flag(&pps.pps_ref_wraparound_enabled_flag))
        ue(&pps.pps_pic_width_minus_wraparound_offset, 5000);
    se(&pps.pps_init_qp_minus26, 40);
    flag(&pps.pps_cu_qp_delta_enabled_flag);
    put_chroma();
    put_deblocking(partitioned);
    if (partitioned)
        put_picture_header_flags();
    flag(&pps.pps_picture_header_extension_present_flag);
    flag(&pps.pps_slice_header_extension_present_flag);
    put_extension();
    put(1, 1);
    put_nal();
}

/* ---- what is read and written */

/* All fields of a record. */
#define EACH_FIELD(IS) \
    IS(pps_pic_parameter_set_id) \
    IS(pps_seq_parameter_set_id) \
    IS(pps_mixed_nalu_types_in_pic_flag) \
    IS(pps_pic_width_in_luma_samples) \
    IS(pps_pic_height_in_luma_samples) \
    IS(pps_conf_win_offsets.present) \
    IS(pps_conf_win_offsets.pps_conf_win_left_offset) \
    IS(pps_conf_win_offsets.pps_conf_win_right_offset) \
    IS(pps_conf_win_offsets.pps_conf_win_top_offset) \
    IS(pps_conf_win_offsets.pps_conf_win_bottom_offset) \
    IS(pps_scaling_win_offsets.present) \
    IS(pps_scaling_win_offsets.pps_scaling_win_left_offset) \
    IS(pps_scaling_win_offsets.pps_scaling_win_right_offset) \
    IS(pps_scaling_win_offsets.pps_scaling_win_top_offset) \
    IS(pps_scaling_win_offsets.pps_scaling_win_bottom_offset) \
    IS(pps_output_flag_present_flag) \
    IS(pps_no_pic_partition_flag) \
    IS(subpic_id_mapping.present) \
    IS(subpic_id_mapping.pps_num_subpics_minus1) \
    IS(subpic_id_mapping.pps_subpic_id_len_minus1) \
    IS(subpic_id_mapping.num_subpic_ids) \
    IS(partition.present) \
    IS(partition.pps_log2_ctu_size_minus5) \
    IS(partition.num_tile_column_widths) \
    IS(partition.num_tile_row_heights) \
    IS(partition.pps_loop_filter_across_tiles_enabled_flag) \
    IS(partition.pps_rect_slice_flag) \
    IS(partition.pps_single_slice_per_subpic_flag) \
    IS(partition.pps_num_slices_in_pic_minus1) \
    IS(partition.pps_tile_idx_delta_present_flag) \
    IS(partition.num_rect_slices) \
    IS(partition.pps_loop_filter_across_slices_enabled_flag) \
    IS(pps_cabac_init_present_flag) \
    IS(pps_num_ref_idx_default_active_minus1_l0) \
    IS(pps_num_ref_idx_default_active_minus1_l1) \
    IS(pps_rpl1_idx_present_flag) \
    IS(pps_weighted_pred_flag) \
    IS(pps_weighted_bipred_flag) \
    IS(pps_ref_wraparound_enabled_flag) \
    IS(pps_pic_width_minus_wraparound_offset) \
    IS(pps_init_qp_minus26) \
    IS(pps_cu_qp_delta_enabled_flag) \
    IS(chroma_tool_offsets.present) \
    IS(chroma_tool_offsets.pps_cb_qp_offset) \
    IS(chroma_tool_offsets.pps_cr_qp_offset) \
    IS(chroma_tool_offsets.pps_joint_cbcr_qp_offset_present_flag) \
    IS(chroma_tool_offsets.pps_joint_cbcr_qp_offset_value) \
    IS(chroma_tool_offsets.pps_slice_chroma_qp_offsets_present_flag) \
    IS(chroma_tool_offsets.pps_cu_chroma_qp_offset_list_enabled_flag) \
    IS(chroma_tool_offsets.cu_chroma_qp_offset_list_len) \
    IS(deblocking.present) \
    IS(deblocking.pps_deblocking_filter_override_enabled_flag) \
    IS(deblocking.pps_deblocking_filter_disabled_flag) \
    IS(deblocking.pps_dbf_info_in_ph_flag) \
    IS(deblocking.pps_luma_beta_offset_div2) \
    IS(deblocking.pps_luma_tc_offset_div2) \
    IS(deblocking.pps_cb_beta_offset_div2) \
    IS(deblocking.pps_cb_tc_offset_div2) \
    IS(deblocking.pps_cr_beta_offset_div2) \
    IS(deblocking.pps_cr_tc_offset_div2) \
    IS(pps_rpl_info_in_ph_flag) \
    IS(pps_sao_info_in_ph_flag) \
    IS(pps_alf_info_in_ph_flag) \
    IS(pps_wp_info_in_ph_flag) \
    IS(pps_qp_delta_info_in_ph_flag) \
    IS(pps_picture_header_extension_present_flag) \
    IS(pps_slice_header_extension_present_flag) \
    IS(pps_extension_flag) \
    IS(pps_extension_data_first_bit) \
    IS(pps_extension_data_bits)

static VvcPpsTables lent;
static uint8_t work[16384], out[16384];

static void hold_written(const VvcPps *record, const VvcPpsTables *with, const char *what) {
    VvcByteCount n;
    memset(out, 0xA5, sizeof out);
    n = vvc_pps_write(record, with, rbsp, sizeof rbsp, out, sizeof out);
    hold(what, n.refused, VVC_ACCEPTED);
    hold(what, (long long)n.bytes, (long long)nal_len);
    same(what, out, nal, nal_len);
    n = vvc_pps_write_rbsp(record, with, rbsp, sizeof rbsp, out, sizeof out);
    hold(what, n.refused, VVC_ACCEPTED);
    hold(what, (long long)n.bytes, (long long)(bit + 7) / 8);
    same(what, out, rbsp, (bit + 7) / 8);
}

static void hold_read(void) {
    VvcPpsRead read;
    VvcQpOffsetList list;
    memset(&lent, 0x5A, sizeof lent);
    read = vvc_pps_read(nal, nal_len, work, sizeof work, &lent);
    list = vvc_pps_triples_(&lent);
    hold("refused", read.refused, VVC_ACCEPTED);
    hold("bytes_taken", (long long)read.bytes_taken, (long long)(bit + 7) / 8);
    same("the work buffer", work, rbsp, (bit + 7) / 8);
#define IS(field) hold(#field, (long long)read.pps.field, (long long)pps.field);
    EACH_FIELD(IS)
#undef IS
    same("subpic_ids", lent.subpic_ids, tables.subpic_ids, sizeof tables.subpic_ids);
    same("tile_column_widths", lent.tile_column_widths, tables.tile_column_widths, sizeof tables.tile_column_widths);
    same("tile_row_heights", lent.tile_row_heights, tables.tile_row_heights, sizeof tables.tile_row_heights);
    same("entries", lent.entries, tables.entries, sizeof tables.entries);
    same("split_heights", lent.split_heights, tables.split_heights, sizeof tables.split_heights);
    same("triples", lent.triples, tables.triples, sizeof tables.triples);
    same("triples of the answer", read.triples, tables.triples, sizeof tables.triples);
    same("triples by value", list.triples, tables.triples, sizeof tables.triples);
    hold_written(&pps, &tables, "written");
    hold_written(&read.pps, &lent, "read and written");
}

/* ---- the questions */

typedef struct {
    uint32_t left, top, width, height;
} Place;

static void hold_plan(const VvcPlanAnswer *plan, const Place *places, uint32_t count) {
    uint32_t i;
    hold("plan.refused", plan->refused, VVC_ACCEPTED);
    hold("plan.num_slices", plan->num_slices, count);
    for (i = 0; i < VVC_MAX_SLICES; i++) {
        static const Place none = { 0, 0, 0, 0 };
        const Place *place = i < count ? &places[i] : &none;
        hold("plan.left", plan->left[i], place->left);
        hold("plan.top", plan->top[i], place->top);
        hold("plan.width", plan->width[i], place->width);
        hold("plan.height", plan->height[i], place->height);
    }
}

static void hold_asked(int layout) {
    static const uint32_t columns[] = { 6, 5, 5 }, rows[] = { 4, 4, 4, 3 };
    static const Place split[] = { { 0, 0, 6, 1 }, { 0, 1, 6, 2 }, { 0, 3, 6, 1 }, { 6, 0, 10, 15 } };
    static const Place overlapping[] = { { 0, 0, 11, 4 }, { 6, 4, 10, 11 }, { 0, 0, 16, 15 } };
    static const Place each_tile[] = {
        { 0, 0, 6, 4 }, { 6, 0, 5, 4 }, { 11, 0, 5, 4 }, { 0, 4, 6, 4 }, { 6, 4, 5, 4 }, { 11, 4, 5, 4 },
        { 0, 8, 6, 4 }, { 6, 8, 5, 4 }, { 11, 8, 5, 4 }, { 0, 12, 6, 3 }, { 6, 12, 5, 3 }, { 11, 12, 5, 3 },
    };
    const VvcGridAnswer grid = vvc_pps_grid(&pps, &tables);
    const VvcPlanAnswer plan = vvc_pps_plan(&pps, &tables);
    const VvcCoverAnswer cover = vvc_pps_cover(&pps, &tables);
    const uint32_t tiled = layout != UNPARTITIONED;
    uint32_t i;
    hold("grid.refused", grid.refused, VVC_ACCEPTED);
    hold("grid.num_tile_columns", grid.num_tile_columns, tiled * 3);
    hold("grid.num_tile_rows", grid.num_tile_rows, tiled * 4);
    for (i = 0; i < VVC_MAX_TILE_COLUMNS; i++)
        hold("grid.column_widths", grid.column_widths[i], i < tiled * 3 ? columns[i] : 0);
    for (i = 0; i < VVC_MAX_TILES; i++)
        hold("grid.row_heights", grid.row_heights[i], i < tiled * 4 ? rows[i] : 0);
    hold("cover.refused", cover.refused, VVC_ACCEPTED);
    switch (layout) {
    case SPLIT:
        hold_plan(&plan, split, 4);
        hold("cover.kind", cover.kind, VVC_COVER_GAP);
        hold("cover.tile below tile 0", cover.tile > 0 && cover.tile % 3 == 0, 1);
        break;
    case EACH_TILE:
        hold_plan(&plan, each_tile, 12);
        hold("cover.kind", cover.kind, VVC_COVER_WHOLE);
        hold("cover.tile", cover.tile, 0);
        break;
    case OVERLAPPING:
        hold_plan(&plan, overlapping, 3);
        hold("cover.kind", cover.kind, VVC_COVER_DOUBLE);
        hold("cover.tile in two slices", cover.tile < 2 || (cover.tile > 3 && cover.tile % 3 > 0), 1);
        break;
    default:
        hold_plan(&plan, NULL, 0);
        hold("cover.kind", cover.kind, VVC_COVER_NONE);
        hold("cover.tile", cover.tile, 0);
    }
}

/* ---- what else the header has */

static void hold_filled(const VvcPpsTables *held_tables, int with) {
    const uint8_t *bytes = (const uint8_t *)held_tables;
    size_t i, other = 0;
    for (i = 0; i < sizeof *held_tables; i++)
        other += bytes[i] != with;
    hold("bytes of the tables that changed", (long long)other, 0);
}

/* After 1 to 5 nothing is changed, the triples neither; after others all is zero. */
static void hold_refused(void) {
    memset(&lent, 0x5A, sizeof lent);
    hold("a unit of one byte", vvc_pps_read(nal, 1, work, sizeof work, &lent).refused, VVC_NAL_TOO_SHORT);
    hold_filled(&lent, 0x5A);
    hold("a short work", vvc_pps_read(nal, nal_len, work, nal_len - 3, &lent).refused, VVC_WORK_BUFFER_TOO_SHORT);
    hold_filled(&lent, 0x5A);
    hold("00 81", vvc_pps_read(nal, 2, work, sizeof work, &lent).refused, VVC_PICTURE_SIZE_ZERO);
    hold_filled(&lent, 0);
    hold("a short output", vvc_pps_write(&pps, &lent, rbsp, sizeof rbsp, out, 1).refused, VVC_OUTPUT_TOO_SHORT);
    pps.pps_pic_width_in_luma_samples = 0;
    hold("width 0", vvc_pps_grid(&pps, &lent).refused, VVC_PICTURE_SIZE_ZERO);
    hold("width 0", vvc_pps_plan(&pps, &lent).refused, VVC_PICTURE_SIZE_ZERO);
    hold("width 0", vvc_pps_cover(&pps, &lent).refused, VVC_PICTURE_SIZE_ZERO);
    hold("width 0", vvc_pps_cover(&pps, &lent).kind, VVC_COVER_REFUSED);
}

/* The record made by hand: all zeros but one flag, and with a size it is the smallest set. */
static void hold_initialiser(void) {
    static const uint8_t smallest[] = { 0x00, 0x81, 0x00, 0x09, 0x09, 0x84, 0x08 };
    static const VvcPps fixed = VVC_PPS_INIT;
    VvcPps made = VVC_PPS_INIT;
    VvcByteCount n;
    long long sum = 0;
#define IS(field) sum += made.field != 0; hold(#field, (long long)fixed.field, (long long)made.field);
    EACH_FIELD(IS)
#undef IS
    hold("fields that are not 0", sum, 1);
    hold("pps_no_pic_partition_flag", made.pps_no_pic_partition_flag, 1);
    memset(&lent, 0, sizeof lent);
    hold("no size", vvc_pps_write(&made, &lent, NULL, 0, out, sizeof out).refused, VVC_PICTURE_SIZE_ZERO);
    made.pps_pic_width_in_luma_samples = made.pps_pic_height_in_luma_samples = 1;
    n = vvc_pps_write(&made, &lent, NULL, 0, out, sizeof out);
    hold("refused", n.refused, VVC_ACCEPTED);
    hold("bytes", (long long)n.bytes, sizeof smallest);
    same("the smallest set", out, smallest, sizeof smallest);
}

static void hold_texts(void) {
    int i, j;
    for (i = 0; i < 30; i++) {
        hold("a text", vvc_strerror(i)[0] != 0, 1);
        hold("a known number", strcmp(vvc_strerror(i), vvc_strerror(30)) != 0, 1);
        for (j = 0; j < i; j++)
            hold("another text", strcmp(vvc_strerror(i), vvc_strerror(j)) != 0, 1);
    }
    same("unknown", vvc_strerror(-1), vvc_strerror(30), strlen(vvc_strerror(30)) + 1);
    same("unknown", vvc_strerror(2147483647), vvc_strerror(30), strlen(vvc_strerror(30)) + 1);
}

/* The other structs that cross. */
static void hold_bits(void) {
    static const uint8_t header[] = { 0xAB, 0x8E }, bytes[] = { 0xA5, 0x28, 0x80 };
    const VvcCursor start = { 0, 0 };
    const VvcNalHeaderRead h = vvc_parse_nal_header(header, 2);
    const VvcBitsRead u = vvc_read_u(bytes, 3, start, 9), code = vvc_read_ue(bytes, 3, u.next);
    const VvcSignedRead s = vvc_read_se(bytes, 3, code.next);
    const VvcCursor end = vvc_read_rbsp_trailing_bits(bytes, 3, s.next);
    const VvcUeSize size = vvc_ue_size(1000);
    VvcSink sink = vvc_sink(true);
    hold("header.refused", h.refused, VVC_ACCEPTED);
    hold("header.forbidden_zero_bit", h.header.forbidden_zero_bit, 1);
    hold("header.nuh_reserved_zero_bit", h.header.nuh_reserved_zero_bit, 0);
    hold("header.nuh_layer_id", h.header.nuh_layer_id, 43);
    hold("header.nal_unit_type", h.header.nal_unit_type, 17);
    hold("header.nuh_temporal_id_plus1", h.header.nuh_temporal_id_plus1, 6);
    hold("header.refused", vvc_parse_nal_header(header, 1).refused, VVC_NAL_TOO_SHORT);
    hold("size.bits", size.bits, 19);
    hold("size.refused", size.refused, VVC_ACCEPTED);
    hold("size.refused", vvc_ue_size(4294967295u).refused, VVC_NO_CODE);
    /* 10100101 0 | 010 1 ... */
    hold("u(9)", u.value, 0x14A);
    hold("u(9), next", (long long)u.next.at, 9);
    hold("ue(v)", code.value, 1);
    hold("ue(v), next", (long long)code.next.at, 12);
    hold("se(v)", s.value, 0);
    hold("se(v), next", (long long)s.next.at, 13);
    hold("trailing bits", end.refused, VVC_WRONG_TRAILING_BITS);
    hold("more_rbsp_data", vvc_more_rbsp_data(bytes, 3, 16), 0);
    hold("more_rbsp_data", vvc_more_rbsp_data(bytes, 3, 0), 1);
    hold("extension_bits", (long long)vvc_extension_bits(bytes, 3, 0), 13);
    hold("sink.escape", sink.escape, 1);
    hold("sink.escape", vvc_sink(false).escape, 0);
    sink = vvc_put_bits(sink, out, sizeof out, 5, 19);
    hold("sink.zeros", sink.zeros, 2);
    hold("sink.put", (long long)sink.put, 2);
    hold("sink.have", sink.have, 3);
    hold("sink.cur", sink.cur != 0, 1);
    hold("sink.refused", sink.refused, VVC_ACCEPTED);
    sink = vvc_close(vvc_put_bits(sink, out, sizeof out, 0, 4), out, sizeof out);
    hold("answer.bytes", (long long)vvc_sink_answer(sink, 3).bytes, 3);
    hold("answer.refused", vvc_sink_answer(sink, 2).refused, VVC_OUTPUT_TOO_SHORT);
    hold("sink.refused", vvc_put_ue(sink, out, sizeof out, 4294967295u).refused, VVC_NO_CODE);
}

int main(void) {
    int i;
    hold("vvc_version()", vvc_version(), VVC_PPS_VERSION);
    for (i = 0; i < 100 * LAYOUTS; i++) {
        put_unit(i % LAYOUTS);
        hold_read();
        hold_asked(i % LAYOUTS);
    }
    put_unit(UNPARTITIONED);
    hold_refused();
    hold_initialiser();
    hold_texts();
    hold_bits();
    printf("%u held, %u wrong\n", held, wrong);
    return wrong != 0;
}
