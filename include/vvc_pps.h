/* The C interface of the H.266 (VVC) picture parameter set library; link libvvc_pps.a. C99, C++11 or later.
 *
 * Bytes and tables are handed over as a pointer and a length. The pointer may be null where the length is 0, and what a
 * function may change overlaps nothing else that is handed over. In an answer `refused` is 0 or the number of a
 * refusal, and the values beside a refusal are 0, but for the kind of a cover answer and the fields of a cursor or a
 * sink. Nothing is allocated and nothing is kept between calls, so that any thread may call any function.
 *
 * Most callers need VvcPpsTables and the functions over it, from vvc_pps_read on, at the end: they call the archive's
 * functions with all tables at their lengths. docs/BEHAVIOUR.md says what the library does, docs/DIFFERENCES.md where
 * H.266 is different. */
#ifndef VVC_PPS_H
#define VVC_PPS_H

#if !defined(__linux__) || !defined(__x86_64__)
#error "libvvc_pps.a is for Linux on x86-64"
#endif

#include <stdbool.h>
#include <stddef.h>
#include <stdint.h>

#if UINTPTR_MAX != UINT64_MAX
#error "libvvc_pps.a is for pointers of 64 bits"
#endif

#ifdef __cplusplus
extern "C" {
#endif

/* The version of this header. vvc_version() gives that of the archive, in the form of VVC_PPS_VERSION. */
#define VVC_PPS_VERSION_MAJOR 0
#define VVC_PPS_VERSION_MINOR 2
#define VVC_PPS_VERSION_PATCH 0
#define VVC_PPS_VERSION (VVC_PPS_VERSION_MAJOR * 65536 + VVC_PPS_VERSION_MINOR * 256 + VVC_PPS_VERSION_PATCH)

uint32_t vvc_version(void);

/* The numbers of `refused`. vvc_strerror has a short text for each. */
enum {
    VVC_ACCEPTED = 0,
    VVC_NAL_TOO_SHORT = 1, /* NAL unit under 2 bytes */
    VVC_NOT_A_PPS = 2, /* nal_unit_type not 16 */
    VVC_TOO_MANY_BYTES = 3, /* NAL unit to be read, or bytes given to escaping or unescaping alone, over 65,535 bytes */
    VVC_WORK_BUFFER_TOO_SHORT = 4, /* work buffer shorter than the unit's length - 2; in unescaping, than the input */
    /* a lent table below its length; in writing and the questions also a count above that length, or split counts of
     * the entries in use that sum past it, however much is lent; in writing also extension bits outside the lent
     * bytes */
    VVC_TABLE_TOO_SHORT = 5,
    VVC_UE_TOO_LONG = 6, /* ue(v) with 32 leading zeros */
    VVC_PICTURE_SIZE_ZERO = 7, /* width or height 0 */
    VVC_SUBPICS_OUT_OF_RANGE = 8, /* subpictures minus 1 over 999, or id length minus 1 over 15 */
    VVC_CTU_SIZE_OUT_OF_RANGE = 9, /* pps_log2_ctu_size_minus5 over 2 */
    /* coded explicit columns minus 1 at least 30 or rows minus 1 at least 990; in writing and the questions, none */
    VVC_TILE_COUNT_OUT_OF_RANGE = 10,
    VVC_TILE_SIZE_OUT_OF_RANGE = 11, /* tile size minus 1 at least the picture's CTBs on that axis */
    VVC_TILES_PAST_PICTURE = 12, /* explicit tile sizes sum past the picture */
    VVC_TOO_MANY_TILES = 13, /* over 30 columns, or rows over 990 / columns */
    VVC_TOO_MANY_SLICES = 14, /* pps_num_slices_in_pic_minus1 over 999 */
    VVC_SLICE_PAST_GRID = 15, /* slice width or height passes the grid */
    VVC_SPLIT_OUT_OF_RANGE = 16, /* split count or height minus 1 at least the row height, or their sum past it */
    VVC_SPLIT_SLICES_PAST_COUNT = 17, /* more split slices than pps_num_slices_in_pic_minus1 leaves */
    VVC_TILE_IDX_DELTA_OUT_OF_RANGE = 18, /* delta 0, magnitude at least the tile count, or leaving the grid */
    VVC_WALK_LEAVES_GRID = 19, /* the walk without deltas leaves the grid with slices to come */
    VVC_REF_IDX_OUT_OF_RANGE = 20, /* reference index over 14 */
    VVC_OFFSET_OUT_OF_RANGE = 21, /* QP or deblocking offset outside -12 to 12, or QP list not 1 to 6 long */
    VVC_NO_STOP_BIT = 22, /* no bit left for the stop bit */
    VVC_WRONG_TRAILING_BITS = 23, /* stop bit 0 or alignment bit 1 */
    VVC_ID_OUT_OF_RANGE = 24, /* writing: PPS id over 63 or SPS id over 15 */
    VVC_NO_CODE = 25, /* 4294967295 as ue(v), -2147483648 as se(v) */
    /* writing and the questions: an optional part, an inferred value or the number of slice entries contradicts the
     * syntax; the questions: a flag over 1 */
    VVC_CONTRADICTS_SYNTAX = 26,
    VVC_SUBPIC_IDS_WRONG = 27, /* writing: number of subpicture ids wrong, or an id too large for its length */
    VVC_EXTENSION_ENDS_IN_ZERO = 28, /* writing: extension bits end in 0 */
    VVC_OUTPUT_TOO_SHORT = 29, /* writing or escaping: output shorter than the bytes to be put there */
};

/* The limits of a picture, and the longest NAL unit that is read: so many bytes are always enough for a work buffer. */
enum {
    VVC_MAX_TILE_COLUMNS = 30,
    VVC_MAX_TILES = 990,
    VVC_MAX_SLICES = 1000,
    VVC_MAX_NAL_BYTES = 65535,
};

/* The lengths that the tables of a picture parameter set have at least. */
enum {
    VVC_SUBPIC_IDS = 1000,
    VVC_TILE_COLUMN_WIDTHS = VVC_MAX_TILE_COLUMNS,
    VVC_TILE_ROW_HEIGHTS = VVC_MAX_TILES,
    VVC_RECT_SLICES = VVC_MAX_SLICES - 1, /* slice entries */
    VVC_SPLIT_HEIGHTS = VVC_MAX_SLICES,
};

/* The number of bytes put at the front of an output. */
typedef struct VvcByteCount {
    uint8_t refused;
    size_t bytes;
} VvcByteCount;

/* A NAL unit header (H.266 7.3.1.2). */
typedef struct VvcNalHeader {
    uint8_t forbidden_zero_bit;
    uint8_t nuh_reserved_zero_bit;
    uint8_t nuh_layer_id;
    uint8_t nal_unit_type;
    uint8_t nuh_temporal_id_plus1;
} VvcNalHeader;

typedef struct VvcNalHeaderRead {
    uint8_t refused;
    VvcNalHeader header;
} VvcNalHeaderRead;

/* The number of bits of a code. */
typedef struct VvcUeSize {
    uint8_t refused;
    uint32_t bits;
} VvcUeSize;

/* The place of the next bit, counted from the high bit of the first byte. A refusal sticks: once there is one, every
 * reader gives 0 and hands the cursor back as it is. A reader that refuses leaves the place as it was. Start with
 * { 0, 0 }. */
typedef struct VvcCursor {
    size_t at;
    uint8_t refused;
} VvcCursor;

typedef struct VvcBitsRead {
    uint32_t value;
    VvcCursor next;
} VvcBitsRead;

typedef struct VvcSignedRead {
    int32_t value;
    VvcCursor next;
} VvcSignedRead;

/* Where writing stands. Start with vvc_sink. A refusal sticks, but the writers go on moving and storing: what was
 * stored since means nothing. */
typedef struct VvcSink {
    bool escape;   /* bytes are escaped as they are made */
    uint8_t zeros; /* the run of zero bytes behind, 2 for two and more */
    size_t put;    /* the place of the next byte in the output, whether or not the output reaches so far */
    uint8_t cur;   /* the byte that is being made */
    uint8_t have;  /* how many bits of it there are */
    uint8_t refused;
} VvcSink;

/* A picture parameter set (H.266 7.3.2.5), as reading gives it: flags are 0 or 1, an absent block (`present` 0) is 0
 * throughout, and a field that is not coded is 0, but for pps_rect_slice_flag in one tile (1), uncoded slice heights
 * and the chroma offsets of the deblocking block. For pps_num_slices_in_pic_minus1 with a single slice per subpicture,
 * the windows without their flags and an absent partition H.266 infers something else (docs/DIFFERENCES.md, 19). */

typedef struct VvcPpsConfWinOffsets {
    uint8_t present; /* pps_conformance_window_flag */
    uint32_t pps_conf_win_left_offset;
    uint32_t pps_conf_win_right_offset;
    uint32_t pps_conf_win_top_offset;
    uint32_t pps_conf_win_bottom_offset;
} VvcPpsConfWinOffsets;

typedef struct VvcPpsScalingWinOffsets {
    uint8_t present; /* pps_scaling_window_explicit_signalling_flag */
    int32_t pps_scaling_win_left_offset;
    int32_t pps_scaling_win_right_offset;
    int32_t pps_scaling_win_top_offset;
    int32_t pps_scaling_win_bottom_offset;
} VvcPpsScalingWinOffsets;

/* The ids are the first `num_subpic_ids` of their table. */
typedef struct VvcPpsSubpicIdMapping {
    uint8_t present; /* pps_subpic_id_mapping_present_flag */
    uint32_t pps_num_subpics_minus1;
    uint32_t pps_subpic_id_len_minus1;
    uint32_t num_subpic_ids;
} VvcPpsSubpicIdMapping;

/* The explicit tile sizes, as coded (minus 1), and the slice entries are the first so many of their tables. */
typedef struct VvcPpsPartition {
    uint8_t present; /* pps_no_pic_partition_flag is 0 */
    uint8_t pps_log2_ctu_size_minus5;
    uint32_t num_tile_column_widths;
    uint32_t num_tile_row_heights;
    uint8_t pps_loop_filter_across_tiles_enabled_flag;
    uint8_t pps_rect_slice_flag;
    uint8_t pps_single_slice_per_subpic_flag;
    uint32_t pps_num_slices_in_pic_minus1;
    uint8_t pps_tile_idx_delta_present_flag;
    uint32_t num_rect_slices;
    uint8_t pps_loop_filter_across_slices_enabled_flag;
} VvcPpsPartition;

/* The list is the first `cu_chroma_qp_offset_list_len` of the six triples beside the record; their third offsets are
 * coded where the joint flag is 1. */
typedef struct VvcPpsChromaToolOffsets {
    uint8_t present; /* pps_chroma_tool_offsets_present_flag */
    int32_t pps_cb_qp_offset;
    int32_t pps_cr_qp_offset;
    uint8_t pps_joint_cbcr_qp_offset_present_flag;
    int32_t pps_joint_cbcr_qp_offset_value;
    uint8_t pps_slice_chroma_qp_offsets_present_flag;
    uint8_t pps_cu_chroma_qp_offset_list_enabled_flag;
    uint32_t cu_chroma_qp_offset_list_len;
} VvcPpsChromaToolOffsets;

typedef struct VvcPpsDeblocking {
    uint8_t present; /* pps_deblocking_filter_control_present_flag */
    uint8_t pps_deblocking_filter_override_enabled_flag;
    uint8_t pps_deblocking_filter_disabled_flag;
    uint8_t pps_dbf_info_in_ph_flag;
    int32_t pps_luma_beta_offset_div2;
    int32_t pps_luma_tc_offset_div2;
    int32_t pps_cb_beta_offset_div2;
    int32_t pps_cb_tc_offset_div2;
    int32_t pps_cr_beta_offset_div2;
    int32_t pps_cr_tc_offset_div2;
} VvcPpsDeblocking;

typedef struct VvcPps {
    uint8_t pps_pic_parameter_set_id;
    uint8_t pps_seq_parameter_set_id;
    uint8_t pps_mixed_nalu_types_in_pic_flag;
    uint32_t pps_pic_width_in_luma_samples;
    uint32_t pps_pic_height_in_luma_samples;
    VvcPpsConfWinOffsets pps_conf_win_offsets;
    VvcPpsScalingWinOffsets pps_scaling_win_offsets;
    uint8_t pps_output_flag_present_flag;
    uint8_t pps_no_pic_partition_flag;
    VvcPpsSubpicIdMapping subpic_id_mapping;
    VvcPpsPartition partition;
    uint8_t pps_cabac_init_present_flag;
    uint32_t pps_num_ref_idx_default_active_minus1_l0;
    uint32_t pps_num_ref_idx_default_active_minus1_l1;
    uint8_t pps_rpl1_idx_present_flag;
    uint8_t pps_weighted_pred_flag;
    uint8_t pps_weighted_bipred_flag;
    uint8_t pps_ref_wraparound_enabled_flag;
    uint32_t pps_pic_width_minus_wraparound_offset;
    int32_t pps_init_qp_minus26;
    uint8_t pps_cu_qp_delta_enabled_flag;
    VvcPpsChromaToolOffsets chroma_tool_offsets;
    VvcPpsDeblocking deblocking;
    uint8_t pps_rpl_info_in_ph_flag;
    uint8_t pps_sao_info_in_ph_flag;
    uint8_t pps_alf_info_in_ph_flag;
    uint8_t pps_wp_info_in_ph_flag;
    uint8_t pps_qp_delta_info_in_ph_flag;
    uint8_t pps_picture_header_extension_present_flag;
    uint8_t pps_slice_header_extension_present_flag;
    uint8_t pps_extension_flag;
    /* the extension bits lie in the work buffer: the first of them, from its first bit on, and how many there are; 0
     * and 0 without any */
    size_t pps_extension_data_first_bit;
    size_t pps_extension_data_bits;
} VvcPps;

/* An unpartitioned set with zeros for the rest: writing accepts it once the picture's width and height are filled in.
 * VvcPps pps = VVC_PPS_INIT; */
#define VVC_PPS_INIT \
    { \
        0, 0, 0, 0, 0, \
        { 0, 0, 0, 0, 0 }, /* pps_conf_win_offsets */ \
        { 0, 0, 0, 0, 0 }, /* pps_scaling_win_offsets */ \
        0, 1, /* pps_no_pic_partition_flag */ \
        { 0, 0, 0, 0 }, /* subpic_id_mapping */ \
        { 0, 0, 0, 0, 0, 0, 0, 0, 0, 0, 0 }, /* partition */ \
        0, 0, 0, 0, 0, 0, 0, 0, 0, 0, \
        { 0, 0, 0, 0, 0, 0, 0, 0 }, /* chroma_tool_offsets */ \
        { 0, 0, 0, 0, 0, 0, 0, 0, 0, 0 }, /* deblocking */ \
        0, 0, 0, 0, 0, 0, 0, 0, 0, 0 \
    }

/* A slice entry. The height is coded or inferred, both are minus 1. Of the split heights, minus 1 too, an entry takes
 * the first pps_num_exp_slices_in_tile that the entries before it have left. In writing and the questions anything but
 * 0 says that a part is present. */
typedef struct VvcPpsRectSlice {
    uint32_t pps_slice_width_in_tiles_minus1;
    uint32_t pps_slice_height_in_tiles_minus1;
    uint32_t split_present; /* the next is coded */
    uint32_t pps_num_exp_slices_in_tile;
    uint32_t delta_present; /* the next is coded */
    int32_t pps_tile_idx_delta_val;
} VvcPpsRectSlice;

/* A triple of the chroma list. */
typedef struct VvcQpOffsets {
    int32_t cb;
    int32_t cr;
    int32_t joint;
} VvcQpOffsets;

/* The triples beside a record that is written; those past the list's length are not looked at. */
typedef struct VvcQpOffsetList {
    VvcQpOffsets triples[6];
} VvcQpOffsetList;

/* The set took the first `bytes_taken` bytes of the work buffer. Triples past the list's length are 0. */
typedef struct VvcPpsRead {
    uint8_t refused;
    size_t bytes_taken;
    VvcPps pps;
    VvcQpOffsets triples[6];
} VvcPpsRead;

/* The tile grid of a picture, in CTBs, with no columns and no rows where it is unpartitioned. Places not in use are 0,
 * and all of them beside a refusal. */
typedef struct VvcGridAnswer {
    uint8_t refused;
    uint32_t num_tile_columns;
    uint32_t num_tile_rows;
    uint32_t column_widths[VVC_MAX_TILE_COLUMNS];
    uint32_t row_heights[VVC_MAX_TILES];
} VvcGridAnswer;

/* Where each slice of a picture lies, in CTBs from the top left, by slice index; without slices where none are coded.
 * Places not in use are 0, and all of them beside a refusal. */
typedef struct VvcPlanAnswer {
    uint8_t refused;
    uint32_t num_slices;
    uint32_t left[VVC_MAX_SLICES];
    uint32_t top[VVC_MAX_SLICES];
    uint32_t width[VVC_MAX_SLICES];
    uint32_t height[VVC_MAX_SLICES];
} VvcPlanAnswer;

/* What the slices of a picture cover. Gap goes before double. */
enum {
    VVC_COVER_NONE = 0, /* no slices are coded: unpartitioned, not rectangular, or a single slice per subpicture */
    VVC_COVER_WHOLE = 1, /* every block lies in exactly one slice */
    VVC_COVER_GAP = 2, /* `tile` lies in no slice */
    VVC_COVER_DOUBLE = 3, /* the blocks of `tile` lie in several slices */
    VVC_COVER_REFUSED = 4, /* with the number in `refused` */
};

/* `refused` and `tile` are 0 where the kind does not use them. */
typedef struct VvcCoverAnswer {
    uint8_t kind;
    uint8_t refused;
    uint32_t tile;
} VvcCoverAnswer;

/* Takes the escape bytes out of a payload (H.266 7.4.2.1). Refusals: 3 for more than 65,535 bytes, 4 where `out` is
 * shorter than the payload. Only the bytes reported are changed. */
VvcByteCount vvc_ebsp_to_rbsp(const uint8_t *ebsp, size_t ebsp_len, uint8_t *out, size_t out_len);

/* Puts the escape bytes into a payload (H.266 7.4.2.1, but that a single final 00 gets none). Refusals: 3 for more than
 * 65,535 bytes, 29 where `out` is shorter than the escaped bytes. Only the bytes reported are changed. */
VvcByteCount vvc_rbsp_to_ebsp(const uint8_t *rbsp, size_t rbsp_len, uint8_t *out, size_t out_len);

/* The header at the front of a NAL unit. Refusal: 1 for fewer than 2 bytes. Forbidden and reserved bits are not
 * tested. */
VvcNalHeaderRead vvc_parse_nal_header(const uint8_t *nal, size_t nal_len);

/* Reads a NAL unit that holds a picture parameter set, its 2-byte header included, of which only the type is tested.
 * Refusals: 1 to 23, 1 to 5 first and in that order.
 *
 * Lent are a work buffer of at least the NAL unit's length - 2 bytes (else 4), which takes the payload without its
 * escape bytes, and tables of at least these lengths (else 5): `subpic_ids` 1,000; `tile_column_widths` 30;
 * `tile_row_heights` 990; `entries` 999; `split_heights` 1,000, of which each entry takes its split count, in order.
 * Sizes, heights and widths are as coded, minus 1.
 *
 * After 1 to 5 nothing lent has changed. Otherwise the work buffer starts with the payload, its rest as before, and the
 * tables have the entries in use, then zeros to their ends; after 6 to 23, zeros throughout. */
VvcPpsRead vvc_parse_pps(const uint8_t *nal, size_t nal_len, uint8_t *work, size_t work_len,
    uint32_t *subpic_ids, size_t subpic_ids_len,
    uint32_t *tile_column_widths, size_t tile_column_widths_len,
    uint32_t *tile_row_heights, size_t tile_row_heights_len,
    VvcPpsRectSlice *entries, size_t entries_len, uint32_t *split_heights, size_t split_heights_len);

/* Writes the RBSP of a picture parameter set, with its trailing bits. Refusals: 5, then 7 to 21 and 24 to 28 in the
 * order in which the fields are written, then 29 where `out` is shorter than the bytes.
 *
 * The tables are those that reading fills, of the same lengths at least (else 5, as for a count in the record over
 * those lengths, and for split counts of the entries in use that sum past 1,000). The extension bits are taken out of
 * `extension` (5 where they lie outside it), from the bit that the record names on: after reading, the work buffer.
 * Without any, `extension` may be empty; without their flag they are 26. Flags over 1 are written as 1, but
 * pps_rect_slice_flag in one tile has to be 1 (26). An uncoded width or height is held to the grid alone (15), not to
 * what reading infers, and pps_tile_idx_delta_present_flag is followed even where it is not coded. Other fields that
 * are not written, and those of absent blocks, are not looked at, but for pps_num_subpics_minus1 of a mapping in an
 * unpartitioned picture, which has to be 0 (26).
 *
 * A refusal changes nothing, an acceptance only the bytes reported. */
VvcByteCount vvc_write_pps(VvcPps pps, VvcQpOffsetList triples,
    const uint32_t *subpic_ids, size_t subpic_ids_len,
    const uint32_t *tile_column_widths, size_t tile_column_widths_len,
    const uint32_t *tile_row_heights, size_t tile_row_heights_len,
    const VvcPpsRectSlice *entries, size_t entries_len, const uint32_t *split_heights, size_t split_heights_len,
    const uint8_t *extension, size_t extension_len, uint8_t *out, size_t out_len);

/* Writes the NAL unit: 00 81, then the escaped RBSP. All else as in vvc_write_pps. */
VvcByteCount vvc_write_pps_nal(VvcPps pps, VvcQpOffsetList triples,
    const uint32_t *subpic_ids, size_t subpic_ids_len,
    const uint32_t *tile_column_widths, size_t tile_column_widths_len,
    const uint32_t *tile_row_heights, size_t tile_row_heights_len,
    const VvcPpsRectSlice *entries, size_t entries_len, const uint32_t *split_heights, size_t split_heights_len,
    const uint8_t *extension, size_t extension_len, uint8_t *out, size_t out_len);

/* The questions on a record with the tables that reading fills (H.266 6.5.1). Refusals: 5 as in writing, the extension
 * bits aside; 7; 26 for the no-partition flag or a flag of a present partition over 1, and for a partition that is
 * there or missing against that flag; then 9 to 19, 25 and 26 as writing has them in the partition, with 26 also, where
 * slices are coded, for a delta flag with pps_num_slices_in_pic_minus1 under 2, and for an uncoded slice height that
 * isn't the one that reading infers. All three make all of these tests. Of what lies outside the partition only the
 * picture's size and the no-partition flag are looked at, and the number of subpicture ids for 5. Nothing lent
 * changes. */

/* The sizes of the tile columns and rows. */
VvcGridAnswer vvc_tile_grid(VvcPps pps,
    const uint32_t *subpic_ids, size_t subpic_ids_len,
    const uint32_t *tile_column_widths, size_t tile_column_widths_len,
    const uint32_t *tile_row_heights, size_t tile_row_heights_len,
    const VvcPpsRectSlice *entries, size_t entries_len, const uint32_t *split_heights, size_t split_heights_len);

/* Each slice's left, top, width and height. Takes much stack (README.md). */
VvcPlanAnswer vvc_slice_plan(VvcPps pps,
    const uint32_t *subpic_ids, size_t subpic_ids_len,
    const uint32_t *tile_column_widths, size_t tile_column_widths_len,
    const uint32_t *tile_row_heights, size_t tile_row_heights_len,
    const VvcPpsRectSlice *entries, size_t entries_len, const uint32_t *split_heights, size_t split_heights_len);

/* Whether the slices cover each block once. The tile of a gap or a double is any that is as said. Takes much stack
 * (README.md). */
VvcCoverAnswer vvc_cover(VvcPps pps,
    const uint32_t *subpic_ids, size_t subpic_ids_len,
    const uint32_t *tile_column_widths, size_t tile_column_widths_len,
    const uint32_t *tile_row_heights, size_t tile_row_heights_len,
    const VvcPpsRectSlice *entries, size_t entries_len, const uint32_t *split_heights, size_t split_heights_len);

/* The number of bits of the ue(v) code of `v` (H.266 9.2). Refusal: 25 for 4294967295. */
VvcUeSize vvc_ue_size(uint32_t v);

/* Bit readers over `s`. Bits past the end are 0, and no reader moves past the end. */

/* u(n); more than 32 bits are read as 32. */
VvcBitsRead vvc_read_u(const uint8_t *s, size_t s_len, VvcCursor c, uint32_t n);

/* ue(v); k zeros that the end cuts off give 2^k - 1. Refusal: 6 for 32 leading zeros. */
VvcBitsRead vvc_read_ue(const uint8_t *s, size_t s_len, VvcCursor c);

/* se(v). Refusal: 6 as for ue(v). */
VvcSignedRead vvc_read_se(const uint8_t *s, size_t s_len, VvcCursor c);

/* rbsp_trailing_bits(). Refusals: 22 with no bit left, 23 for a stop bit 0 or an alignment bit 1. */
VvcCursor vvc_read_rbsp_trailing_bits(const uint8_t *s, size_t s_len, VvcCursor c);

/* Whether at least two 1 bits lie from bit `at` on, as the Rust's more_rbsp_data() asks. H.266 7.2 asks whether the
 * last 1 bit lies behind bit `at`: the two differ where only zeros lie from `at` up to it, that is in data that ends in
 * 0. */
bool vvc_more_rbsp_data(const uint8_t *s, size_t s_len, size_t at);

/* How many bits from bit `at` on are taken while vvc_more_rbsp_data holds. */
size_t vvc_extension_bits(const uint8_t *s, size_t s_len, size_t at);

/* Bit writers into `out`, high bit first. Each takes a sink and gives the one behind what it put. It stores only inside
 * `out` and counts always, also where it refuses and after a refusal: the same calls over an output of 0 bytes give the
 * exact number of bytes and any refusal, before anything is changed. */

/* A sink that has put nothing yet, for an RBSP as it is or escaped (H.266 7.4.2.1). */
VvcSink vvc_sink(bool escape);

/* One bit, the low one of `bit`. */
VvcSink vvc_put_bit(VvcSink w, uint8_t *out, size_t out_len, uint32_t bit);

/* u(n): the `n` low bits of `value`; more than 32 are taken as 32. */
VvcSink vvc_put_bits(VvcSink w, uint8_t *out, size_t out_len, uint32_t value, uint32_t n);

/* ue(v). Refusal: 25 for 4294967295. */
VvcSink vvc_put_ue(VvcSink w, uint8_t *out, size_t out_len, uint32_t v);

/* se(v). Refusal: 25 for -2147483648. */
VvcSink vvc_put_se(VvcSink w, uint8_t *out, size_t out_len, int32_t v);

/* `count` bits of `bytes` from bit `from` on; bits past the end are 0. */
VvcSink vvc_put_copy(VvcSink w, uint8_t *out, size_t out_len, const uint8_t *bytes, size_t bytes_len, size_t from,
    size_t count);

/* rbsp_trailing_bits(), and the end of the payload. */
VvcSink vvc_close(VvcSink w, uint8_t *out, size_t out_len);

/* What the sink says of an output of `room` bytes: its refusal, 29 where they are fewer than the bytes put, or the
 * number of these. */
VvcByteCount vvc_sink_answer(VvcSink w, size_t room);

/* ---- Few arguments: what a set is read into and written from, and calls with all of it, which add no test of their
 * own. */

/* The tables at their lengths, and the triples of the chroma list: 36,128 bytes. Zeros are a set without lists. */
typedef struct VvcPpsTables {
    uint32_t subpic_ids[VVC_SUBPIC_IDS];
    uint32_t tile_column_widths[VVC_TILE_COLUMN_WIDTHS];
    uint32_t tile_row_heights[VVC_TILE_ROW_HEIGHTS];
    VvcPpsRectSlice entries[VVC_RECT_SLICES];
    uint32_t split_heights[VVC_SPLIT_HEIGHTS];
    VvcQpOffsets triples[6];
} VvcPpsTables;

#define VVC_PPS_TABLES_(t) \
    (t)->subpic_ids, VVC_SUBPIC_IDS, (t)->tile_column_widths, VVC_TILE_COLUMN_WIDTHS, \
    (t)->tile_row_heights, VVC_TILE_ROW_HEIGHTS, (t)->entries, VVC_RECT_SLICES, \
    (t)->split_heights, VVC_SPLIT_HEIGHTS

static inline VvcQpOffsetList vvc_pps_triples_(const VvcPpsTables *tables) {
    VvcQpOffsetList list;
    int i;
    for (i = 0; i < 6; i++)
        list.triples[i] = tables->triples[i];
    return list;
}

/* Reads a NAL unit: vvc_parse_pps. The answer's triples stand in the tables too, but after 1 to 5, which change
 * nothing. */
static inline VvcPpsRead vvc_pps_read(const uint8_t *nal, size_t nal_len, uint8_t *work, size_t work_len,
    VvcPpsTables *tables) {
    VvcPpsRead read = vvc_parse_pps(nal, nal_len, work, work_len, VVC_PPS_TABLES_(tables));
    int i;
    if (read.refused == VVC_ACCEPTED || read.refused > VVC_TABLE_TOO_SHORT) {
        for (i = 0; i < 6; i++)
            tables->triples[i] = read.triples[i];
    }
    return read;
}

/* Writes the NAL unit: vvc_write_pps_nal, with the triples of the tables. */
static inline VvcByteCount vvc_pps_write(const VvcPps *pps, const VvcPpsTables *tables,
    const uint8_t *extension, size_t extension_len, uint8_t *out, size_t out_len) {
    return vvc_write_pps_nal(*pps, vvc_pps_triples_(tables), VVC_PPS_TABLES_(tables), extension, extension_len, out,
        out_len);
}

/* Writes the RBSP: vvc_write_pps, with the triples of the tables. */
static inline VvcByteCount vvc_pps_write_rbsp(const VvcPps *pps, const VvcPpsTables *tables,
    const uint8_t *extension, size_t extension_len, uint8_t *out, size_t out_len) {
    return vvc_write_pps(*pps, vvc_pps_triples_(tables), VVC_PPS_TABLES_(tables), extension, extension_len, out,
        out_len);
}

/* The questions: vvc_tile_grid, vvc_slice_plan, vvc_cover. They answer by value, as the archive's functions do: an
 * answer that initialises a variable is put there without a copy, which a pointer to it would cost. */
static inline VvcGridAnswer vvc_pps_grid(const VvcPps *pps, const VvcPpsTables *tables) {
    return vvc_tile_grid(*pps, VVC_PPS_TABLES_(tables));
}

static inline VvcPlanAnswer vvc_pps_plan(const VvcPps *pps, const VvcPpsTables *tables) {
    return vvc_slice_plan(*pps, VVC_PPS_TABLES_(tables));
}

static inline VvcCoverAnswer vvc_pps_cover(const VvcPps *pps, const VvcPpsTables *tables) {
    return vvc_cover(*pps, VVC_PPS_TABLES_(tables));
}

/* A short text for a number of `refused`. */
static inline const char *vvc_strerror(int number) {
    static const char *const texts[] = {
        "accepted",
        "NAL unit under 2 bytes",
        "NAL unit of another type",
        "over 65,535 bytes",
        "work buffer too short",
        "table too short, count too large, or extension bits outside the lent bytes",
        "ue(v) code with 32 leading zeros",
        "picture width or height 0",
        "subpicture count or id length out of range",
        "CTU size out of range",
        "number of explicit tile columns or rows out of range",
        "tile size past the picture",
        "sum of tile sizes past the picture",
        "too many tile columns or tiles",
        "too many slices",
        "slice past the tile grid",
        "split of a tile out of range",
        "more split slices than are left",
        "tile index delta out of range",
        "slices leave the tile grid",
        "reference index out of range",
        "QP or deblocking offset, or QP list length, out of range",
        "no stop bit",
        "wrong trailing bits",
        "PPS or SPS id out of range",
        "value without a code",
        "record contradicts the syntax",
        "number of subpicture ids, or an id, wrong",
        "extension bits end in 0",
        "output too short",
    };
    if (number < 0 || number > VVC_OUTPUT_TOO_SHORT)
        return "unknown number";
    return texts[number];
}

#ifdef __cplusplus
}
#endif

/* ---- The layout that the archive has. */
#if defined(__cplusplus)
#define VVC_PPS_HOLDS_(name, truth) static_assert(truth, #name)
#elif defined(__STDC_VERSION__) && __STDC_VERSION__ >= 201112L
#define VVC_PPS_HOLDS_(name, truth) _Static_assert(truth, #name)
#else
#define VVC_PPS_HOLDS_(name, truth) typedef char vvc_pps_##name[(truth) ? 1 : -1]
#endif
#define VVC_PPS_SIZE_(type, size) VVC_PPS_HOLDS_(size_of_##type, sizeof(type) == (size))
#define VVC_PPS_AT_(type, field, place) VVC_PPS_HOLDS_(place_of_##type##_##field, offsetof(type, field) == (place))

VVC_PPS_SIZE_(VvcByteCount, 16); VVC_PPS_AT_(VvcByteCount, refused, 0); VVC_PPS_AT_(VvcByteCount, bytes, 8);
VVC_PPS_SIZE_(VvcNalHeader, 5); VVC_PPS_AT_(VvcNalHeader, forbidden_zero_bit, 0);
VVC_PPS_AT_(VvcNalHeader, nuh_reserved_zero_bit, 1); VVC_PPS_AT_(VvcNalHeader, nuh_layer_id, 2);
VVC_PPS_AT_(VvcNalHeader, nal_unit_type, 3); VVC_PPS_AT_(VvcNalHeader, nuh_temporal_id_plus1, 4);
VVC_PPS_SIZE_(VvcNalHeaderRead, 6); VVC_PPS_AT_(VvcNalHeaderRead, refused, 0); VVC_PPS_AT_(VvcNalHeaderRead, header, 1);
VVC_PPS_SIZE_(VvcUeSize, 8); VVC_PPS_AT_(VvcUeSize, refused, 0); VVC_PPS_AT_(VvcUeSize, bits, 4);
VVC_PPS_SIZE_(VvcCursor, 16); VVC_PPS_AT_(VvcCursor, at, 0); VVC_PPS_AT_(VvcCursor, refused, 8);
VVC_PPS_SIZE_(VvcBitsRead, 24); VVC_PPS_AT_(VvcBitsRead, value, 0); VVC_PPS_AT_(VvcBitsRead, next, 8);
VVC_PPS_SIZE_(VvcSignedRead, 24); VVC_PPS_AT_(VvcSignedRead, value, 0); VVC_PPS_AT_(VvcSignedRead, next, 8);
VVC_PPS_SIZE_(VvcSink, 24); VVC_PPS_AT_(VvcSink, escape, 0); VVC_PPS_AT_(VvcSink, zeros, 1);
VVC_PPS_AT_(VvcSink, put, 8); VVC_PPS_AT_(VvcSink, cur, 16); VVC_PPS_AT_(VvcSink, have, 17);
VVC_PPS_AT_(VvcSink, refused, 18);
VVC_PPS_SIZE_(VvcPpsConfWinOffsets, 20); VVC_PPS_AT_(VvcPpsConfWinOffsets, present, 0);
VVC_PPS_AT_(VvcPpsConfWinOffsets, pps_conf_win_left_offset, 4);
VVC_PPS_AT_(VvcPpsConfWinOffsets, pps_conf_win_right_offset, 8);
VVC_PPS_AT_(VvcPpsConfWinOffsets, pps_conf_win_top_offset, 12);
VVC_PPS_AT_(VvcPpsConfWinOffsets, pps_conf_win_bottom_offset, 16);
VVC_PPS_SIZE_(VvcPpsScalingWinOffsets, 20); VVC_PPS_AT_(VvcPpsScalingWinOffsets, present, 0);
VVC_PPS_AT_(VvcPpsScalingWinOffsets, pps_scaling_win_left_offset, 4);
VVC_PPS_AT_(VvcPpsScalingWinOffsets, pps_scaling_win_right_offset, 8);
VVC_PPS_AT_(VvcPpsScalingWinOffsets, pps_scaling_win_top_offset, 12);
VVC_PPS_AT_(VvcPpsScalingWinOffsets, pps_scaling_win_bottom_offset, 16);
VVC_PPS_SIZE_(VvcPpsSubpicIdMapping, 16); VVC_PPS_AT_(VvcPpsSubpicIdMapping, present, 0);
VVC_PPS_AT_(VvcPpsSubpicIdMapping, pps_num_subpics_minus1, 4);
VVC_PPS_AT_(VvcPpsSubpicIdMapping, pps_subpic_id_len_minus1, 8); VVC_PPS_AT_(VvcPpsSubpicIdMapping, num_subpic_ids, 12);
VVC_PPS_SIZE_(VvcPpsPartition, 32); VVC_PPS_AT_(VvcPpsPartition, present, 0);
VVC_PPS_AT_(VvcPpsPartition, pps_log2_ctu_size_minus5, 1); VVC_PPS_AT_(VvcPpsPartition, num_tile_column_widths, 4);
VVC_PPS_AT_(VvcPpsPartition, num_tile_row_heights, 8);
VVC_PPS_AT_(VvcPpsPartition, pps_loop_filter_across_tiles_enabled_flag, 12);
VVC_PPS_AT_(VvcPpsPartition, pps_rect_slice_flag, 13);
VVC_PPS_AT_(VvcPpsPartition, pps_single_slice_per_subpic_flag, 14);
VVC_PPS_AT_(VvcPpsPartition, pps_num_slices_in_pic_minus1, 16);
VVC_PPS_AT_(VvcPpsPartition, pps_tile_idx_delta_present_flag, 20); VVC_PPS_AT_(VvcPpsPartition, num_rect_slices, 24);
VVC_PPS_AT_(VvcPpsPartition, pps_loop_filter_across_slices_enabled_flag, 28);
VVC_PPS_SIZE_(VvcPpsChromaToolOffsets, 28); VVC_PPS_AT_(VvcPpsChromaToolOffsets, present, 0);
VVC_PPS_AT_(VvcPpsChromaToolOffsets, pps_cb_qp_offset, 4); VVC_PPS_AT_(VvcPpsChromaToolOffsets, pps_cr_qp_offset, 8);
VVC_PPS_AT_(VvcPpsChromaToolOffsets, pps_joint_cbcr_qp_offset_present_flag, 12);
VVC_PPS_AT_(VvcPpsChromaToolOffsets, pps_joint_cbcr_qp_offset_value, 16);
VVC_PPS_AT_(VvcPpsChromaToolOffsets, pps_slice_chroma_qp_offsets_present_flag, 20);
VVC_PPS_AT_(VvcPpsChromaToolOffsets, pps_cu_chroma_qp_offset_list_enabled_flag, 21);
VVC_PPS_AT_(VvcPpsChromaToolOffsets, cu_chroma_qp_offset_list_len, 24);
VVC_PPS_SIZE_(VvcPpsDeblocking, 28); VVC_PPS_AT_(VvcPpsDeblocking, present, 0);
VVC_PPS_AT_(VvcPpsDeblocking, pps_deblocking_filter_override_enabled_flag, 1);
VVC_PPS_AT_(VvcPpsDeblocking, pps_deblocking_filter_disabled_flag, 2);
VVC_PPS_AT_(VvcPpsDeblocking, pps_dbf_info_in_ph_flag, 3); VVC_PPS_AT_(VvcPpsDeblocking, pps_luma_beta_offset_div2, 4);
VVC_PPS_AT_(VvcPpsDeblocking, pps_luma_tc_offset_div2, 8); VVC_PPS_AT_(VvcPpsDeblocking, pps_cb_beta_offset_div2, 12);
VVC_PPS_AT_(VvcPpsDeblocking, pps_cb_tc_offset_div2, 16); VVC_PPS_AT_(VvcPpsDeblocking, pps_cr_beta_offset_div2, 20);
VVC_PPS_AT_(VvcPpsDeblocking, pps_cr_tc_offset_div2, 24);
VVC_PPS_SIZE_(VvcPps, 216); VVC_PPS_AT_(VvcPps, pps_pic_parameter_set_id, 0);
VVC_PPS_AT_(VvcPps, pps_seq_parameter_set_id, 1); VVC_PPS_AT_(VvcPps, pps_mixed_nalu_types_in_pic_flag, 2);
VVC_PPS_AT_(VvcPps, pps_pic_width_in_luma_samples, 4); VVC_PPS_AT_(VvcPps, pps_pic_height_in_luma_samples, 8);
VVC_PPS_AT_(VvcPps, pps_conf_win_offsets, 12); VVC_PPS_AT_(VvcPps, pps_scaling_win_offsets, 32);
VVC_PPS_AT_(VvcPps, pps_output_flag_present_flag, 52); VVC_PPS_AT_(VvcPps, pps_no_pic_partition_flag, 53);
VVC_PPS_AT_(VvcPps, subpic_id_mapping, 56); VVC_PPS_AT_(VvcPps, partition, 72);
VVC_PPS_AT_(VvcPps, pps_cabac_init_present_flag, 104);
VVC_PPS_AT_(VvcPps, pps_num_ref_idx_default_active_minus1_l0, 108);
VVC_PPS_AT_(VvcPps, pps_num_ref_idx_default_active_minus1_l1, 112); VVC_PPS_AT_(VvcPps, pps_rpl1_idx_present_flag, 116);
VVC_PPS_AT_(VvcPps, pps_weighted_pred_flag, 117); VVC_PPS_AT_(VvcPps, pps_weighted_bipred_flag, 118);
VVC_PPS_AT_(VvcPps, pps_ref_wraparound_enabled_flag, 119);
VVC_PPS_AT_(VvcPps, pps_pic_width_minus_wraparound_offset, 120); VVC_PPS_AT_(VvcPps, pps_init_qp_minus26, 124);
VVC_PPS_AT_(VvcPps, pps_cu_qp_delta_enabled_flag, 128); VVC_PPS_AT_(VvcPps, chroma_tool_offsets, 132);
VVC_PPS_AT_(VvcPps, deblocking, 160); VVC_PPS_AT_(VvcPps, pps_rpl_info_in_ph_flag, 188);
VVC_PPS_AT_(VvcPps, pps_sao_info_in_ph_flag, 189); VVC_PPS_AT_(VvcPps, pps_alf_info_in_ph_flag, 190);
VVC_PPS_AT_(VvcPps, pps_wp_info_in_ph_flag, 191); VVC_PPS_AT_(VvcPps, pps_qp_delta_info_in_ph_flag, 192);
VVC_PPS_AT_(VvcPps, pps_picture_header_extension_present_flag, 193);
VVC_PPS_AT_(VvcPps, pps_slice_header_extension_present_flag, 194); VVC_PPS_AT_(VvcPps, pps_extension_flag, 195);
VVC_PPS_AT_(VvcPps, pps_extension_data_first_bit, 200); VVC_PPS_AT_(VvcPps, pps_extension_data_bits, 208);
VVC_PPS_SIZE_(VvcPpsRectSlice, 24); VVC_PPS_AT_(VvcPpsRectSlice, pps_slice_width_in_tiles_minus1, 0);
VVC_PPS_AT_(VvcPpsRectSlice, pps_slice_height_in_tiles_minus1, 4); VVC_PPS_AT_(VvcPpsRectSlice, split_present, 8);
VVC_PPS_AT_(VvcPpsRectSlice, pps_num_exp_slices_in_tile, 12); VVC_PPS_AT_(VvcPpsRectSlice, delta_present, 16);
VVC_PPS_AT_(VvcPpsRectSlice, pps_tile_idx_delta_val, 20);
VVC_PPS_SIZE_(VvcQpOffsets, 12); VVC_PPS_AT_(VvcQpOffsets, cb, 0); VVC_PPS_AT_(VvcQpOffsets, cr, 4);
VVC_PPS_AT_(VvcQpOffsets, joint, 8);
VVC_PPS_SIZE_(VvcQpOffsetList, 72); VVC_PPS_AT_(VvcQpOffsetList, triples, 0);
VVC_PPS_SIZE_(VvcPpsRead, 304); VVC_PPS_AT_(VvcPpsRead, refused, 0); VVC_PPS_AT_(VvcPpsRead, bytes_taken, 8);
VVC_PPS_AT_(VvcPpsRead, pps, 16); VVC_PPS_AT_(VvcPpsRead, triples, 232);
VVC_PPS_SIZE_(VvcGridAnswer, 4092); VVC_PPS_AT_(VvcGridAnswer, refused, 0);
VVC_PPS_AT_(VvcGridAnswer, num_tile_columns, 4); VVC_PPS_AT_(VvcGridAnswer, num_tile_rows, 8);
VVC_PPS_AT_(VvcGridAnswer, column_widths, 12); VVC_PPS_AT_(VvcGridAnswer, row_heights, 132);
VVC_PPS_SIZE_(VvcPlanAnswer, 16008); VVC_PPS_AT_(VvcPlanAnswer, refused, 0); VVC_PPS_AT_(VvcPlanAnswer, num_slices, 4);
VVC_PPS_AT_(VvcPlanAnswer, left, 8); VVC_PPS_AT_(VvcPlanAnswer, top, 4008); VVC_PPS_AT_(VvcPlanAnswer, width, 8008);
VVC_PPS_AT_(VvcPlanAnswer, height, 12008);
VVC_PPS_SIZE_(VvcCoverAnswer, 8); VVC_PPS_AT_(VvcCoverAnswer, kind, 0); VVC_PPS_AT_(VvcCoverAnswer, refused, 1);
VVC_PPS_AT_(VvcCoverAnswer, tile, 4);
VVC_PPS_SIZE_(VvcPpsTables, 36128);

#undef VVC_PPS_AT_
#undef VVC_PPS_SIZE_
#undef VVC_PPS_HOLDS_

#endif
