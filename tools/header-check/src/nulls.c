/* A null pointer with a length of 0, for every pointer of every function of the archive: each call in a process of its
 * own, which a signal ends or which says whether the answer was right. The last line is `N calls, M wrong`. */
#define _POSIX_C_SOURCE 200809L
#include "vvc_pps.h"

#include <stdio.h>
#include <string.h>
#include <sys/types.h>
#include <sys/wait.h>
#include <unistd.h>

static const uint8_t nal[] = { 0x00, 0x81, 0x00, 0x09, 0x09, 0x84, 0x08 };
static const VvcCursor start = { 0, 0 };
static uint8_t work[64], out[64];
static uint32_t subpic_ids[VVC_SUBPIC_IDS], columns[VVC_TILE_COLUMN_WIDTHS], rows[VVC_TILE_ROW_HEIGHTS];
static uint32_t split_heights[VVC_SPLIT_HEIGHTS];
static VvcPpsRectSlice entries[VVC_RECT_SLICES];
static VvcQpOffsetList triples;
static VvcPps pps = VVC_PPS_INIT;
static unsigned calls, wrong;

/* A call and what is to be true of its answer `a`. */
#define CALL(type, call, right) \
    do { \
        pid_t child; \
        int status = 0; \
        calls++; \
        fflush(stdout); \
        child = fork(); \
        if (child == 0) { \
            type a = call; \
            _exit((right) ? 0 : 1); \
        } \
        if (child < 0 || waitpid(child, &status, 0) != child || status != 0) { \
            wrong++; \
            printf("%s %d: %s\n", WIFSIGNALED(status) ? "signal" : "not right: status", \
                WIFSIGNALED(status) ? WTERMSIG(status) : WEXITSTATUS(status), #call); \
        } \
    } while (0)

/* The tables: all of them, none, and one of them missing. */
#define IDS subpic_ids, VVC_SUBPIC_IDS
#define COLUMNS columns, VVC_TILE_COLUMN_WIDTHS
#define ROWS rows, VVC_TILE_ROW_HEIGHTS
#define ENTRIES entries, VVC_RECT_SLICES
#define HEIGHTS split_heights, VVC_SPLIT_HEIGHTS
#define NONE NULL, 0
#define ALL IDS, COLUMNS, ROWS, ENTRIES, HEIGHTS
#define SIX_TIMES(WITH) \
    WITH(NONE, NONE, NONE, NONE, NONE) \
    WITH(NONE, COLUMNS, ROWS, ENTRIES, HEIGHTS) \
    WITH(IDS, NONE, ROWS, ENTRIES, HEIGHTS) \
    WITH(IDS, COLUMNS, NONE, ENTRIES, HEIGHTS) \
    WITH(IDS, COLUMNS, ROWS, NONE, HEIGHTS) \
    WITH(IDS, COLUMNS, ROWS, ENTRIES, NONE)

static void payloads(void) {
    CALL(VvcByteCount, vvc_ebsp_to_rbsp(NONE, NONE), a.refused == 0 && a.bytes == 0);
    CALL(VvcByteCount, vvc_ebsp_to_rbsp(NONE, out, 64), a.refused == 0 && a.bytes == 0);
    CALL(VvcByteCount, vvc_ebsp_to_rbsp(nal, 7, NONE), a.refused == VVC_WORK_BUFFER_TOO_SHORT);
    CALL(VvcByteCount, vvc_rbsp_to_ebsp(NONE, NONE), a.refused == 0 && a.bytes == 0);
    CALL(VvcByteCount, vvc_rbsp_to_ebsp(NONE, out, 64), a.refused == 0 && a.bytes == 0);
    CALL(VvcByteCount, vvc_rbsp_to_ebsp(nal, 7, NONE), a.refused == VVC_OUTPUT_TOO_SHORT);
    CALL(VvcNalHeaderRead, vvc_parse_nal_header(NONE), a.refused == VVC_NAL_TOO_SHORT);
}

static void reading(void) {
    CALL(VvcPpsRead, vvc_parse_pps(NONE, NONE, NONE, NONE, NONE, NONE, NONE), a.refused == VVC_NAL_TOO_SHORT);
    CALL(VvcPpsRead, vvc_parse_pps(NONE, work, 64, ALL), a.refused == VVC_NAL_TOO_SHORT);
    CALL(VvcPpsRead, vvc_parse_pps(nal, 7, NONE, ALL), a.refused == VVC_WORK_BUFFER_TOO_SHORT);
    CALL(VvcPpsRead, vvc_parse_pps(nal, 2, NONE, ALL), a.refused == VVC_PICTURE_SIZE_ZERO);
    CALL(VvcPpsRead, vvc_parse_pps(nal, 7, work, 64, ALL), a.refused == 0 && a.bytes_taken == 5);
#define READ(...) CALL(VvcPpsRead, vvc_parse_pps(nal, 7, work, 64, __VA_ARGS__), a.refused == VVC_TABLE_TOO_SHORT);
    SIX_TIMES(READ)
}

static void writing(void) {
    CALL(VvcByteCount, vvc_write_pps(pps, triples, ALL, NONE, out, 64), a.refused == 0 && a.bytes == 5);
    CALL(VvcByteCount, vvc_write_pps(pps, triples, ALL, NONE, NONE), a.refused == VVC_OUTPUT_TOO_SHORT);
    CALL(VvcByteCount, vvc_write_pps(pps, triples, ALL, work, 64, NONE), a.refused == VVC_OUTPUT_TOO_SHORT);
    CALL(VvcByteCount, vvc_write_pps_nal(pps, triples, ALL, NONE, out, 64), a.refused == 0 && a.bytes == 7);
    CALL(VvcByteCount, vvc_write_pps_nal(pps, triples, ALL, NONE, NONE), a.refused == VVC_OUTPUT_TOO_SHORT);
    CALL(VvcByteCount, vvc_write_pps_nal(pps, triples, ALL, work, 64, NONE), a.refused == VVC_OUTPUT_TOO_SHORT);
#define WRITE(...) \
    CALL(VvcByteCount, vvc_write_pps(pps, triples, __VA_ARGS__, NONE, out, 64), a.refused == VVC_TABLE_TOO_SHORT); \
    CALL(VvcByteCount, vvc_write_pps_nal(pps, triples, __VA_ARGS__, NONE, out, 64), a.refused == VVC_TABLE_TOO_SHORT);
    SIX_TIMES(WRITE)
}

static void questions(void) {
    CALL(VvcCoverAnswer, vvc_cover(pps, ALL), a.kind == VVC_COVER_NONE && a.refused == 0);
#define ASK(...) \
    CALL(VvcGridAnswer, vvc_tile_grid(pps, __VA_ARGS__), a.refused == VVC_TABLE_TOO_SHORT); \
    CALL(VvcPlanAnswer, vvc_slice_plan(pps, __VA_ARGS__), a.refused == VVC_TABLE_TOO_SHORT); \
    CALL(VvcCoverAnswer, vvc_cover(pps, __VA_ARGS__), a.kind == VVC_COVER_REFUSED && a.refused == VVC_TABLE_TOO_SHORT);
    SIX_TIMES(ASK)
}

static void bit_readers(void) {
    CALL(VvcBitsRead, vvc_read_u(NONE, start, 8), a.value == 0 && a.next.at == 0 && a.next.refused == 0);
    CALL(VvcBitsRead, vvc_read_ue(NONE, start), a.value == 0 && a.next.at == 0 && a.next.refused == 0);
    CALL(VvcSignedRead, vvc_read_se(NONE, start), a.value == 0 && a.next.at == 0 && a.next.refused == 0);
    CALL(VvcCursor, vvc_read_rbsp_trailing_bits(NONE, start), a.refused == VVC_NO_STOP_BIT);
    CALL(bool, vvc_more_rbsp_data(NONE, 0), !a);
    CALL(bool, vvc_more_rbsp_data(NONE, SIZE_MAX), !a);
    CALL(size_t, vvc_extension_bits(NONE, 0), a == 0);
    CALL(size_t, vvc_extension_bits(NONE, SIZE_MAX), a == 0);
}

/* The bits put, whether or not the output holds them. */
static size_t bits(VvcSink w) {
    return w.refused == 0 ? w.put * 8 + w.have : SIZE_MAX;
}

static void bit_writers(void) {
    const VvcSink w = vvc_sink(false), escaping = vvc_sink(true);
    CALL(VvcSink, vvc_put_bit(w, NONE, 1), bits(a) == 1);
    CALL(VvcSink, vvc_put_bits(w, NONE, 0x1234567, 32), bits(a) == 32);
    CALL(VvcSink, vvc_put_bits(escaping, NONE, 0, 32), bits(a) == 40);
    CALL(VvcSink, vvc_put_ue(w, NONE, 5), bits(a) == 5);
    CALL(VvcSink, vvc_put_se(w, NONE, -3), bits(a) == 5);
    CALL(VvcSink, vvc_put_copy(w, NONE, nal, 7, 0, 9), bits(a) == 9);
    CALL(VvcSink, vvc_put_copy(w, out, 64, NONE, 0, 9), bits(a) == 9);
    CALL(VvcSink, vvc_put_copy(w, NONE, NONE, 0, 9), bits(a) == 9);
    CALL(VvcSink, vvc_close(w, NONE), bits(a) == 8);
    CALL(VvcByteCount, vvc_sink_answer(vvc_close(w, NONE), 0), a.refused == VVC_OUTPUT_TOO_SHORT);
}

int main(void) {
    pps.pps_pic_width_in_luma_samples = pps.pps_pic_height_in_luma_samples = 1;
    payloads();
    reading();
    writing();
    questions();
    bit_readers();
    bit_writers();
    printf("%u calls, %u wrong\n", calls, wrong);
    return wrong != 0;
}
