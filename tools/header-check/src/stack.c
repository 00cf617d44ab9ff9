/* How much stack each call takes beside its answer: stack UNIT... reads the units of these files, makes the largest
 * sets beside them, lets every call run on a stack that is filled before, and prints for each the most that was
 * changed. */
#define _DEFAULT_SOURCE
#include "vvc_pps.h"

#include <pthread.h>
#include <stdio.h>
#include <string.h>
#include <sys/mman.h>

enum { STACK = 512 * 1024, FILL = 0xA7 };

static VvcPpsTables tables;
static VvcQpOffsetList triples;
static uint8_t nal[VVC_MAX_NAL_BYTES], work[VVC_MAX_NAL_BYTES], out[2 * VVC_MAX_NAL_BYTES];
static size_t nal_len;
static VvcPps pps;

static VvcCursor cursor;
static VvcSink sink;

#define TABLES VVC_PPS_TABLES_(&tables)
#define CALLS(CALL) \
    CALL(vvc_parse_pps, VvcPpsRead, nal, nal_len, work, sizeof work, TABLES) \
    CALL(vvc_write_pps, VvcByteCount, pps, triples, TABLES, work, sizeof work, out, sizeof out) \
    CALL(vvc_write_pps_nal, VvcByteCount, pps, triples, TABLES, work, sizeof work, out, sizeof out) \
    CALL(vvc_tile_grid, VvcGridAnswer, pps, TABLES) \
    CALL(vvc_slice_plan, VvcPlanAnswer, pps, TABLES) \
    CALL(vvc_cover, VvcCoverAnswer, pps, TABLES) \
    CALL(vvc_ebsp_to_rbsp, VvcByteCount, nal, nal_len, out, sizeof out) \
    CALL(vvc_rbsp_to_ebsp, VvcByteCount, nal, nal_len, out, sizeof out) \
    CALL(vvc_parse_nal_header, VvcNalHeaderRead, nal, nal_len) \
    CALL(vvc_ue_size, VvcUeSize, 5) \
    CALL(vvc_read_u, VvcBitsRead, nal, nal_len, cursor, 32) \
    CALL(vvc_read_ue, VvcBitsRead, nal, nal_len, cursor) \
    CALL(vvc_read_se, VvcSignedRead, nal, nal_len, cursor) \
    CALL(vvc_read_rbsp_trailing_bits, VvcCursor, nal, nal_len, cursor) \
    CALL(vvc_more_rbsp_data, bool, nal, nal_len, 0) \
    CALL(vvc_extension_bits, size_t, nal, nal_len, 0) \
    CALL(vvc_sink, VvcSink, true) \
    CALL(vvc_put_bit, VvcSink, sink, out, sizeof out, 1) \
    CALL(vvc_put_bits, VvcSink, sink, out, sizeof out, 0, 32) \
    CALL(vvc_put_ue, VvcSink, sink, out, sizeof out, 1000000) \
    CALL(vvc_put_se, VvcSink, sink, out, sizeof out, -1000000) \
    CALL(vvc_put_copy, VvcSink, sink, out, sizeof out, nal, nal_len, 3, nal_len) \
    CALL(vvc_close, VvcSink, sink, out, sizeof out) \
    CALL(vvc_sink_answer, VvcByteCount, sink, sizeof out) \
    CALL(vvc_version, uint32_t, ) \
    CALL(vvc_pps_read, VvcPpsRead, nal, nal_len, work, sizeof work, &tables) \
    CALL(vvc_pps_write, VvcByteCount, &pps, &tables, work, sizeof work, out, sizeof out) \
    CALL(vvc_pps_write_rbsp, VvcByteCount, &pps, &tables, work, sizeof work, out, sizeof out) \
    CALL(vvc_pps_grid, VvcGridAnswer, &pps, &tables) \
    CALL(vvc_pps_plan, VvcPlanAnswer, &pps, &tables) \
    CALL(vvc_pps_cover, VvcCoverAnswer, &pps, &tables)

/* The answer stands in the frame of this function. */
static volatile uint8_t seen;
#define FUNCTION(name, type, ...) \
    static void call_##name(void) { \
        const type answer = name(__VA_ARGS__); \
        seen = *(const uint8_t *)&answer; \
    }
CALLS(FUNCTION)

static struct {
    const char *name;
    void (*call)(void);
    size_t answer, most;
} calls[] = {
#define ENTRY(name, type, ...) { #name, call_##name, sizeof(type), 0 },
    CALLS(ENTRY)
};

enum { COUNT = sizeof calls / sizeof calls[0] };

static volatile uintptr_t frame;

static void *on_thread(void *call) {
    uint8_t here = 0;
    frame = (uintptr_t)&here;
    calls[*(const size_t *)call].call();
    return NULL;
}

static int measure(void) {
    uint8_t *stack = (uint8_t *)mmap(NULL, STACK, PROT_READ | PROT_WRITE, MAP_PRIVATE | MAP_ANONYMOUS, -1, 0);
    pthread_attr_t attributes;
    size_t i, untouched, taken;
    if (stack == MAP_FAILED || pthread_attr_init(&attributes) != 0)
        return 0;
    if (pthread_attr_setstack(&attributes, stack, STACK) != 0)
        return 0;
    for (i = 0; i < COUNT; i++) {
        pthread_t thread;
        memset(stack, FILL, STACK);
        if (pthread_create(&thread, &attributes, on_thread, &i) != 0 || pthread_join(thread, NULL) != 0)
            return 0;
        for (untouched = 0; untouched < STACK && stack[untouched] == FILL; untouched++) {
        }
        taken = frame - (uintptr_t)stack - untouched - calls[i].answer;
        if (taken > calls[i].most)
            calls[i].most = taken;
    }
    pthread_attr_destroy(&attributes);
    munmap(stack, STACK);
    return 1;
}

/* 990 slices in 30 × 33 tiles of one block; with 1,000 subpicture ids of 16 bits the set has over 2,000 bytes. */
static void make_largest(int many_ids) {
    static const VvcPps unpartitioned = VVC_PPS_INIT;
    VvcByteCount made;
    pps = unpartitioned;
    memset(&tables, 0, sizeof tables);
    pps.pps_pic_width_in_luma_samples = 30 * 32;
    pps.pps_pic_height_in_luma_samples = 33 * 32;
    pps.pps_no_pic_partition_flag = 0;
    pps.partition.present = 1;
    pps.partition.num_tile_column_widths = pps.partition.num_tile_row_heights = 1;
    pps.partition.pps_rect_slice_flag = 1;
    pps.partition.pps_num_slices_in_pic_minus1 = pps.partition.num_rect_slices = 989;
    if (many_ids) {
        pps.subpic_id_mapping.present = 1;
        pps.subpic_id_mapping.pps_num_subpics_minus1 = 999;
        pps.subpic_id_mapping.pps_subpic_id_len_minus1 = 15;
        pps.subpic_id_mapping.num_subpic_ids = 1000;
    }
    made = vvc_pps_write(&pps, &tables, NULL, 0, nal, sizeof nal);
    nal_len = made.bytes;
}

int main(int argc, char **argv) {
    int i, good = 1;
    for (i = 1; i < argc + 2; i++) {
        if (i < argc) {
            FILE *file = fopen(argv[i], "rb");
            if (file == NULL)
                return 2;
            nal_len = fread(nal, 1, sizeof nal, file);
            fclose(file);
        } else {
            make_largest(i > argc);
            good &= nal_len > 100;
        }
        pps = vvc_pps_read(nal, nal_len, work, sizeof work, &tables).pps;
        good &= measure();
    }
    for (i = 0; i < (int)COUNT; i++)
        printf("%s %zu\n", calls[i].name, calls[i].most);
    return good ? 0 : 1;
}
