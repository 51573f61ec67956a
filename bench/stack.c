/* stack FILE: the stack that each entry point uses on the first 0, 64, 256 and
 * all 512 records of a file. Each call runs in a thread that paints its stack
 * before; the lowest byte that lost its paint tells how far the call went. */

#define _DEFAULT_SOURCE

#include "sab.h"

#include <pthread.h>
#include <stdio.h>
#include <stdlib.h>
#include <string.h>
#include <sys/mman.h>

enum { STACK = 1 << 20, PAINT = 0xA7, ARCHIVE = 7, FULL = 512 };

/* The paint begins so far below the frame that paints; less is not seen. */
enum { MARGIN = 256 };

/* The buffers that the calls get. */
static uint8_t log_bytes[SAB_LOG_BYTES], full[SAB_LOG_BYTES], shorter[SAB_LOG_BYTES],
    block[SAB_BLOCK_BYTES], file[SAB_FILE_BYTES], out_file[SAB_FILE_BYTES],
    tree[SAB_TREE_BYTES], listing[SAB_LISTING_BYTES], length[SAB_LENGTH_BYTES],
    head[SAB_HEAD_BYTES], asked[SAB_VECTOR_BYTES], held[SAB_VECTOR_BYTES],
    lacks[SAB_LACKS_BYTES], wish[SAB_RECORD_BYTES], row[SAB_FILE_BYTES],
    copy[SAB_LOG_BYTES], report[SAB_REPORT_BYTES], index_bytes[SAB_INDEX_BYTES],
    range[SAB_RANGE_BYTES], base[SAB_BASE_BYTES], work[SAB_WORK_BYTES],
    sab2[SAB_SAB2_BYTES], out_sab2[SAB_SAB2_BYTES], names[SAB_NAME_BYTES * FULL],
    theirs[SAB_TREE_BYTES], logs[SAB_ROUND_BYTES], text[SAB_PLAN_TEXT_BYTES],
    plan[FULL * SAB_BLOCK_BYTES];
static size_t file_length, sab2_length, row_length, index_length, work_length,
    names_length, plan_length;
static uint32_t result;

static void run_compare(void)
{
    result = sab_compare(asked, sizeof asked, held, sizeof held, lacks, sizeof lacks);
}

static void run_vector(void)
{
    result = sab_vector(log_bytes, sizeof log_bytes, base, sizeof base, held, sizeof held);
}

static void run_start(void)
{
    result = sab_start(log_bytes, sizeof log_bytes, base, sizeof base, index_bytes, index_length,
                       ARCHIVE, 0);
}

static void run_act(void)
{
    result = sab_act(shorter, sizeof shorter, base, sizeof base, index_bytes, index_length,
                     ARCHIVE, 0, wish, sizeof wish, work, sizeof work);
}

static void run_hand_out(void)
{
    result = sab_hand_out(log_bytes, sizeof log_bytes, base, sizeof base, ARCHIVE, 0, asked,
                          sizeof asked, block, sizeof block);
}

static void run_take(void)
{
    result = sab_take(shorter, sizeof shorter, base, sizeof base, index_bytes, index_length,
                      ARCHIVE, 0, block, sizeof block, work, work_length);
}

static void run_hand_out_row(void)
{
    result = sab_hand_out_row(log_bytes, sizeof log_bytes, base, sizeof base, ARCHIVE, 0, asked,
                              sizeof asked, row, sizeof row);
}

static void run_take_row(void)
{
    result = sab_take_row(log_bytes, sizeof log_bytes, base, sizeof base, index_bytes,
                          index_length, ARCHIVE, 0, row, row_length, work, work_length);
}

static void run_try(void)
{
    result = sab_try(log_bytes, sizeof log_bytes, base, sizeof base, ARCHIVE, 0, row, row_length,
                     copy, sizeof copy, tree, sizeof tree, report, sizeof report);
}

static void run_fold(void)
{
    result = sab_fold(log_bytes, sizeof log_bytes, base, sizeof base, ARCHIVE, 0, 255, work,
                      sizeof work);
}

static void run_write_file(void)
{
    result = sab_write_file(log_bytes, sizeof log_bytes, base, sizeof base, ARCHIVE, 0, out_file,
                            sizeof out_file);
}

static void run_read_file(void)
{
    result = sab_read_file(log_bytes, sizeof log_bytes, base, sizeof base, file, file_length,
                           head, sizeof head);
}

static void run_write_sab2(void)
{
    result = sab_write_sab2(log_bytes, sizeof log_bytes, base, sizeof base, ARCHIVE, 0, out_sab2,
                            sizeof out_sab2);
}

static void run_read_sab2(void)
{
    result = sab_read_file(log_bytes, sizeof log_bytes, base, sizeof base, sab2, sab2_length,
                           head, sizeof head);
}

static void run_to_sab2(void)
{
    result = sab_to_sab2(file, file_length, out_sab2, sizeof out_sab2);
}

static void run_to_sab1(void)
{
    result = sab_to_sab1(sab2, sab2_length, out_file, sizeof out_file);
}

static void run_merge(void)
{
    result = sab_merge(file, file_length, file, file_length, log_bytes, sizeof log_bytes, out_file,
                       sizeof out_file);
}

static void run_try_plan(void)
{
    result = sab_try_plan(plan, plan_length, logs, sizeof logs, base, sizeof base, work,
                          sizeof work, text, sizeof text, length, sizeof length);
}

static void run_show(void)
{
    result = sab_show(log_bytes, sizeof log_bytes, base, sizeof base, tree, sizeof tree);
}

static void run_check_order(void)
{
    result = sab_check_order(log_bytes, sizeof log_bytes, base, sizeof base, names, names_length,
                             tree, sizeof tree, theirs, sizeof theirs);
}

static void run_index(void)
{
    result = sab_index(log_bytes, sizeof log_bytes, base, sizeof base, index_bytes,
                       sizeof index_bytes, work, sizeof work);
}

/* The folder and the label of the row in the middle. */
static const uint8_t *middle(void)
{
    return index_bytes + SAB_INDEX_ROWS + SAB_INDEX_ROW_BYTES * (index_bytes[0] / 2);
}

static void run_find(void)
{
    const uint8_t *row = middle();
    result = sab_find(index_bytes, sizeof index_bytes, row[0], row[2] + 256u * row[3], row + 4,
                      SAB_LABEL_BYTES);
}

static void run_list(void)
{
    const uint8_t *row = middle();
    result = sab_list(index_bytes, sizeof index_bytes, row[0], row[2] + 256u * row[3], range,
                      sizeof range);
}

static void run_listing(void)
{
    result = sab_listing(file, file_length, log_bytes, sizeof log_bytes, base, sizeof base, tree,
                         sizeof tree, listing, sizeof listing, length, sizeof length);
}

static void run_sab2_listing(void)
{
    result = sab_listing(sab2, sab2_length, log_bytes, sizeof log_bytes, base, sizeof base, tree,
                         sizeof tree, listing, sizeof listing, length, sizeof length);
}

/* A call; those that keep an index stand twice, without and with one. */
struct entry {
    const char *name;
    void (*run)(void);
    int indexed;
};

static const struct entry ENTRIES[] = {
    {"sab_compare", run_compare, 0},
    {"sab_vector", run_vector, 0},
    {"sab_start", run_start, 0},
    {"sab_start, with an index", run_start, 1},
    {"sab_act", run_act, 0},
    {"sab_act, with an index", run_act, 1},
    {"sab_hand_out", run_hand_out, 0},
    {"sab_take", run_take, 0},
    {"sab_take, with an index", run_take, 1},
    {"sab_write_file", run_write_file, 0},
    {"sab_write_sab2", run_write_sab2, 0},
    {"sab_read_file", run_read_file, 0},
    {"sab_read_file, SAB2", run_read_sab2, 0},
    {"sab_to_sab2", run_to_sab2, 0},
    {"sab_to_sab1", run_to_sab1, 0},
    {"sab_merge", run_merge, 0},
    {"sab_show", run_show, 0},
    {"sab_listing", run_listing, 0},
    {"sab_listing, SAB2", run_sab2_listing, 0},
    {"sab_hand_out_row", run_hand_out_row, 0},
    {"sab_take_row", run_take_row, 0},
    {"sab_take_row, with an index", run_take_row, 1},
    {"sab_try", run_try, 0},
    {"sab_fold", run_fold, 0},
    {"sab_check_order", run_check_order, 0},
    {"sab_index", run_index, 0},
    {"sab_find", run_find, 0},
    {"sab_list", run_list, 0},
    {"sab_try_plan", run_try_plan, 0},
};

static void fail(const char *what)
{
    fprintf(stderr, "%s\n", what);
    exit(1);
}

/* The stack of the thread, and what a call used of it. */
static uint8_t *stack;
static size_t used;

static void *in_thread(void *call)
{
    volatile uint8_t *at, *here = (uint8_t *)__builtin_frame_address(0);
    for (at = stack; at < here - MARGIN; at++)
        *at = PAINT;
    ((const struct entry *)call)->run();
    for (at = stack; at < here - MARGIN && *at == PAINT;)
        at++;
    used = (size_t)(here - at);
    return NULL;
}

/* Runs a call in a thread of its own. */
static void measure(const struct entry *call)
{
    pthread_attr_t how;
    pthread_t thread;
    if (pthread_attr_init(&how) != 0 || pthread_attr_setstack(&how, stack, STACK) != 0 ||
        pthread_create(&thread, &how, in_thread, (void *)call) != 0 ||
        pthread_join(thread, NULL) != 0)
        fail("no thread");
    pthread_attr_destroy(&how);
}

/* The first records of the full log. */
static void first(uint8_t *log, size_t records)
{
    memset(log, 0, SAB_LOG_BYTES);
    memcpy(log, full, SAB_RECORD_BYTES * records);
}

/* The names of the first records of the full log, by rank. */
static void name_all(size_t records)
{
    size_t i;
    for (i = 0; i < records; i++) {
        memcpy(names + SAB_NAME_BYTES * i, full + SAB_RECORD_BYTES * i, SAB_NAME_BYTES);
        names[SAB_NAME_BYTES * i + 1] = 0;
    }
    names_length = SAB_NAME_BYTES * records;
}

static size_t least(size_t a, size_t b)
{
    return a < b ? a : b;
}

/* A plan whose blocks each make a trace at unit 0 and pass it to unit 1. */
static void prepare_plan(size_t records)
{
    size_t i, j;
    memset(plan, 0, sizeof plan);
    plan_length = SAB_BLOCK_BYTES * records;
    for (i = 0; i < records; i++) {
        uint8_t *at = plan + SAB_BLOCK_BYTES * i, *record = at + 32;
        uint32_t first_sum = 0, second_sum = 0;
        memcpy(at, "PLN1\007", 5);
        at[9] = 2;
        at[28] = 1;
        memcpy(record, "\000\002", 2);
        memcpy(record + 28, "\xE9\x07\x03\x04", 4);
        sprintf((char *)record + 32, "Trace %lu", (unsigned long)i);
        memcpy(at + 112, "\002\000\001", 3);
        for (j = 0; j < 508; j += 2) {
            first_sum = (first_sum + at[j] + 256u * at[j + 1]) % 65521u;
            second_sum = (second_sum + first_sum) % 65521u;
        }
        at[508] = (uint8_t)first_sum;
        at[509] = (uint8_t)(first_sum >> 8);
        at[510] = (uint8_t)second_sum;
        at[511] = (uint8_t)(second_sum >> 8);
    }
}

/* Makes the buffers ready for a call on so many records. */
static void prepare(const struct entry *call, size_t records)
{
    uint32_t r;
    memset(base, 0, sizeof base);
    base[0] = 255;
    first(log_bytes, records);
    name_all(records);
    run_vector();
    memset(asked, 0, sizeof asked);
    r = sab_write_file(log_bytes, sizeof log_bytes, base, sizeof base, ARCHIVE, 0, file,
                       sizeof file);
    file_length = SAB_BLOCK_BYTES * SAB_COUNT(r);
    r = sab_to_sab2(file, file_length, sab2, sizeof sab2);
    sab2_length = SAB_BLOCK_BYTES * SAB_COUNT(r);
    if (call->run == run_take) {
        first(shorter, least(records, FULL - 6));
        sab_vector(shorter, sizeof shorter, base, sizeof base, asked, sizeof asked);
        r = sab_hand_out(full, sizeof full, base, sizeof base, ARCHIVE, 0, asked, sizeof asked,
                         block, sizeof block);
    } else if (call->run == run_take_row || call->run == run_try) {
        sab_vector(log_bytes, sizeof log_bytes, base, sizeof base, asked, sizeof asked);
        r = sab_hand_out_row(full, sizeof full, base, sizeof base, ARCHIVE, 0, asked,
                             sizeof asked, row, sizeof row);
        row_length = SAB_BLOCK_BYTES * SAB_COUNT(r);
    } else if (call->run == run_act) {
        first(shorter, least(records, FULL - 1));
    } else if (call->run == run_try_plan) {
        prepare_plan(records);
    }
    index_length = call->indexed ? sizeof index_bytes : 0;
    work_length = call->indexed ? sizeof work : 0;
    if (call->run == run_act || call->run == run_take)
        sab_index(shorter, sizeof shorter, base, sizeof base, index_bytes, sizeof index_bytes,
                  work, sizeof work);
    else
        run_index();
    if (SAB_NUMBER(r) != SAB_OK)
        fail("the file's records are refused");
}

/* Reads the file whose records are used. */
static void read_records(const char *name)
{
    FILE *from = fopen(name, "rb");
    if (from == NULL)
        fail("no such file");
    file_length = fread(file, 1, sizeof file, from);
    fclose(from);
    run_read_file();
    if (SAB_NUMBER(result) != SAB_OK || SAB_COUNT(result) != FULL)
        fail("not a file of 512 records");
    memcpy(full, log_bytes, sizeof full);
}

int main(int words, char **word)
{
    static const size_t sizes[4] = {0, 64, 256, FULL};
    size_t i, j, most = 0;
    if (words != 2)
        fail("usage: stack FILE");
    read_records(word[1]);
    memset(wish, 0, sizeof wish);
    memcpy(wish + 1, "\001", 1);
    memcpy(wish + 28, "\xE9\x07\x03\x04Gain, new", 13);
    stack = (uint8_t *)mmap(NULL, STACK, PROT_READ | PROT_WRITE, MAP_PRIVATE | MAP_ANONYMOUS, -1, 0);
    if (stack == MAP_FAILED)
        fail("no memory for a stack");
    printf("| call | 0 records | 64 | 256 | 512 |\n|---|---|---|---|---|\n");
    for (i = 0; i < sizeof ENTRIES / sizeof ENTRIES[0]; i++) {
        printf("| %s |", ENTRIES[i].name);
        for (j = 0; j < 4; j++) {
            prepare(&ENTRIES[i], sizes[j]);
            measure(&ENTRIES[i]);
            if (SAB_NUMBER(result) != SAB_OK)
                fail("a call is refused");
            most = used > most ? used : most;
            printf(used > MARGIN ? " %lu |" : " at most %lu |", (unsigned long)used);
        }
        printf("\n");
    }
    printf("\nmost: %lu bytes\n", (unsigned long)most);
    return 0;
}
