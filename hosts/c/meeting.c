/* A careful meeting of two units that is cut in the middle of a block and goes on
 * later. It ends with equal logs; then the asides are read out, a trace is looked
 * up and its folder listed. A unit that was started again uses a number twice, and
 * the next meeting notices it; it gets its log back. Last, the other unit folds,
 * and they meet again. */

#include "sab.h"

#include <stdio.h>
#include <stdlib.h>
#include <string.h>

enum { ARCHIVE = 7, UNITS = 2 };

/* What each unit keeps. */
static uint8_t logs[UNITS][SAB_LOG_BYTES], bases[UNITS][SAB_BASE_BYTES],
    indexes[UNITS][SAB_INDEX_BYTES];

/* Lent to the calls that need a tree; nothing is kept in it. */
static uint8_t work[SAB_WORK_BYTES];

static void stop(const char *what, uint32_t result)
{
    fprintf(stderr, "%s: refused %u at %u\n", what, (unsigned)SAB_NUMBER(result),
            (unsigned)SAB_PLACE(result));
    exit(1);
}

static unsigned get16(const uint8_t *bytes)
{
    return (unsigned)bytes[0] + 256u * bytes[1];
}

static void put16(uint8_t *bytes, unsigned number)
{
    bytes[0] = (uint8_t)(number & 0xFF);
    bytes[1] = (uint8_t)(number >> 8);
}

/* Makes every count above 0 one less: the last record of each unit comes again
 * and is compared. */
static void lower(uint8_t *vector)
{
    int u;
    for (u = 0; u < 8; u++)
        if (get16(vector + 2 * u) > 0)
            put16(vector + 2 * u, get16(vector + 2 * u) - 1);
}

/* Raises the counts that are below what one of the two has folded, where so many
 * are held: folded records are not compared, nor asked for again. */
static void raise_to_base(uint8_t *vector, const uint8_t *held, const uint8_t *folded)
{
    int u;
    for (u = 0; u < 8; u++)
        if (get16(vector + 2 * u) < get16(folded + 2 * u) &&
            get16(held + 2 * u) >= get16(folded + 2 * u))
            put16(vector + 2 * u, get16(folded + 2 * u));
}

/* Counts the records of a block that was taken: its units are 0 to 7. */
static void advance(uint8_t *vector, const uint8_t *block)
{
    int i;
    for (i = 0; i < block[9]; i++) {
        const uint8_t *record = block + 28 + SAB_RECORD_BYTES * i;
        uint8_t *count = vector + 2 * record[0];
        if (get16(record + 2) == get16(count) + 1)
            put16(count, get16(record + 2));
    }
}

/* A wish with today's date and, where there is one, a label. */
static void wish_of(uint8_t *wish, uint8_t unit, unsigned operation, const char *label)
{
    memset(wish, 0, SAB_RECORD_BYTES);
    wish[0] = unit;
    wish[1] = (uint8_t)operation;
    wish[28] = 2025 & 0xFF;
    wish[29] = 2025 >> 8;
    wish[30] = 3;
    wish[31] = 4;
    memcpy(wish + 32, label, strlen(label));
}

static void act(uint8_t unit, const uint8_t *wish)
{
    uint32_t r = sab_act(logs[unit], SAB_LOG_BYTES, bases[unit], SAB_BASE_BYTES, indexes[unit],
                         SAB_INDEX_BYTES, ARCHIVE, unit, wish, SAB_RECORD_BYTES, work,
                         SAB_WORK_BYTES);
    if (SAB_NUMBER(r) != SAB_OK)
        stop("act", r);
}

/* Makes a folder in the root. */
static void make_folder(uint8_t unit, const char *label)
{
    uint8_t wish[SAB_RECORD_BYTES];
    wish_of(wish, unit, SAB_MAKE_FOLDER, label);
    act(unit, wish);
}

/* Makes a trace in the folder 0.1; the mark names the trace's file. */
static void make_trace(uint8_t unit, const char *label, uint8_t mark)
{
    uint8_t wish[SAB_RECORD_BYTES];
    wish_of(wish, unit, SAB_MAKE_TRACE, label);
    wish[26] = 1;
    memset(wish + 64, mark, 16);
    act(unit, wish);
}

/* The link: passes a block on, or only its first bytes. */
static void carry(uint8_t *to, const uint8_t *block, size_t arriving)
{
    memset(to, 0, SAB_BLOCK_BYTES);
    memcpy(to, block, arriving);
}

/* Passes blocks from one unit to the other until nothing is lacking. The link
 * breaks within block `cut`, if it comes to that. Says whether all was passed. */
static int pass(uint8_t from, uint8_t to, int cut)
{
    uint8_t held[SAB_VECTOR_BYTES], asked[SAB_VECTOR_BYTES];
    uint8_t block[SAB_BLOCK_BYTES], arrived[SAB_BLOCK_BYTES];
    uint32_t r = sab_vector(logs[to], SAB_LOG_BYTES, bases[to], SAB_BASE_BYTES, held,
                            SAB_VECTOR_BYTES);
    int n;
    if (SAB_NUMBER(r) != SAB_OK)
        stop("vector", r);
    memcpy(asked, held, SAB_VECTOR_BYTES);
    lower(asked);
    raise_to_base(asked, held, bases[to] + 8);
    raise_to_base(asked, held, bases[from] + 8);
    for (n = 0;; n++) {
        r = sab_hand_out(logs[from], SAB_LOG_BYTES, bases[from], SAB_BASE_BYTES, ARCHIVE, from,
                         asked, SAB_VECTOR_BYTES, block, SAB_BLOCK_BYTES);
        if (SAB_NUMBER(r) != SAB_OK)
            stop("hand out", r);
        if (block[9] == 0)
            return 1;
        carry(arrived, block, n == cut ? 300 : SAB_BLOCK_BYTES);
        r = sab_take(logs[to], SAB_LOG_BYTES, bases[to], SAB_BASE_BYTES, indexes[to],
                     SAB_INDEX_BYTES, ARCHIVE, to, arrived, SAB_BLOCK_BYTES, work, SAB_WORK_BYTES);
        printf("unit %d to unit %d, %d records: %u\n", from, to, block[9],
               (unsigned)SAB_NUMBER(r));
        if (SAB_NUMBER(r) != SAB_OK)
            return 0;
        advance(asked, arrived);
    }
}

/* The tree of a unit. */
static void show(uint8_t unit, uint8_t *tree)
{
    uint32_t r = sab_show(logs[unit], SAB_LOG_BYTES, bases[unit], SAB_BASE_BYTES, tree,
                          SAB_TREE_BYTES);
    if (SAB_NUMBER(r) != SAB_OK)
        stop("show", r);
}

/* Units that have folded compare by their trees. */
static int show_the_same(void)
{
    static uint8_t trees[UNITS][SAB_TREE_BYTES];
    show(0, trees[0]);
    show(1, trees[1]);
    return memcmp(trees[0], trees[1], SAB_TREE_BYTES) == 0;
}

static void meet(int cut)
{
    if (pass(0, 1, cut) && pass(1, 0, -1))
        printf("met: the logs are %s, the trees are %s\n",
               memcmp(logs[0], logs[1], SAB_LOG_BYTES) == 0 ? "equal" : "not equal",
               show_the_same() ? "equal" : "not equal");
    else
        printf("not all was passed\n");
}

/* Folds what all of the listed units have heard of. */
static void fold(uint8_t unit, uint32_t list)
{
    uint32_t r = sab_fold(logs[unit], SAB_LOG_BYTES, bases[unit], SAB_BASE_BYTES, ARCHIVE, unit,
                          list, work, SAB_WORK_BYTES);
    if (SAB_NUMBER(r) != SAB_OK)
        stop("fold", r);
    printf("unit %d folds %u records\n", unit, (unsigned)SAB_COUNT(r));
}

static void print_identity(const uint8_t *identity)
{
    printf("%d.%u", identity[0], get16(identity + 2));
}

/* Prints the asides of a unit's tree. */
static void read_asides(uint8_t unit)
{
    static uint8_t tree[SAB_TREE_BYTES];
    const uint8_t *row = tree + SAB_TREE_ASIDES;
    unsigned left;
    show(unit, tree);
    printf("unit %d: %u entries, %u asides\n", unit, get16(tree), get16(tree + 2));
    for (left = get16(tree + 2); left > 0; left--, row += SAB_ASIDE_BYTES) {
        printf("aside ");
        print_identity(row);
        printf(" reason %d marks ", row[4]);
        if (row[8] == 0 && get16(row + 10) == 0)
            printf("-");
        else
            print_identity(row + 8);
        printf(" %s\n", row[5] == SAB_OPEN ? "open" : "settled");
    }
}

/* Looks up a label in the folder 0.1, then lists the first and the last label of
 * that folder, by the unit's index. */
static void look_up(uint8_t unit, const char *label)
{
    uint8_t asked[SAB_LABEL_BYTES] = {0}, range[SAB_RANGE_BYTES];
    const uint8_t *row;
    unsigned count;
    uint32_t r;
    memcpy(asked, label, strlen(label));
    r = sab_find(indexes[unit], SAB_INDEX_BYTES, 0, 1, asked, sizeof asked);
    if (SAB_NUMBER(r) != SAB_OK)
        stop("find", r);
    printf("unit %d: %s is ", unit, label);
    if (SAB_COUNT(r) != 0)
        printf("%u.%u", (unsigned)SAB_PLACE(r), (unsigned)SAB_COUNT(r));
    else
        printf("not there");
    r = sab_list(indexes[unit], SAB_INDEX_BYTES, 0, 1, range, sizeof range);
    if (SAB_NUMBER(r) != SAB_OK)
        stop("list", r);
    count = (unsigned)SAB_COUNT(r);
    printf("; %u entries", count);
    if (count > 0) {
        row = indexes[unit] + SAB_INDEX_ROWS + SAB_INDEX_ROW_BYTES * get16(range);
        printf(", %.32s", (const char *)(row + 4));
        row += SAB_INDEX_ROW_BYTES * (count - 1);
        printf(" to %.32s", (const char *)(row + 4));
    }
    printf("\n");
}

int main(void)
{
    static uint8_t card[SAB_FILE_BYTES];
    uint8_t unit, head[SAB_HEAD_BYTES];
    size_t length;
    uint32_t r;
    int i;
    char label[16];
    for (unit = 0; unit < UNITS; unit++)
        if (sab_start(logs[unit], SAB_LOG_BYTES, bases[unit], SAB_BASE_BYTES, indexes[unit],
                      SAB_INDEX_BYTES, ARCHIVE, unit) != SAB_OK)
            return 1;

    /* A common folder; then both work apart for a while. */
    make_folder(0, "Bench");
    meet(-1);
    for (i = 0; i < 13; i++) {
        sprintf(label, "Noise %d", i);
        make_trace(0, label, (uint8_t)i);
    }
    make_trace(1, "Gain \"A\"", 0x22);
    make_trace(1, "Noise 7", 0x33);

    /* Two of the three blocks pass, the last one in part. Then the rest. */
    meet(2);
    meet(-1);
    read_asides(0);
    read_asides(1);
    look_up(0, "Noise 7");
    look_up(1, "Noise");
    if (memcmp(logs[0], logs[1], SAB_LOG_BYTES) != 0)
        return 1;

    /* The card of unit 1. */
    r = sab_write_file(logs[1], SAB_LOG_BYTES, bases[1], SAB_BASE_BYTES, ARCHIVE, 1, card,
                       SAB_FILE_BYTES);
    if (SAB_NUMBER(r) != SAB_OK)
        stop("write", r);
    length = SAB_BLOCK_BYTES * SAB_COUNT(r);

    /* What must not be: unit 1 is started and acts before it has taken its
     * records back. Its 1.1 is another than the one that unit 0 holds. */
    if (sab_start(logs[1], SAB_LOG_BYTES, bases[1], SAB_BASE_BYTES, indexes[1], SAB_INDEX_BYTES,
                  ARCHIVE, 1) != SAB_OK)
        return 1;
    make_folder(1, "Spare");
    meet(-1);

    /* It gets its records back from its card. */
    r = sab_read_file(logs[1], SAB_LOG_BYTES, bases[1], SAB_BASE_BYTES, card, length, head,
                      SAB_HEAD_BYTES);
    if (SAB_NUMBER(r) != SAB_OK)
        stop("read", r);
    r = sab_index(logs[1], SAB_LOG_BYTES, bases[1], SAB_BASE_BYTES, indexes[1], SAB_INDEX_BYTES,
                  work, SAB_WORK_BYTES);
    if (SAB_NUMBER(r) != SAB_OK)
        stop("index", r);

    /* Unit 1 tells by a new record what it has heard; then unit 0 frees its log. */
    fold(0, 3);
    make_trace(1, "Sweep", 0x44);
    meet(-1);
    fold(0, 3);
    make_trace(0, "Drift", 0x55);
    meet(-1);
    return show_the_same() ? 0 : 1;
}
