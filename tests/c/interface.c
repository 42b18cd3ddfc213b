/*
 * The C interface through include/axle.h: every call, every answer number, the marked store C1 to C10 byte by byte at every
 * allowance. Each call is made on a lent store and a lent record between canaries, at four alignments, and on blocks that end
 * where the lent bytes end, for valgrind to watch. What is told of inserts and recoveries beforehand is asked before each. The
 * last line is 'N passed, M failed'.
 */
#include <axle.h>
#include <stdio.h>
#include <stdlib.h>
#include <string.h>

#define MOST_WORDS 64
#define LONGEST_RECORD 40
#define ROOM 32 /* canary bytes on each side */

enum call {
    FORMAT, CHECK, LENGTH, INSERT, INSERT_SEVERAL, DELETE, RECOVER, MARK_WORN,
    FIRST_CELL, LAST_CELL, SEVERAL_STORES, RECOVER_STORES, /* told beforehand */
    CALLS
};
static const char *const call_names[CALLS] = {
    "format", "check", "length", "insert", "insert several", "delete", "recover", "mark worn",
    "first cell", "last cell", "several stores", "recover stores",
};

static unsigned long passed, failed;

static void holds(int right, const char *text, unsigned long a, unsigned long b)
{
    if (right)
        passed++;
    else if (failed++ < 20)
        printf("FAILED: %s (%lu, %lu)\n", text, a, b);
}

/* Bytes lent to a call, and the arguments. */
struct bytes {
    uint8_t at[2 * MOST_WORDS];
    size_t len;
};

struct arguments {
    enum call call;
    uint16_t list, position, start; /* format: lists, nodes, record words; mark: start is the cell */
    uint8_t record[LONGEST_RECORD];
    size_t record_len;
};

static struct bytes of_words(const uint16_t *words, size_t count)
{
    struct bytes b;
    memset(&b, 0, sizeof b);
    b.len = 2 * count;
    for (size_t i = 0; i < count; i++) {
        b.at[2 * i] = (uint8_t)(words[i] & 0xff);
        b.at[2 * i + 1] = (uint8_t)(words[i] >> 8);
    }
    return b;
}

/* Changes: pairs of a word's place and its value, in the order of their stores. */
struct change {
    size_t at;
    uint16_t value;
};

static struct bytes with(struct bytes b, const struct change *changes, size_t count)
{
    for (size_t i = 0; i < count; i++) {
        b.at[2 * changes[i].at] = (uint8_t)(changes[i].value & 0xff);
        b.at[2 * changes[i].at + 1] = (uint8_t)(changes[i].value >> 8);
    }
    return b;
}

#define WITH(b, ...) \
    with(b, (const struct change[]){__VA_ARGS__}, sizeof((const struct change[]){__VA_ARGS__}) / sizeof(struct change))

static uint32_t make(uint8_t *store, size_t len, const struct arguments *a, const uint8_t *record, uint16_t allowance)
{
    switch (a->call) {
    case FORMAT: return axle_format(store, len, a->list, a->position, a->start);
    case CHECK: return axle_check(store, len);
    case LENGTH: return axle_length(store, len, a->list);
    case INSERT: return axle_insert(store, len, a->list, a->position, a->start, record, a->record_len, allowance);
    case INSERT_SEVERAL:
        return axle_insert_several(store, len, a->list, a->position, a->start, record, a->record_len, allowance);
    case DELETE: return axle_delete(store, len, a->list, a->position, allowance);
    case MARK_WORN: return axle_mark_worn(store, len, a->start);
    case FIRST_CELL: return axle_insert_several_first_cell(store, len, a->list, a->position, a->start, record, a->record_len);
    case LAST_CELL: return axle_insert_several_last_cell(store, len, a->list, a->position, a->start, record, a->record_len);
    case SEVERAL_STORES: return axle_insert_several_stores(store, len, a->list, a->position, a->start, record, a->record_len);
    case RECOVER_STORES: return axle_recover_stores(store, len);
    default: return axle_recover(store, len, allowance);
    }
}

/* The answers of each call so far: refusals by their number, then done and stopped. */
static unsigned char seen[CALLS][16];

static void note(enum call call, uint32_t answer)
{
    size_t kind = axle_is_done(answer) ? 14 : axle_is_stopped(answer) ? 15 : answer < 14 ? answer : 0;
    seen[call][kind] = 1;
}

static int all(const uint8_t *at, size_t count, uint8_t value)
{
    for (size_t i = 0; i < count; i++)
        if (at[i] != value)
            return 0;
    return 1;
}

/* The call between canaries, `shift` bytes off an aligned place. */
static void between_canaries(const struct bytes *before, const struct arguments *a, uint16_t allowance, uint32_t answer,
                             const struct bytes *after, size_t shift)
{
    uint8_t store[2 * MOST_WORDS + 2 * ROOM + 4], record[LONGEST_RECORD + 2 * ROOM + 4];
    memset(store, 0xa5, sizeof store);
    memset(record, 0x5a, sizeof record);
    memcpy(store + ROOM + shift, before->at, before->len);
    memcpy(record + ROOM + shift, a->record, a->record_len);
    uint32_t got = make(store + ROOM + shift, before->len, a, record + ROOM + shift, allowance);
    holds(got == answer, call_names[a->call], got, answer);
    holds(memcmp(store + ROOM + shift, after->at, after->len) == 0, "the bytes left", a->call, allowance);
    size_t end = ROOM + shift + before->len, record_end = ROOM + shift + a->record_len;
    holds(all(store, ROOM + shift, 0xa5) && all(store + end, sizeof store - end, 0xa5), "bytes round the store", a->call,
          allowance);
    holds(all(record, ROOM + shift, 0x5a) && all(record + record_end, sizeof record - record_end, 0x5a) &&
              memcmp(record + ROOM + shift, a->record, a->record_len) == 0,
          "the record and the bytes round it", a->call, allowance);
}

/* The call on blocks that end where the lent bytes end; NULL for no bytes. */
static void in_blocks(const struct bytes *before, const struct arguments *a, uint16_t allowance, uint32_t answer,
                      const struct bytes *after)
{
    uint8_t *store = before->len ? malloc(before->len) : NULL;
    uint8_t *record = a->record_len ? malloc(a->record_len) : NULL;
    if ((before->len && !store) || (a->record_len && !record))
        exit(2);
    if (store)
        memcpy(store, before->at, before->len);
    if (record)
        memcpy(record, a->record, a->record_len);
    uint32_t got = make(store, before->len, a, record, allowance);
    holds(got == answer, call_names[a->call], got, answer);
    holds(before->len == 0 || memcmp(store, after->at, after->len) == 0, "the bytes left in a block", a->call, allowance);
    free(store);
    free(record);
}

/* The call answers so and leaves these bytes, wherever they lie. */
static void gives(struct bytes before, struct arguments a, uint16_t allowance, uint32_t answer, struct bytes after)
{
    note(a.call, answer);
    for (size_t shift = 0; shift < 4; shift++)
        between_canaries(&before, &a, allowance, answer, &after, shift);
    in_blocks(&before, &a, allowance, answer, &after);
}

/* This is told beforehand of an insert of several records, or of a recovery, and nothing is written. */
static void tells(struct bytes b, struct arguments a, uint32_t first, uint32_t last, uint32_t number)
{
    if (a.call == RECOVER) {
        a.call = RECOVER_STORES;
        gives(b, a, 0, number, b);
    }
    if (a.call == INSERT_SEVERAL) {
        a.call = FIRST_CELL;
        gives(b, a, 0, first, b);
        a.call = LAST_CELL;
        gives(b, a, 0, last, b);
        a.call = SEVERAL_STORES;
        gives(b, a, 0, number, b);
    }
}

/* The call is refused with this number, at every allowance. */
static void refused(struct bytes before, struct arguments a, uint32_t number)
{
    tells(before, a, number, number, number);
    for (uint16_t allowance = 0; allowance < 10; allowance++)
        gives(before, a, allowance, number, before);
    gives(before, a, AXLE_WHOLE, number, before);
}

/* What is told of a call that makes these stores: of an insert the values of its first and last central store, and how many they are. */
static void tells_of(struct bytes before, struct arguments a, const struct change *changes, size_t count)
{
    if (a.call == INSERT)
        a.call = INSERT_SEVERAL;
    uint16_t first = 0, last = 0;
    if (a.call == INSERT_SEVERAL)
        first = changes[AXLE_INSERT_CENTRAL(before.at[12]) - 1].value, last = changes[count - 2].value;
    tells(before, a, AXLE_DONE + first, AXLE_DONE + last, AXLE_DONE + (uint32_t)count);
}

/* The call makes these stores in their order: at every allowance the first of them. A recovery that is cut has the others left. Returns
   the bytes with all made. */
static struct bytes stores(struct bytes before, struct arguments a, const struct change *changes, size_t count)
{
    tells_of(before, a, changes, count);
    for (size_t n = 0; n <= count + 2; n++) {
        uint32_t answer = n < count ? AXLE_STOPPED + (uint32_t)n : AXLE_DONE + (uint32_t)count;
        gives(before, a, (uint16_t)n, answer, with(before, changes, n < count ? n : count));
        if (a.call == RECOVER && n <= count)
            tells(with(before, changes, n), a, 0, 0, AXLE_DONE + (uint32_t)(count - n));
    }
    struct bytes after = with(before, changes, count);
    gives(before, a, AXLE_WHOLE, AXLE_DONE + (uint32_t)count, after);
    return after;
}

#define STORES(before, a, ...)                                 \
    stores(before, a, (const struct change[]){__VA_ARGS__},    \
           sizeof((const struct change[]){__VA_ARGS__}) / sizeof(struct change))

static struct arguments plain(enum call call)
{
    struct arguments a;
    memset(&a, 0, sizeof a);
    a.call = call;
    return a;
}

static struct arguments format_of(uint16_t lists, uint16_t nodes, uint16_t record_words)
{
    struct arguments a = plain(FORMAT);
    a.list = lists, a.position = nodes, a.start = record_words;
    return a;
}

static struct arguments length_of(uint16_t list)
{
    struct arguments a = plain(LENGTH);
    a.list = list;
    return a;
}

/* An insert of a record of one word. */
static struct arguments insert_of(uint16_t list, uint16_t position, uint16_t start, uint16_t word)
{
    struct arguments a = plain(INSERT);
    a.list = list, a.position = position, a.start = start;
    a.record[0] = (uint8_t)(word & 0xff), a.record[1] = (uint8_t)(word >> 8);
    a.record_len = 2;
    return a;
}

/* An insert of so many records of one word. */
static struct arguments several_of(uint16_t list, uint16_t position, uint16_t start, size_t count, const uint16_t *words)
{
    struct arguments a = plain(INSERT_SEVERAL);
    struct bytes records = of_words(words, count);
    a.list = list, a.position = position, a.start = start;
    memcpy(a.record, records.at, records.len);
    a.record_len = records.len;
    return a;
}

static struct arguments with_record_of(struct arguments a, size_t len)
{
    memset(a.record, 0x11, sizeof a.record);
    a.record_len = len;
    return a;
}

static struct arguments delete_of(uint16_t list, uint16_t position)
{
    struct arguments a = plain(DELETE);
    a.list = list, a.position = position;
    return a;
}

static struct arguments mark_of(uint16_t cell)
{
    struct arguments a = plain(MARK_WORN);
    a.start = cell;
    return a;
}

/* The mark answers done with one store, the identifier at this word. Returns the bytes then. */
static struct bytes marks(struct bytes before, uint16_t cell, size_t at)
{
    struct bytes after = WITH(before, {at, AXLE_WORN});
    gives(before, mark_of(cell), 0, AXLE_DONE + 1, after);
    return after;
}

static const uint16_t c1_words[24] = {82, 66, 83, 1, 1, 3, 1, 0, 42400};
static struct bytes c1, c2, c3;

/* C1 to C10 of the marked store: one list, three nodes, records of one word. */
static void marked_store(void)
{
    c1 = of_words(c1_words, 24);
    struct bytes other = c1;
    memset(other.at, 0x77, other.len);
    gives(other, format_of(1, 3, 1), 0, 0, c1);
    gives(c1, plain(CHECK), 0, 0, c1);
    gives(c1, length_of(0), 0, AXLE_DONE, c1);
    refused(c1, delete_of(0, 0), 7);

    c2 = STORES(c1, insert_of(0, 0, 2, 700), {19, 700}, {17, 0}, {18, 0}, {16, 42400}, {11, 1}, {9, 2}, {10, 2});
    c3 = STORES(c2, insert_of(0, 1, 2, 512), {23, 512}, {21, 0}, {22, 2}, {20, 42400}, {11, 2}, {17, 3}, {10, 3});
    gives(c3, plain(CHECK), 0, 0, c3);
    gives(c3, length_of(0), 0, AXLE_DONE + 2, c3);

    /* C4 and C5: the second insert cut after 5 and after 6 stores; and after every other number. */
    struct bytes cut = WITH(c2, {23, 512}, {21, 0}, {22, 2}, {20, 42400}, {11, 2});
    refused(cut, plain(CHECK), 6);
    struct bytes back = STORES(cut, plain(RECOVER), {11, 1}, {20, 0}, {23, 0});
    gives(back, length_of(0), 0, AXLE_DONE + 1, back);
    cut = WITH(cut, {17, 3});
    refused(cut, plain(CHECK), 6);
    STORES(cut, plain(RECOVER), {10, 3});
    cut = WITH(c2, {23, 512}, {21, 0}, {22, 2}, {20, 42400});
    STORES(cut, plain(RECOVER), {20, 0}, {23, 0});
    stores(c3, plain(RECOVER), NULL, 0);
    STORES(WITH(c2, {23, 512}, {21, 0}, {22, 2}), plain(RECOVER), {23, 0});
    STORES(WITH(c2, {23, 512}), plain(RECOVER), {23, 0});

    /* C6 and C7: a delete cut after 1 and after 2 stores; and after 3 and 4. */
    struct bytes deleted = STORES(c3, delete_of(0, 0), {22, 0}, {9, 3}, {11, 1}, {16, 0}, {19, 0});
    gives(deleted, length_of(0), 0, AXLE_DONE + 1, deleted);
    STORES(WITH(c3, {22, 0}), plain(RECOVER), {22, 2});
    STORES(WITH(c3, {22, 0}, {9, 3}), plain(RECOVER), {11, 1}, {16, 0}, {19, 0});
    STORES(WITH(c3, {22, 0}, {9, 3}, {11, 1}), plain(RECOVER), {16, 0}, {19, 0});
    STORES(WITH(c3, {22, 0}, {9, 3}, {11, 1}, {16, 0}), plain(RECOVER), {19, 0});
    STORES(c3, delete_of(0, 1), {10, 2}, {17, 0}, {11, 1}, {20, 0}, {23, 0});

    /* C8: positions for insert. */
    refused(c3, insert_of(0, 3, 2, 9), 7);
    refused(c3, insert_of(0, 65535, 2, 9), 7);
    STORES(c3, insert_of(0, 2, 2, 9), {15, 9}, {13, 0}, {14, 3}, {12, 42400}, {11, 3}, {21, 1}, {10, 1});
    STORES(c3, insert_of(0, 0, 1, 0xfe01), {15, 0xfe01}, {13, 2}, {14, 0}, {12, 42400}, {11, 3}, {9, 1}, {18, 1});

    /* C9 and C10: two sequences fit, and none. */
    refused(WITH(c2, {12, 42400}, {13, 0}, {14, 0}, {9, 1}), plain(RECOVER), 12);
    refused(WITH(c3, {9, 9}, {10, 9}), plain(RECOVER), 11);
}

/* The count: of two sequences it tells the one that is taken, and a single one is taken whatever the count. It is stored last. */
static void wrong_counts(void)
{
    static const uint16_t counts[] = {0, 1, 2, 3, 4, 65535};
    static const size_t words[] = {8, 16, 20, 9, 10, 17, 18, 21, 22}; /* three identifiers, then links */
    struct bytes c9 = WITH(c2, {12, 42400}, {13, 0}, {14, 0}, {9, 1}, {15, 5});
    for (size_t i = 0; i < sizeof counts / sizeof *counts; i++) {
        /* C9: cell 1 in the place of cell 2, both sequences have one member. Then cell 1 before cell 2. */
        refused(WITH(c9, {11, counts[i]}), plain(RECOVER), AXLE_TWO_FIT);
        struct bytes before = WITH(c9, {13, 2}, {11, counts[i]});
        if (counts[i] == 1)
            STORES(before, plain(RECOVER), {9, 2}, {12, 0}, {15, 0});
        else if (counts[i] == 2)
            STORES(before, plain(RECOVER), {18, 1});
        else
            refused(before, plain(RECOVER), AXLE_TWO_FIT);

        /* The count and one other word: two stores. Cut between them the count is left wrong, and stored by the next call. */
        struct bytes miscounted = WITH(c3, {11, counts[i]});
        if (counts[i] == 2)
            continue;
        STORES(miscounted, plain(RECOVER), {11, 2});
        for (size_t j = 0; j < sizeof words / sizeof *words; j++) {
            struct bytes both = WITH(miscounted, {words[j], 9});
            uint16_t right = (uint16_t)(c3.at[2 * words[j]] + 256 * c3.at[2 * words[j] + 1]);
            struct bytes whole = STORES(both, plain(RECOVER), {words[j], right}, {11, 2});
            holds(memcmp(whole.at, c3.at, c3.len) == 0, "the list comes back whole", words[j], counts[i]);
            gives(both, plain(RECOVER), 1, AXLE_STOPPED + 1, miscounted);
        }
    }

    /* Nothing is promised of the count and a link that leads to a cell: one member, forward and count of the header 0, ends empty. */
    static const uint16_t smallest[16] = {82, 66, 83, 1, 1, 1, 1, 0, 42400, 0, 1, 0, 42400, 0, 0, 9};
    struct bytes empty = STORES(of_words(smallest, 16), plain(RECOVER), {10, 0}, {12, 0}, {15, 0});
    gives(empty, length_of(0), 0, AXLE_DONE, empty);
}

/* Several records: the stores of single inserts, one after the other, the next cell after the one just used. */
static void several_records(void)
{
    static const uint16_t words[] = {700, 512, 9, 8};
    struct bytes both = STORES(c1, several_of(0, 0, 2, 2, words),
                               {19, 700}, {17, 0}, {18, 0}, {16, 42400}, {11, 1}, {9, 2}, {10, 2},
                               {23, 512}, {21, 0}, {22, 2}, {20, 42400}, {11, 2}, {17, 3}, {10, 3});
    holds(memcmp(both.at, c3.at, c3.len) == 0, "several as one by one", 0, 0);
    struct bytes one = STORES(c2, several_of(0, 1, 2, 1, words + 1),
                              {23, 512}, {21, 0}, {22, 2}, {20, 42400}, {11, 2}, {17, 3}, {10, 3});
    holds(memcmp(one.at, c3.at, c3.len) == 0, "one of several as an insert", 0, 0);

    /* From the last cell on to the first: cells 3, 1 and 2; and past a member, cells 3 and 1. */
    STORES(c1, several_of(0, 0, 3, 3, words),
           {23, 700}, {21, 0}, {22, 0}, {20, 42400}, {11, 1}, {9, 3}, {10, 3},
           {15, 512}, {13, 0}, {14, 3}, {12, 42400}, {11, 2}, {21, 1}, {10, 1},
           {19, 9}, {17, 0}, {18, 1}, {16, 42400}, {11, 3}, {13, 2}, {10, 2});
    STORES(c2, several_of(0, 0, 2, 2, words + 2),
           {23, 9}, {21, 2}, {22, 0}, {20, 42400}, {11, 2}, {9, 3}, {18, 3},
           {15, 8}, {13, 2}, {14, 3}, {12, 42400}, {11, 3}, {21, 1}, {18, 1});

    /* Cut on both sides of the second record's central store, the thirteenth: with the first record alone, and with both. */
    struct bytes cut = WITH(c2, {23, 512}, {21, 0}, {22, 2}, {20, 42400}, {11, 2});
    gives(c1, several_of(0, 0, 2, 2, words), 12, AXLE_STOPPED + 12, cut);
    struct bytes first = STORES(cut, plain(RECOVER), {11, 1}, {20, 0}, {23, 0});
    gives(first, length_of(0), 0, AXLE_DONE + 1, first);
    cut = WITH(cut, {17, 3});
    gives(c1, several_of(0, 0, 2, 2, words), 13, AXLE_STOPPED + 13, cut);
    both = STORES(cut, plain(RECOVER), {10, 3});
    gives(both, length_of(0), 0, AXLE_DONE + 2, both);

    refused(c1, several_of(0, 0, 2, 4, words), 10);
    refused(c2, several_of(0, 1, 2, 3, words), 10);
    refused(c2, several_of(0, 2, 2, 3, words), 7);
    refused(c2, several_of(0, 1, 4, 3, words), 8);
}

/* What is told of the marked store, in memory that nobody may write: of C1, formatted, and of C4, an insert cut after 5 stores. */
static void told_beforehand(void)
{
    static const uint8_t formatted[48] = {82, 0, 66, 0, 83, 0, 1, 0, 1, 0, 3, 0, 1, 0, 0, 0, 0xa0, 0xa5};
    static const uint8_t cut[48] = {
        82, 0, 66, 0, 83, 0, 1, 0, 1, 0, 3, 0, 1, 0, 0, 0, /* words 0 to 7 */
        0xa0, 0xa5, 2, 0, 2, 0, 2, 0,                      /* the header counts 2 */
        0, 0, 0, 0, 0, 0, 0, 0,                            /* cell 1 is free */
        0xa0, 0xa5, 0, 0, 0, 0, 0xbc, 2,                   /* cell 2 has 700 */
        0xa0, 0xa5, 0, 0, 2, 0, 0, 2,                      /* cell 3 has 512, and no link leads to it */
    };
    static const uint8_t records[8] = {0};
    for (size_t len = 2; len <= sizeof records; len += 2) {
        uint32_t first = axle_insert_several_first_cell(formatted, 48, 0, 0, 3, records, len);
        uint32_t last = axle_insert_several_last_cell(formatted, 48, 0, 0, 3, records, len);
        uint32_t number = axle_insert_several_stores(formatted, 48, 0, 0, 3, records, len);
        holds(first == (len < 8 ? AXLE_DONE + 3 : AXLE_FULL), "the first of cells 3, 1, 2", first, len);
        holds(last == (len < 8 ? AXLE_DONE + (len == 2 ? 3 : len == 4 ? 1 : 2) : AXLE_FULL), "the last of them", last, len);
        holds(number == (len < 8 ? AXLE_DONE + 7 * len / 2 : AXLE_FULL), "their stores", number, len);
    }
    holds(axle_recover_stores(formatted, 48) == AXLE_DONE, "no store of a sound store", 0, 0);
    holds(axle_recover_stores(cut, 48) == AXLE_DONE + 3, "11 = 1, 20 = 0, 23 = 0", 0, 0);
    holds(axle_insert_several_stores(cut, 48, 0, 0, 3, records, 2) == AXLE_UNSOUND, "an insert before recovery", 0, 0);
    holds(axle_recover_stores(NULL, 0) == AXLE_SHORT, "no bytes", 0, 0);
    holds(axle_insert_several_stores(formatted, 48, 0, 0, 3, NULL, 0) == AXLE_RECORD_SIZE, "no records", 0, 0);
}

/* The marked store with cell 2 worn: the records go past it, to cells 3 and 1, and recovery lets it be. */
static void worn_nodes(void)
{
    static const uint16_t words[] = {700, 512, 9};
    for (uint16_t cell = 1; cell < 4; cell++) {
        struct bytes worn = marks(c1, cell, AXLE_NODE_WORD(1, 1, cell));
        refused(worn, mark_of(cell), AXLE_NOT_FREE);
    }
    refused(c1, mark_of(0), AXLE_NO_NODE);
    refused(c1, mark_of(4), AXLE_NO_NODE);
    refused(c1, mark_of(65535), AXLE_NO_NODE);

    struct bytes w1 = WITH(marks(WITH(c1, {17, 3}, {18, 0x8001}), 2, 16), {19, 77});
    gives(w1, plain(CHECK), 0, 0, w1);
    stores(w1, plain(RECOVER), NULL, 0);
    gives(w1, length_of(0), 0, AXLE_DONE, w1);
    struct bytes w2 = STORES(w1, insert_of(0, 0, 2, 700),
                             {23, 700}, {21, 0}, {22, 0}, {20, 42400}, {11, 1}, {9, 3}, {10, 3});
    struct bytes w3 = STORES(w2, insert_of(0, 1, 2, 512),
                             {15, 512}, {13, 0}, {14, 3}, {12, 42400}, {11, 2}, {21, 1}, {10, 1});
    struct bytes both = STORES(w1, several_of(0, 0, 2, 2, words),
                               {23, 700}, {21, 0}, {22, 0}, {20, 42400}, {11, 1}, {9, 3}, {10, 3},
                               {15, 512}, {13, 0}, {14, 3}, {12, 42400}, {11, 2}, {21, 1}, {10, 1});
    holds(memcmp(both.at, w3.at, w3.len) == 0, "several past a worn node", 0, 0);
    struct bytes end = marks(c1, 3, 20); /* from the last cell on to the first */
    STORES(end, insert_of(0, 0, 3, 9), {15, 9}, {13, 0}, {14, 0}, {12, 42400}, {11, 1}, {9, 1}, {10, 1});
    refused(w1, several_of(0, 0, 2, 3, words), AXLE_FULL);
    refused(w2, several_of(0, 1, 1, 2, words), AXLE_FULL);
    refused(w3, insert_of(0, 0, 2, 9), AXLE_FULL);
    refused(w3, several_of(0, 0, 1, 1, words), AXLE_FULL);

    /* Members and worn nodes are not free; what is deleted is. */
    for (uint16_t cell = 1; cell < 4; cell++)
        refused(w3, mark_of(cell), AXLE_NOT_FREE);
    struct bytes deleted = STORES(w3, delete_of(0, 0), {14, 0}, {9, 1}, {11, 1}, {20, 0}, {23, 0});
    struct bytes last = marks(deleted, 3, 20);
    refused(last, insert_of(0, 0, 3, 9), AXLE_FULL);
    gives(last, length_of(0), 0, AXLE_DONE + 1, last);

    /* Cuts: the worn node keeps its words. */
    STORES(WITH(w2, {15, 512}, {13, 0}, {14, 3}, {12, 42400}), plain(RECOVER), {12, 0}, {15, 0});
    STORES(WITH(w2, {15, 512}, {13, 0}, {14, 3}, {12, 42400}, {11, 2}), plain(RECOVER), {11, 1}, {12, 0}, {15, 0});
    STORES(WITH(w2, {15, 512}, {13, 0}, {14, 3}, {12, 42400}, {11, 2}, {21, 1}), plain(RECOVER), {10, 1});
    STORES(WITH(w3, {14, 0}, {9, 1}), plain(RECOVER), {11, 1}, {20, 0}, {23, 0});

    /* Worn is judged after membership: cells 3 and 1 are members, and the header is one's too. */
    STORES(WITH(w3, {20, AXLE_WORN}), plain(RECOVER), {20, 42400});
    STORES(WITH(w3, {8, AXLE_WORN}), plain(RECOVER), {8, 42400});
    STORES(WITH(w2, {20, AXLE_WORN}, {12, 7}), plain(RECOVER), {20, 42400}, {12, 0});
    refused(WITH(w3, {20, AXLE_WORN}), plain(CHECK), AXLE_UNSOUND);
    /* In no list: to 65,535 the store is sound, and from it to 0 if the record is 0. From it to another value the mark is lost. */
    struct bytes two = WITH(w2, {12, AXLE_WORN}), none = WITH(w2, {16, 0}, {19, 0});
    gives(two, plain(CHECK), 0, 0, two);
    stores(two, plain(RECOVER), NULL, 0);
    gives(none, plain(CHECK), 0, 0, none);
    stores(none, plain(RECOVER), NULL, 0);
    refused(WITH(w2, {16, 0}), plain(CHECK), AXLE_UNSOUND);
    STORES(WITH(w2, {16, 0}), plain(RECOVER), {19, 0});
    refused(WITH(w2, {16, 65534}), plain(CHECK), AXLE_UNSOUND);
    STORES(WITH(w2, {16, 65534}), plain(RECOVER), {16, 0}, {19, 0});

    /* All nodes worn. */
    struct bytes all_worn = WITH(c1, {12, AXLE_WORN}, {16, AXLE_WORN}, {20, AXLE_WORN}, {21, AXLE_WORN}, {23, 5});
    gives(all_worn, plain(CHECK), 0, 0, all_worn);
    stores(all_worn, plain(RECOVER), NULL, 0);
    refused(all_worn, delete_of(0, 0), AXLE_NO_POSITION);
    for (uint16_t cell = 1; cell < 4; cell++) {
        refused(all_worn, insert_of(0, 0, cell, 9), AXLE_FULL);
        refused(all_worn, several_of(0, 0, cell, 1, words), AXLE_FULL);
        refused(all_worn, mark_of(cell), AXLE_NOT_FREE);
    }
}

/* The calls that ask whether the store is sound answer so. */
static void unsound(struct bytes b)
{
    static const uint16_t word = 9;
    refused(b, plain(CHECK), AXLE_UNSOUND);
    refused(b, length_of(0), AXLE_UNSOUND);
    refused(b, insert_of(0, 0, 1, word), AXLE_UNSOUND);
    refused(b, several_of(0, 0, 1, 1, &word), AXLE_UNSOUND);
    refused(b, delete_of(0, 0), AXLE_UNSOUND);
    refused(b, mark_of(1), AXLE_UNSOUND);
}

/* Older stores, in which what was deleted is left: refused until they are recovered. */
static void older_stores(void)
{
    struct bytes older = WITH(c3, {22, 0}, {9, 3}, {11, 1}, {16, 0});
    unsound(older);
    struct bytes wiped = STORES(older, plain(RECOVER), {19, 0});
    gives(wiped, plain(CHECK), 0, 0, wiped);
    gives(wiped, length_of(0), 0, AXLE_DONE + 1, wiped);
    marks(wiped, 2, 16);
    STORES(wiped, delete_of(0, 0), {10, 0}, {9, 0}, {11, 0}, {20, 0}, {23, 0});

    /* Both records left, an orphan among them, and a wrong count: identifiers are cleared before records. */
    older = WITH(c1, {11, 7}, {12, 5}, {15, 1}, {19, 700}, {20, 42400}, {23, 0xff00});
    unsound(older);
    STORES(older, plain(RECOVER), {11, 0}, {12, 0}, {20, 0}, {15, 0}, {19, 0}, {23, 0});

    /* A word in a free node's record, in a worn one's and in a member's. */
    for (size_t bit = 0; bit < 16; bit++) {
        uint16_t word = (uint16_t)(1u << bit);
        struct bytes b = WITH(c3, {15, word});
        unsound(b);
        STORES(b, plain(RECOVER), {15, 0});
        b = WITH(b, {12, AXLE_WORN});
        gives(b, plain(CHECK), 0, 0, b);
        stores(b, plain(RECOVER), NULL, 0);
        b = WITH(c3, {19, word});
        gives(b, plain(CHECK), 0, 0, b);
        stores(b, plain(RECOVER), NULL, 0);
    }
}

/* Is a word of the record in these bytes, at any place? */
static int found(const uint8_t *at, size_t len, const uint8_t *record, size_t record_len)
{
    for (size_t i = 0; i + 2 <= len; i++)
        for (size_t j = 0; j + 2 <= record_len; j += 2)
            if (memcmp(at + i, record + j, 2) == 0)
                return 1;
    return 0;
}

/* A record of five words between two others, deleted; the power fails after any store of it, and of the recovery. From the central store
   on no word of it is left once the store is recovered. */
static void nothing_remains(void)
{
    enum { LEN = 2 * (8 + 4 * 2 + 8 * 4) };
    uint8_t full[LEN], record[3][10];
    holds(axle_format(full, LEN, 2, 4, 5) == 0, "format", 0, 0);
    for (unsigned i = 0; i < 3; i++) {
        for (unsigned j = 0; j < 10; j++)
            record[i][j] = (uint8_t)(0x60 + 0x20 * (i % 2) + 10 * (i / 2) + j);
        uint32_t answer = axle_insert(full, LEN, 1, (uint16_t)i, 3, record[i], 10, AXLE_WHOLE);
        holds(answer == AXLE_DONE + AXLE_INSERT_STORES(5), "a record of five words", answer, i);
    }
    for (uint16_t n = 0; n <= AXLE_DELETE_STORES(5); n++)
        for (uint16_t m = 0; m <= AXLE_RECOVER_STORES(2, 4, 5); m++) {
            uint8_t store[LEN];
            memcpy(store, full, LEN);
            uint32_t answer = axle_delete(store, LEN, 1, 1, n);
            holds(answer == (n < 9 ? AXLE_STOPPED : AXLE_DONE) + n, "a delete of five words", answer, n);
            holds(n < 9 || !found(store, LEN, record[1], 10), "what is left after a delete", n, m);
            axle_recover(store, LEN, m);
            uint32_t told = axle_recover_stores(store, LEN);
            answer = axle_recover(store, LEN, AXLE_WHOLE);
            holds(axle_is_done(answer) && axle_check(store, LEN) == 0, "recovery of a cut delete", answer, n);
            holds(told == answer && axle_recover_stores(store, LEN) == AXLE_DONE, "what is told of it", told, answer);
            int there = n < AXLE_DELETE_CENTRAL;
            holds(there ? memcmp(store, full, LEN) == 0 : !found(store, LEN, record[1], 10), "what is left of it", n, m);
            holds(found(store, LEN, record[0], 10) && found(store, LEN, record[2], 10), "the other records", n, m);
        }
}

/* The largest store with its nodes worn but for the last: from the first node on it is used. Then it is marked too. */
static void wear_out(uint8_t *large, size_t len)
{
    uint8_t record[AXLE_RECORD_BYTES(13)] = {0};
    size_t last = 2 * AXLE_NODE_WORD(8, 13, 2007);
    axle_format(large, len, 8, 2000, 13);
    for (uint16_t cell = 8; cell < 2007; cell++) {
        uint32_t answer = axle_mark_worn(large, len, cell);
        holds(answer == AXLE_DONE + 1, "a mark in the largest store", answer, cell);
    }
    holds(axle_check(large, len) == 0 && axle_recover(large, len, 0) == AXLE_DONE, "nearly all nodes worn", 0, 0);
    uint32_t told = axle_insert_several_first_cell(large, len, 4, 0, 8, record, sizeof record);
    holds(told == AXLE_DONE + 2007 && told == axle_insert_several_last_cell(large, len, 4, 0, 8, record, sizeof record),
          "the only cell", told, 0);
    uint32_t answer = axle_insert(large, len, 4, 0, 8, record, sizeof record, AXLE_WHOLE);
    holds(answer == AXLE_DONE + 19 && large[last] == 0xa4 && large[last + 1] == 0xa5, "an insert past them", answer, 0);
    answer = axle_mark_worn(large, len, 2007);
    holds(answer == AXLE_NOT_FREE, "a mark of a member", answer, 0);
    answer = axle_delete(large, len, 4, 0, AXLE_WHOLE);
    holds(answer == AXLE_DONE + AXLE_DELETE_STORES(13), "its delete", answer, 0);
    answer = axle_mark_worn(large, len, 2007);
    holds(answer == AXLE_DONE + 1 && large[last] == 0xff && large[last + 1] == 0xff, "a mark of the last node", answer, 0);
    answer = axle_insert(large, len, 4, 0, 8, record, sizeof record, AXLE_WHOLE);
    holds(answer == AXLE_FULL && axle_check(large, len) == 0, "all nodes worn", answer, 0);
}

/* The call as a figure is asked of it. */
static struct arguments told_of(struct arguments a, enum call figure)
{
    a.call = figure;
    return a;
}

/* Every call that opens a store. */
static const size_t OPENING = 11;
static struct arguments opening(size_t i)
{
    switch (i) {
    case 0: return plain(CHECK);
    case 1: return length_of(0);
    case 2: return insert_of(0, 0, 1, 5);
    case 3: return delete_of(0, 0);
    case 4: return several_of(0, 0, 1, 2, c1_words);
    case 5: return mark_of(1);
    case 6: return plain(RECOVER);
    case 7: return plain(RECOVER_STORES);
    case 8: return told_of(opening(4), FIRST_CELL);
    case 9: return told_of(opening(4), LAST_CELL);
    default: return told_of(opening(4), SEVERAL_STORES);
    }
}

static void lengths_and_heads(void)
{
    struct bytes none = c3;
    none.len = 0;
    for (size_t i = 0; i < OPENING; i++) {
        refused(none, opening(i), 1);
        for (size_t len = 0; len <= 2 * MOST_WORDS; len++) {
            struct bytes b = c3;
            b.len = len;
            if (len != 48)
                gives(b, opening(i), AXLE_WHOLE, len % 2 ? 4 : len < 16 ? 1 : 4, b);
        }
        for (size_t at = 0; at < 8; at++) {
            struct bytes b = WITH(c3, {at, 0x5201});
            refused(b, opening(i), at == 4 || at == 5 || at == 6 ? 3 : 2);
            b.len = 47;
            refused(b, opening(i), 4);
            b.len = 14;
            refused(b, opening(i), 1);
        }
        refused(WITH(c3, {4, 0}), opening(i), 3);
        refused(WITH(c3, {5, 2001}), opening(i), 3);
        refused(WITH(c3, {6, 14}), opening(i), 3);
        refused(WITH(c3, {5, 4}), opening(i), 4);
    }
}

/* The largest store filled by one call, cut before its last store, and whole. */
static void fill_at_once(uint8_t *large, size_t len)
{
    size_t records_len = 2000 * AXLE_RECORD_BYTES(13);
    uint8_t *records = calloc(records_len + AXLE_RECORD_BYTES(13), 1);
    if (!records)
        exit(2);
    uint16_t whole = AXLE_INSERT_SEVERAL_STORES(13, 2000);
    axle_format(large, len, 8, 2000, 13);
    uint32_t answer = axle_insert_several(large, len, 7, 0, 1000, records, records_len + AXLE_RECORD_BYTES(13), AXLE_WHOLE);
    holds(answer == AXLE_FULL, "one record too many", answer, 0);
    answer = axle_insert_several_stores(large, len, 7, 0, 1000, records, records_len + AXLE_RECORD_BYTES(13));
    holds(answer == AXLE_FULL, "that it is one too many", answer, 0);
    answer = axle_insert_several_stores(large, len, 7, 0, 1000, records, records_len);
    holds(answer == AXLE_DONE + 38000, "the stores of 2,000 records", answer, 0);
    answer = axle_insert_several_first_cell(large, len, 7, 0, 1000, records, records_len);
    holds(answer == AXLE_DONE + 1000, "the first of their cells", answer, 0);
    answer = axle_insert_several_last_cell(large, len, 7, 0, 1000, records, records_len);
    holds(answer == AXLE_DONE + 999, "the last of their cells", answer, 0);
    answer = axle_insert_several(large, len, 7, 0, 1000, records, records_len, (uint16_t)(whole - 1));
    holds(answer == AXLE_STOPPED + 37999, "2,000 records, cut before the last store", answer, 0);
    answer = axle_recover(large, len, AXLE_WHOLE);
    holds(answer == AXLE_DONE + 1, "recovery then", answer, 0);
    axle_format(large, len, 8, 2000, 13);
    answer = axle_insert_several(large, len, 7, 0, 1000, records, records_len, AXLE_WHOLE);
    holds(answer == AXLE_DONE + 38000, "2,000 records", answer, 0);
    answer = axle_length(large, len, 7);
    holds(answer == AXLE_DONE + 2000 && axle_check(large, len) == 0, "their number", answer, 0);
    answer = axle_insert_several(large, len, 7, 0, 1000, records, AXLE_RECORD_BYTES(13), AXLE_WHOLE);
    holds(answer == AXLE_FULL, "no node free", answer, 0);
    free(records);
}

static void formats(void)
{
    struct bytes b = c3;
    refused(b, format_of(0, 3, 1), 3);
    refused(b, format_of(9, 3, 1), 3);
    refused(b, format_of(1, 0, 1), 3);
    refused(b, format_of(1, 2001, 1), 3);
    refused(b, format_of(1, 3, 0), 3);
    refused(b, format_of(1, 3, 14), 3);
    refused(b, format_of(65535, 65535, 65535), 3);
    refused(b, format_of(1, 4, 1), 4);
    refused(b, format_of(8, 2000, 13), 4);
    for (size_t len = 0; len <= 2 * MOST_WORDS; len++) {
        b.len = len;
        if (len != 48)
            gives(b, format_of(1, 3, 1), 0, 4, b);
        if (len % 2)
            gives(b, format_of(0, 3, 1), 0, 4, b);
        else
            gives(b, format_of(0, 3, 1), 0, 3, b);
    }

    /* The largest store, in memory that nobody has written yet. */
    size_t len = AXLE_STORE_BYTES(AXLE_MAX_LISTS, AXLE_MAX_NODES, AXLE_MAX_RECORD_WORDS);
    uint8_t *large = malloc(len), record[26] = {0};
    if (!large)
        exit(2);
    holds(len == AXLE_MAX_STORE_BYTES, "the most bytes of a store", len, 0);
    uint32_t answer = axle_format(large, len, 8, 2000, 13);
    holds(answer == 0, "format of the largest store", answer, 0);
    answer = axle_check(large, len);
    holds(answer == 0, "check of the largest store", answer, 0);
    for (unsigned i = 0; i < 2000; i++) {
        answer = axle_insert(large, len, (uint16_t)(i % 8), 0, 2007, record, sizeof record, AXLE_WHOLE);
        holds(answer == AXLE_DONE + 19, "insert in the largest store", answer, i);
    }
    answer = axle_insert(large, len, 7, 0, 8, record, sizeof record, AXLE_WHOLE);
    holds(answer == AXLE_FULL, "insert in the largest store, full", answer, 0);
    for (uint16_t list = 0; list < 8; list++) {
        answer = axle_length(large, len, list);
        holds(answer == AXLE_DONE + 250, "length in the largest store", answer, list);
    }
    wear_out(large, len);
    fill_at_once(large, len);
    for (uint16_t list = 0; list < 8; list++)
        large[2 * AXLE_HEADER_WORD(list) + 1] ^= 0x10; /* a fault in every header's identifier */
    answer = axle_recover(large, len, 7);
    holds(answer == AXLE_STOPPED + 7, "recovery of the largest store, cut", answer, 0);
    answer = axle_recover(large, len, AXLE_WHOLE);
    holds(answer == AXLE_DONE + 1, "recovery of the largest store", answer, 0);
    for (uint16_t cell = 8; cell < 2008; cell++)
        large[2 * AXLE_NODE_WORD(8, 13, cell)] = 1; /* every node's identifier */
    answer = axle_recover(large, len, AXLE_WHOLE);
    holds(answer == AXLE_NO_FIT, "recovery of nothing", answer, 0);
    axle_format(large, len, 8, 2000, 13);
    for (uint16_t list = 0; list < 8; list++)
        large[2 * AXLE_HEADER_WORD(list)] = large[2 * AXLE_HEADER_WORD(list) + 6] = 1; /* every header's identifier and count */
    memset(large + 2 * AXLE_NODE_WORD(8, 13, 8), 1, 2000 * 2 * (3 + 13)); /* every word of every node */
    uint16_t most = AXLE_RECOVER_STORES(8, 2000, 13);
    answer = axle_recover_stores(large, len);
    holds(answer == AXLE_DONE + 28016, "the most stores, told", answer, 0);
    answer = axle_recover(large, len, (uint16_t)(most - 1));
    holds(answer == AXLE_STOPPED + 28015, "the most stores, cut before the last", answer, 0);
    answer = axle_recover_stores(large, len);
    holds(answer == AXLE_DONE + 1, "the last of them, told", answer, 0);
    holds(axle_check(large, len) == AXLE_UNSOUND, "a word is left", 0, 0);
    answer = axle_recover(large, len, AXLE_WHOLE);
    holds(answer == AXLE_DONE + 1, "the most stores, the last", answer, 0);
    holds(axle_check(large, len) == 0 && most == 28016, "sound then", 0, 0);
    free(large);
}

/* Questions 5 to 10 and 13, each asked before the next: all reasons at once, then one less at a time. */
static void questions(void)
{
    struct bytes full = STORES(c3, insert_of(0, 2, 1, 9), {15, 9}, {13, 0}, {14, 3}, {12, 42400}, {11, 3}, {21, 1}, {10, 1});
    struct bytes damaged = WITH(full, {11, 2});
    struct arguments a = with_record_of(insert_of(1, 4, 0, 9), 3);
    refused(damaged, a, 5);
    refused(damaged, length_of(1), 5);
    refused(damaged, delete_of(65535, 3), 5);
    a.list = 0;
    refused(damaged, a, 6);
    refused(damaged, length_of(0), 6);
    refused(damaged, delete_of(0, 3), 6);
    refused(damaged, plain(CHECK), 6);
    refused(full, a, 7);
    refused(full, delete_of(0, 3), 7);
    a.position = 3;
    refused(full, a, 8);
    a.start = 4;
    refused(full, a, 8);
    a.start = 3;
    for (size_t len = 0; len <= LONGEST_RECORD; len++)
        refused(full, with_record_of(a, len), len == 2 ? 10 : 9);

    /* The same of several records. */
    a.call = INSERT_SEVERAL, a.list = 1, a.position = 4, a.start = 0;
    refused(damaged, a, 5);
    a.list = 0;
    refused(damaged, a, 6);
    refused(full, a, 7);
    a.position = 3;
    refused(full, a, 8);
    a.start = 4;
    refused(full, a, 8);
    a.start = 3;
    for (size_t len = 0; len <= LONGEST_RECORD; len++)
        refused(full, with_record_of(a, len), len % 2 || len == 0 ? 9 : 10);
    gives(full, length_of(0), 0, AXLE_DONE + 3, full);

    /* A mark: of the header and of a member, of what is no cell. */
    for (size_t i = 0; i < 3; i++) {
        a = mark_of((uint16_t[]){0, 3, 4}[i]);
        refused(WITH(damaged, {7, 1}, {6, 0}), a, AXLE_NO_STORE);
        refused(WITH(damaged, {6, 0}), a, AXLE_RANGE);
        refused(WITH(damaged, {6, 2}), a, AXLE_SIZE);
        refused(damaged, a, AXLE_UNSOUND);
        refused(full, a, i == 1 ? AXLE_NOT_FREE : AXLE_NO_NODE);
        struct bytes odd = full;
        odd.len--;
        refused(odd, a, AXLE_SIZE);
    }

    /* A store of two lists and records of two words. */
    static const uint16_t words[31] = {82, 66, 83, 1, 2, 3, 2, 0, 42400, 0, 0, 0, 42401, 1, 1, 0};
    struct bytes two = of_words(words, 31);
    struct bytes other = two;
    memset(other.at, 0xff, other.len);
    gives(other, format_of(2, 3, 2), 0, 0, two);
    for (size_t len = 0; len <= LONGEST_RECORD; len++)
        if (len != 4)
            refused(two, with_record_of(insert_of(1, 0, 4, 0), len), 9);
    for (size_t len = 0; len <= LONGEST_RECORD; len++)
        if (len != 4 && len != 8 && len != 12)
            refused(two, with_record_of(several_of(1, 0, 4, 1, words), len), len % 4 || len == 0 ? 9 : 10);
    struct bytes one = STORES(two, with_record_of(insert_of(1, 0, 4, 0), 4), {29, 0x1111}, {30, 0x1111}, {27, 1}, {28, 1},
                              {26, 42401}, {15, 1}, {13, 4}, {14, 4});
    STORES(WITH(one, {9, 77}, {15, 0}, {16, 1}), plain(RECOVER), {9, 0}, {15, 1}, {16, 0});
    STORES(one, delete_of(1, 0), {14, 1}, {13, 1}, {15, 0}, {26, 0}, {29, 0}, {30, 0});
    STORES(WITH(one, {19, 5}, {20, 6}, {21, 1}, {25, 7}), plain(RECOVER), {21, 0}, {19, 0}, {20, 0}, {25, 0});
    refused(WITH(one, {9, 77}, {10, 77}, {13, 77}, {14, 77}), plain(RECOVER), 11);
}

static void parts_of_answers(void)
{
    holds(!axle_is_refused(0) && !axle_is_done(0) && !axle_is_stopped(0), "the answer 0", 0, 0);
    for (uint32_t n = 0; n < 65536; n += 5) {
        holds(axle_is_done(AXLE_DONE + n) && !axle_is_stopped(AXLE_DONE + n) && !axle_is_refused(AXLE_DONE + n), "done", n, 0);
        holds(axle_is_stopped(AXLE_STOPPED + n) && !axle_is_done(AXLE_STOPPED + n) && !axle_is_refused(AXLE_STOPPED + n),
              "stopped", n, 0);
        holds(axle_number(AXLE_DONE + n) == n && axle_number(AXLE_STOPPED + n) == n, "a number", n, 0);
    }
    for (uint32_t n = 1; n <= AXLE_NOT_FREE; n++)
        holds(axle_is_refused(n) && !axle_is_done(n) && !axle_is_stopped(n) && axle_number(n) == n, "refused", n, 0);
    holds(AXLE_STORE_BYTES(1, 3, 1) == 48 && AXLE_RECORD_BYTES(13) == 26, "sizes", 0, 0);
    holds(AXLE_INSERT_STORES(1) == 7 && AXLE_INSERT_CENTRAL(1) == 6, "stores", 0, 0);
    holds(AXLE_INSERT_SEVERAL_STORES(1 + 1, 2 + 1) == 24, "stores of several records", 0, 0);
    holds(AXLE_DELETE_STORES(1) == 5 && 2 * AXLE_DELETE_STORES(13) == 34 && AXLE_DELETE_CENTRAL == 2, "stores of delete", 0, 0);
    holds(AXLE_RECOVER_STORES(1, 3, 1) == 8 && 2 * AXLE_RECOVER_STORES(1 + 1, 2 + 1, 1 + 1) == 26, "stores of recover", 0, 0);
    holds(AXLE_NOT_FREE == 13 && AXLE_WORN == 65535 && AXLE_DONE + 1 == 65537, "the numbers of a mark", 0, 0);
    char version[20];
    sprintf(version, "%d.%d.%d", AXLE_VERSION_MAJOR, AXLE_VERSION_MINOR, AXLE_VERSION_PATCH);
    holds(strcmp(version, AXLE_VERSION) == 0, "the version", 0, 0);
}

/* Every answer that a call can give was given, and no other. The columns: 0, refusals 1 to 13, done, stopped. */
static void all_seen(void)
{
    static const unsigned char answers[CALLS][16] = {
        {1, 0, 0, 1, 1},
        {1, 1, 1, 1, 1, 0, 1},
        {0, 1, 1, 1, 1, 1, 1, 0, 0, 0, 0, 0, 0, 0, 1},
        {0, 1, 1, 1, 1, 1, 1, 1, 1, 1, 1, 0, 0, 0, 1, 1},
        {0, 1, 1, 1, 1, 1, 1, 1, 1, 1, 1, 0, 0, 0, 1, 1},
        {0, 1, 1, 1, 1, 1, 1, 1, 0, 0, 0, 0, 0, 0, 1, 1},
        {0, 1, 1, 1, 1, 0, 0, 0, 0, 0, 0, 1, 1, 0, 1, 1},
        {0, 1, 1, 1, 1, 0, 1, 0, 1, 0, 0, 0, 0, 1, 1},
        {0, 1, 1, 1, 1, 1, 1, 1, 1, 1, 1, 0, 0, 0, 1},
        {0, 1, 1, 1, 1, 1, 1, 1, 1, 1, 1, 0, 0, 0, 1},
        {0, 1, 1, 1, 1, 1, 1, 1, 1, 1, 1, 0, 0, 0, 1},
        {0, 1, 1, 1, 1, 0, 0, 0, 0, 0, 0, 1, 1, 0, 1},
    };
    for (size_t call = 0; call < CALLS; call++)
        for (size_t i = 0; i < 16; i++)
            holds(answers[call][i] == seen[call][i], "the answers of a call", call, i);
}

int main(void)
{
    marked_store();
    wrong_counts();
    several_records();
    told_beforehand();
    worn_nodes();
    older_stores();
    nothing_remains();
    lengths_and_heads();
    formats();
    questions();
    parts_of_answers();
    all_seen();
    printf("%lu passed, %lu failed\n", passed, failed);
    return failed != 0;
}
