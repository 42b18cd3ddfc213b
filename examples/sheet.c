/*
 * The sheet of a brake test: a store in a memory-mapped file, axles put in, one tested again, the power cut, the sheet printed.
 * Before a vehicle rolls on it is asked whether there is room for its axles.
 *
 *     sheet FILE [STORES]
 *
 * FILE takes the place of the memory that survives a power cut. If it is new it is made and formatted, else its records are found in it.
 * With STORES the power fails after so many word stores of the last insert: 0 to 9, of which the eighth is the central one.
 * (The file outlives this process, as the memory outlives a cut. What a cut of this machine's own power leaves in a file is
 * another matter: the system writes pages in its own order.)
 */
#define _POSIX_C_SOURCE 200809L
#include <axle.h>
#include <fcntl.h>
#include <stdio.h>
#include <stdlib.h>
#include <sys/mman.h>
#include <sys/stat.h>
#include <unistd.h>

/* Two lists over six nodes. A record: axle number, left and right brake force in newtons. */
enum { SERVICE, PARKING, LISTS, NODES = 6, WORDS = 3 };
#define BYTES AXLE_STORE_BYTES(LISTS, NODES, WORDS)

static const char *const names[LISTS] = {"service brake", "parking brake"};

static void fail(const char *what)
{
    perror(what);
    exit(1);
}

/* Goes on if the answer is as it must be. */
static void expect(const char *call, uint32_t answer, int right)
{
    if (!right) {
        fprintf(stderr, "%s: answer %lu\n", call, (unsigned long)answer);
        exit(1);
    }
}

/* The memory. Formatted if the file is new: nothing else tells a new store from one that has lost its first words. */
static uint8_t *open_store(const char *path)
{
    int file = open(path, O_RDWR | O_CREAT, 0644);
    struct stat status;
    if (file < 0 || fstat(file, &status) != 0)
        fail(path);
    if (status.st_size == 0 && ftruncate(file, (off_t)BYTES) != 0)
        fail(path);
    if (status.st_size != 0 && status.st_size != (off_t)BYTES) {
        fprintf(stderr, "%s: has not the %lu bytes of a store\n", path, (unsigned long)BYTES);
        exit(1);
    }
    uint8_t *store = mmap(NULL, BYTES, PROT_READ | PROT_WRITE, MAP_SHARED, file, 0);
    if (store == MAP_FAILED)
        fail(path);
    close(file);
    if (status.st_size == 0) {
        uint32_t answer = axle_format(store, BYTES, LISTS, NODES, WORDS);
        expect("format", answer, answer == 0);
        printf("formatted: %d lists, %d nodes, %d words a record\n", (int)LISTS, (int)NODES, (int)WORDS);
    }
    return store;
}

/* To be done at every power-up, before anything else: recovery, and a check. How many stores it takes is told beforehand. */
static void power_up(uint8_t *store)
{
    uint32_t found = axle_check(store, BYTES), needed = axle_recover_stores(store, BYTES);
    expect("recover stores", needed, axle_is_done(needed));
    printf("power-up: check %u, needs %u stores", (unsigned)found, (unsigned)axle_number(needed));
    uint32_t answer = axle_recover(store, BYTES, AXLE_WHOLE);
    expect("recover", answer, answer == needed);
    uint32_t now = axle_check(store, BYTES);
    expect("check", now, now == 0);
    printf(", made %u, check %u\n", (unsigned)axle_number(answer), (unsigned)now);
}

/* A word of the store or of a record: low byte first. */
static uint16_t word_at(const uint8_t *bytes, size_t word)
{
    return (uint16_t)(bytes[2 * word] | bytes[2 * word + 1] << 8);
}

static uint16_t length_of(const uint8_t *store, uint16_t list)
{
    uint32_t answer = axle_length(store, BYTES, list);
    expect("length", answer, axle_is_done(answer));
    return axle_number(answer);
}

/*
 * Prints the records of a list in their order. The store must be sound (axle_check answered 0): then the forward links lead
 * from the header through the members and back to the header, and every cell number on the way is that of a node.
 */
static void print_list(const uint8_t *store, uint16_t list)
{
    printf("  %s: %u\n", names[list], (unsigned)length_of(store, list));
    size_t at = AXLE_HEADER_WORD(list);
    for (;;) {
        uint16_t cell = word_at(store, at + 1); /* word 1 of a cell is its forward link */
        if (cell == list)
            return; /* home: the list's number is the number of its header */
        at = AXLE_NODE_WORD(LISTS, WORDS, cell);
        size_t record = at + 3; /* behind identifier, forward and back */
        printf("    axle %u  left %u  right %u\n", (unsigned)word_at(store, record), (unsigned)word_at(store, record + 1),
               (unsigned)word_at(store, record + 2));
    }
}

static void print_sheet(const uint8_t *store)
{
    uint32_t answer = axle_check(store, BYTES);
    expect("check", answer, answer == 0);
    for (uint16_t list = 0; list < LISTS; list++)
        print_list(store, list);
}

/*
 * Before a vehicle rolls on: is there room for its axles? The cells that they get and the stores are told before anything is
 * measured, since it does not matter what the records hold.
 */
static void announce(const uint8_t *store, const char *vehicle, size_t axles)
{
    static const uint8_t records[12 * AXLE_RECORD_BYTES(WORDS)];
    size_t len = AXLE_RECORD_BYTES(WORDS) * axles;
    uint32_t stores = axle_insert_several_stores(store, BYTES, SERVICE, 0, LISTS, records, len);
    if (stores == AXLE_FULL) {
        printf("%s: no room, warn the driver\n", vehicle);
        return;
    }
    expect("insert stores", stores, axle_is_done(stores));
    uint32_t first = axle_insert_several_first_cell(store, BYTES, SERVICE, 0, LISTS, records, len);
    uint32_t last = axle_insert_several_last_cell(store, BYTES, SERVICE, 0, LISTS, records, len);
    printf("%s: room from cell %u to cell %u, %u stores\n", vehicle, (unsigned)axle_number(first), (unsigned)axle_number(last),
           (unsigned)axle_number(stores));
}

/* Inserts axles one behind the other, in one call. The search for free nodes starts at the first node. */
static uint32_t insert(uint8_t *store, uint16_t list, uint16_t position, const uint16_t *words, size_t axles, uint16_t allowance)
{
    uint8_t records[NODES * AXLE_RECORD_BYTES(WORDS)];
    for (size_t i = 0; i < WORDS * axles; i++) {
        records[2 * i] = (uint8_t)(words[i] & 0xff);
        records[2 * i + 1] = (uint8_t)(words[i] >> 8);
    }
    size_t len = AXLE_RECORD_BYTES(WORDS) * axles;
    return axle_insert_several(store, BYTES, list, position, LISTS, records, len, allowance);
}

static void insert_whole(uint8_t *store, uint16_t list, uint16_t position, const uint16_t *words, size_t axles)
{
    uint32_t answer = insert(store, list, position, words, axles, AXLE_WHOLE);
    expect("insert", answer, answer == AXLE_DONE + AXLE_INSERT_SEVERAL_STORES(WORDS, axles));
}

static void delete_whole(uint8_t *store, uint16_t list, uint16_t position)
{
    uint32_t answer = axle_delete(store, BYTES, list, position, AXLE_WHOLE);
    expect("delete", answer, axle_is_done(answer));
}

int main(int argc, char **argv)
{
    static const uint16_t bus[3 * WORDS] = {1, 3120, 3050, 2, 2870, 2910, 3, 2760, 2800};
    static const uint16_t handbrake[WORDS] = {3, 1910, 1880};
    static const uint16_t second_again[WORDS] = {2, 2890, 2880}, third_again[WORDS] = {3, 2790, 2780};

    if (argc != 2 && argc != 3) {
        fprintf(stderr, "usage: sheet FILE [STORES]\n");
        return 2;
    }
    unsigned long stores = argc == 3 ? strtoul(argv[2], NULL, 10) : AXLE_WHOLE;
    uint16_t allowance = stores < AXLE_WHOLE ? (uint16_t)stores : AXLE_WHOLE;

    uint8_t *store = open_store(argv[1]);
    power_up(store);
    for (uint16_t list = 0; list < LISTS; list++)
        while (length_of(store, list) > 0) /* the bus before */
            delete_whole(store, list, 0);

    announce(store, "a trailer of twelve axles", 12);
    announce(store, "a bus of three axles", 3);
    insert_whole(store, SERVICE, 0, bus, 3);
    insert_whole(store, PARKING, 0, handbrake, 1);
    print_sheet(store);

    puts("axle 2 is tested again");
    delete_whole(store, SERVICE, 1);
    insert_whole(store, SERVICE, 1, second_again, 1);
    print_sheet(store);

    puts("axle 3 is tested again");
    delete_whole(store, SERVICE, 2);
    uint32_t answer = insert(store, SERVICE, 2, third_again, 1, allowance);
    if (axle_is_stopped(answer)) {
        printf("the power fails after %u stores\n", (unsigned)axle_number(answer));
        munmap(store, BYTES);
        store = open_store(argv[1]);
        power_up(store);
    }
    print_sheet(store);
    munmap(store, BYTES);
    return 0;
}
