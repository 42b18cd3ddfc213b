/* The axle store in a mapped file: one list, 2,000 nodes. */
#define _POSIX_C_SOURCE 200809L
#include "work.h"
#include <axle.h>
#include <fcntl.h>
#include <string.h>
#include <sys/mman.h>
#include <sys/stat.h>
#include <unistd.h>

#define BYTES AXLE_STORE_BYTES(1, NODES, WORDS)

static uint8_t *store;
static int durable;
static long long stored;

void open_list(void)
{
    int file = open("list.store", O_RDWR | O_CREAT, 0644);
    struct stat status;
    must(file >= 0 && fstat(file, &status) == 0, "open");
    must(status.st_size != 0 || ftruncate(file, (off_t)BYTES) == 0, "ftruncate");
    store = mmap(NULL, BYTES, PROT_READ | PROT_WRITE, MAP_SHARED, file, 0);
    must(store != MAP_FAILED, "mmap");
    close(file);
    if (status.st_size == 0)
        must(axle_format(store, BYTES, 1, NODES, WORDS) == 0, "axle_format");
    must(axle_is_done(axle_recover(store, BYTES, AXLE_WHOLE)), "axle_recover");
}

void set_durable(int on) { durable = on; }

/* Counts the stores of a call: two bytes each. */
static void done(uint32_t answer, const char *call)
{
    must(axle_is_done(answer), call);
    stored += 2 * axle_number(answer);
    if (durable)
        must(msync(store, BYTES, MS_SYNC) == 0, "msync");
}

/* The search for a free node starts at the first one, cell 1. */
void insert_at(int position, const Record *record)
{
    done(axle_insert(store, BYTES, 0, (uint16_t)position, 1, record->bytes, sizeof record->bytes, AXLE_WHOLE), "axle_insert");
}

void delete_at(int position) { done(axle_delete(store, BYTES, 0, (uint16_t)position, AXLE_WHOLE), "axle_delete"); }

/* A word of the store, low byte first. */
static unsigned word(size_t number) { return store[2 * number] | (unsigned)store[2 * number + 1] << 8; }

/* Forward stands behind the identifier; the last member leads to the header, cell 0. */
int read_list(Record *records)
{
    int length = 0;
    must(axle_check(store, BYTES) == 0, "axle_check");
    for (unsigned cell = word(AXLE_HEADER_WORD(0) + 1); cell != 0;) {
        size_t node = AXLE_NODE_WORD(1, WORDS, cell);
        memcpy(records[length++].bytes, store + 2 * (node + 3), 2 * WORDS);
        cell = word(node + 1);
    }
    return length;
}

long long bytes_stored(void) { return stored; }
