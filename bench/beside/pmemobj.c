/*
 * PMDK's libpmemobj: its own doubly linked list (POBJ_LIST), whose insert and remove are atomic. A position is found by walking
 * from the first node.
 *
 * libpmemobj makes its stores durable by calls of libpmem. Those that it uses are taken in below, to count their bytes, and to leave
 * msync out where a change need not survive a power cut.
 */
#define _GNU_SOURCE
#include "work.h"
#include <dlfcn.h>
#include <libpmem.h>
#include <libpmemobj.h>
#include <unistd.h>

POBJ_LAYOUT_BEGIN(axles);
POBJ_LAYOUT_ROOT(axles, struct root);
POBJ_LAYOUT_TOID(axles, struct node);
POBJ_LAYOUT_END(axles);

struct node {
    POBJ_LIST_ENTRY(struct node) links;
    Record record;
};

struct root {
    POBJ_LIST_HEAD(head, struct node) head;
};

static PMEMobjpool *pool;
static struct head *head;
static int durable;
static long long flushed;

/* libpmem's own functions. */
static __typeof__(pmem_flush) *flush;
static __typeof__(pmem_memcpy) *copy;
static __typeof__(pmem_memmove) *move;
static __typeof__(pmem_memset) *fill;
static __typeof__(pmem_msync) *sync_pages;

static void find_libpmem(void)
{
    flush = (__typeof__(flush))dlsym(RTLD_NEXT, "pmem_flush");
    copy = (__typeof__(copy))dlsym(RTLD_NEXT, "pmem_memcpy");
    move = (__typeof__(move))dlsym(RTLD_NEXT, "pmem_memmove");
    fill = (__typeof__(fill))dlsym(RTLD_NEXT, "pmem_memset");
    sync_pages = (__typeof__(sync_pages))dlsym(RTLD_NEXT, "pmem_msync");
    must(flush && copy && move && fill && sync_pages, "dlsym");
}

/* pmem_persist is this and a fence. */
void pmem_flush(const void *from, size_t bytes)
{
    flushed += (long long)bytes;
    flush(from, bytes);
}

/* Bytes that are to be flushed later are counted then. */
static void count(size_t bytes, unsigned flags) { flushed += flags & PMEM_F_MEM_NOFLUSH ? 0 : (long long)bytes; }

void *pmem_memcpy(void *to, const void *from, size_t bytes, unsigned flags)
{
    count(bytes, flags);
    return copy(to, from, bytes, flags);
}

void *pmem_memmove(void *to, const void *from, size_t bytes, unsigned flags)
{
    count(bytes, flags);
    return move(to, from, bytes, flags);
}

void *pmem_memset(void *to, int byte, size_t bytes, unsigned flags)
{
    count(bytes, flags);
    return fill(to, byte, bytes, flags);
}

/* Takes the place of a flush where the file is not in persistent memory. */
int pmem_msync(const void *from, size_t bytes)
{
    flushed += (long long)bytes;
    return durable ? sync_pages(from, bytes) : 0;
}

void open_list(void)
{
    const char *path = "list.pool", *layout = POBJ_LAYOUT_NAME(axles);
    find_libpmem();
    if (access(path, F_OK) == 0)
        pool = pmemobj_open(path, layout);
    else
        pool = pmemobj_create(path, layout, PMEMOBJ_MIN_POOL, 0644);
    must(pool != NULL, pmemobj_errormsg());
    TOID(struct root) root = POBJ_ROOT(pool, struct root);
    head = &D_RW(root)->head;
}

void set_durable(int on) { durable = on; }

/* The node at a position below the length. */
static TOID(struct node) node_at(int position)
{
    TOID(struct node) node = POBJ_LIST_FIRST(head);
    for (; position > 0; position--)
        node = POBJ_LIST_NEXT(node, links);
    return node;
}

/* Fills a new node before it is linked. */
static int construct(PMEMobjpool *in, void *node, void *record)
{
    struct node *new = node;
    pmemobj_memcpy_persist(in, &new->record, record, sizeof new->record);
    return 0;
}

void insert_at(int position, const Record *record)
{
    PMEMoid new;
    if (position == 0)
        new = POBJ_LIST_INSERT_NEW_HEAD(pool, head, links, sizeof(struct node), construct, (void *)record);
    else
        new = POBJ_LIST_INSERT_NEW_AFTER(pool, head, node_at(position - 1), links, sizeof(struct node), construct,
                                         (void *)record);
    must(!OID_IS_NULL(new), pmemobj_errormsg());
}

void delete_at(int position)
{
    must(POBJ_LIST_REMOVE_FREE(pool, head, node_at(position), links) == 0, "POBJ_LIST_REMOVE_FREE");
}

int read_list(Record *records)
{
    int length = 0;
    TOID(struct node) node;
    POBJ_LIST_FOREACH (node, head, links)
        records[length++] = D_RO(node)->record;
    return length;
}

long long bytes_stored(void) { return flushed; }
