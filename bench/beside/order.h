/*
 * Order keys, for engines that keep rows sorted by a number: the record at each position has a key above those before it. A new
 * record takes a key halfway between its neighbours', so that one row is written. Where no number is left between them, all keys are
 * spread evenly again, in the same transaction.
 */
#ifndef ORDER_H
#define ORDER_H

#include <stdint.h>

/* Keys lie between 0 and this. */
#ifndef KEY_BITS
#define KEY_BITS 62
#endif
#define KEY_END ((int64_t)1 << KEY_BITS)

/* A key between two others. 0: there is none. */
static inline int64_t key_between(int64_t before, int64_t behind)
{
    return behind - before < 2 ? 0 : before + (behind - before) / 2;
}

#endif
