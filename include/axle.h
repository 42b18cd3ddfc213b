/*
 * axle.h: the axle store.
 *
 * A store is a slice of bytes that the caller lends, in memory that survives a power cut. It holds up to 8 doubly linked
 * lists of records over up to 2,000 nodes. Records are inserted and deleted at any position. After a power cut at any word
 * store, one call puts every list right. The library keeps nothing between calls: all that it knows is in the lent bytes.
 *
 *     static uint8_t store[AXLE_STORE_BYTES(2, 6, 3)];         2 lists, 6 nodes, records of 3 words
 *     uint8_t record[] = {1, 0, 0x30, 0x0c, 0xea, 0x0b};       the words 1, 3120, 3050, low byte first
 *
 *     axle_format(store, sizeof store, 2, 6, 3);                             once, on new memory
 *     axle_recover(store, sizeof store, AXLE_WHOLE);                         at every power-up
 *     axle_insert(store, sizeof store, 0, 0, 2, record, sizeof record, AXLE_WHOLE);
 *     axle_insert_several(store, sizeof store, 0, 1, 2, records, sizeof records, AXLE_WHOLE);      as many as there are
 *     axle_delete(store, sizeof store, 0, 0, AXLE_WHOLE);
 *     axle_mark_worn(store, sizeof store, 5);                                cell 5 is taken out of use
 *     axle_insert_several_stores(store, sizeof store, 0, 1, 2, records, sizeof records);               preview: is there room?
 *     axle_recover_stores(store, sizeof store);                              preview: how many stores?
 *
 * WORDS. A word is 16 bits, in two bytes, low byte first. A record is given in the same form. The layout is below.
 * docs/FORMAT.md has it with examples, the stores of each call in order, and the rules of recovery.
 *
 * WHAT MAY BE LENT. Anything: bytes that are no store, or a damaged one, any length, any numbers. Every call returns,
 * reads and writes only the bytes lent to it, and refuses with a number where it cannot do its work. A refused call writes
 * nothing. No alignment is asked. With length 0 the pointer may be NULL. Records must not overlap the store.
 *
 * ANSWERS. One 32-bit number:
 *
 *     0                      axle_check: the store is sound. axle_format: done
 *     1 to 13                refused; see the table
 *     AXLE_DONE + n          axle_length: the list has n records
 *                            the inserts, axle_delete, axle_mark_worn, axle_recover: done, with n word stores
 *                            a preview: the figure is n
 *     AXLE_STOPPED + n       the inserts, axle_delete, axle_recover: stopped after n word stores, because the allowance
 *                            was smaller than the number needed
 *
 * A call asks the questions that concern it, in this order. The first no decides, and its number is the answer. A store of
 * an odd number of bytes is answered 4 before all else; records of an odd number of bytes are answered 9 in their turn. Both
 * inserts ask the same questions but for 9 and 10. A preview asks the questions of the call that it previews.
 *
 *     No    Name                Question                                            Asked by
 *      1    AXLE_SHORT          Are there 8 words (16 bytes) or more?               all but format
 *      2    AXLE_NO_STORE       Are words 0 to 3 and 7 as laid out?                 all but format
 *      3    AXLE_RANGE          Are lists, nodes and record words in range?         all (format: those given to it)
 *      4    AXLE_SIZE           Is the length that of such a store, exactly?        all
 *      5    AXLE_NO_LIST        Is the list number below the number of lists?       length, insert, delete
 *      6    AXLE_UNSOUND        Is the store sound?                                 all but format and recover
 *      7    AXLE_NO_POSITION    Is the position below the list's length?            insert, delete
 *                               (insert: at most the length)
 *      8    AXLE_NO_NODE        Is the starting cell a node?                        insert, mark_worn
 *                               (mark_worn: the cell to mark)
 *      9    AXLE_RECORD_SIZE    Has the record the store's number of words?         insert
 *                               (several: a positive multiple of it?)
 *     10    AXLE_FULL           Is some node free? (several: enough for all?)       insert
 *     11    AXLE_NO_FIT         List by list from 0: does a sequence fit the list?  recover
 *     12    AXLE_TWO_FIT        and only one, or one that has the count's length?   recover
 *                               (asked before the next list's 11)
 *     13    AXLE_NOT_FREE       Is the node to mark free?                           mark_worn
 *
 * PREVIEWS. Four calls say what another would do, and write nothing: of axle_insert_several the first and the last cell in
 * order of use and the number of word stores, of axle_recover the number of word stores. The figure is that of the call on
 * the same bytes with AXLE_WHOLE; where that call would be refused, so is this one, with the same number. What the records
 * hold does not matter, so a box can ask before a vehicle rolls on, with any bytes of the right length:
 *
 *     if (axle_insert_several_stores(store, sizeof store, 0, 0, 2, records, 12 * AXLE_RECORD_BYTES(3)) == AXLE_FULL)
 *         ...                                                                  no room for twelve axles: warn the driver
 *
 * Of a recovery of n stores that was cut after m of them the preview is n - m, and of a sound store 0. The store may lie
 * where it cannot be written.
 *
 * POWER CUTS. Insert, delete and recover change the store by word stores, one after the other, each low byte before high.
 * Of an insert or delete one is central: number P + 5 of the P + 6 of an insert, number 2 of the P + 4 of a delete. An insert
 * of several records makes the P + 6 stores of the first, then those of the second and so on, and has a central store for
 * each record. A cut leaves the first of the stores made and the others not. Then:
 *
 *   - axle_check answers 0 if the store is sound as it was left, and AXLE_UNSOUND if not; axle_length, the inserts,
 *     axle_delete and axle_mark_worn never work on a store that is not sound (AXLE_NO_LIST, where it applies, comes first).
 *     Do not conclude from a sound store that nothing was cut, nor from the number of stores made whether it is sound: call
 *     axle_recover.
 *   - axle_recover leaves the list without the call if the cut came before the central store, and with it if after: with
 *     all its records, in their order. Every other list is as it was. Of several records the list then has those whose
 *     central store was made, each of them whole: after n stores the first (n + 1) / (P + 6), rounded down.
 *   - This holds also if, besides, at most one word has been altered in each other list: one of its header's four words, or
 *     a member's identifier, forward or back. Or two: its count and one identifier, the header's or a member's.
 *   - axle_recover may be cut too, any number of times. The final words are the same.
 *
 * Call axle_recover at every power-up. On a sound store it stores nothing and answers AXLE_DONE + 0. It needs at most
 * 2 * L + N + P * N word stores.
 *
 * WHAT IS ASKED OF THE MEMORY. It survives the cut, takes the stores in the order in which the processor makes them (no
 * write-back cache between, no reordering), and the two bytes of a word together, with the second. It need not be
 * battery-backed. A process that is killed, over a shared mapping, keeps the order but may leave the low byte of a word
 * alone. If that happens to the central store, an insert counts as not made and a delete as made; but if the torn word leads
 * to the header or to a member behind its place, axle_recover refuses with 12. At any other store the list is as described.
 * (What a torn word leaves is tested, not proved.)
 *
 * ALTERED WORDS, as beside a welding set. Take a store that was sound, and of it these words: the four of each header, the
 * identifier of each node, and forward and back of each member of a list.
 *
 *   - If one, two or three of them have changed, axle_check answers AXLE_UNSOUND, always. Four can pass: a free node whose
 *     links happen to fit becomes a member by its identifier, the count, the forward before it and the back behind it.
 *   - If one of them has changed, wherever it stands, axle_recover puts it back with one store: AXLE_DONE + 1, and the words
 *     are those of before. Cut by allowance 0 it answers AXLE_STOPPED + 0 and changes nothing.
 *   - One change is excepted in both: of the identifier of a node in no list to AXLE_WORN or from it. From 0 to AXLE_WORN it
 *     leaves a sound store, with a mark more, and back again with a mark less. A mark changed to anything else, or to 0 where
 *     the node has a record word that is not 0, is noticed, and axle_recover frees the node: mark it again.
 *   - If a list's count and one identifier of it, its header's or a member's, have changed, axle_recover puts both back, the
 *     identifier first: AXLE_DONE + 2, and the words are those of before.
 *   - If more have changed, but at most these in each list and none of a node in no list, axle_recover puts all of them back:
 *     that is a power cut that hit no call, see above. Two others in one list may be refused (11, 12), or mended to another
 *     list that fits; so where this may have happened, a store that axle_recover left sound need not be the old one.
 *
 * The other words are not among them. The records of lists, those of worn nodes and the links of nodes in no list may hold
 * anything: axle_check does not look at what they hold, so damage there is neither found nor put back. Nothing is said of
 * words 0 to 7.
 *
 * NOT PROMISED. That damage inside records is found: they are the caller's, and have no check word. That anything is left
 * after a cut during axle_format: format again. That damage beyond the above is mended: it may be refused (11, 12), or
 * mended to another list that fits. So a count and a link of one list that have changed together are not promised to come
 * back: with one record, the header's forward and the count both 0, the list is recovered as empty. Nor is any damage in the
 * list of the call that was cut. That two callers may use one store at a time.
 *
 * WORN CELLS. Memory that a fitter has found weak can be taken out of use. axle_mark_worn gives a free node the
 * identifier AXLE_WORN; a node that holds a record is marked after axle_delete. A sound store may have such nodes. The
 * inserts pass over them, and AXLE_FULL goes by the free nodes alone. In a sound store the free nodes, the worn ones and the
 * records of all lists are together as many as the store has nodes. The mark is one word store: a power cut leaves the
 * node free or worn.
 *
 * A node that was worn in a sound store keeps all its words through any calls but axle_format, refused, cut or whole, and
 * through a power cut with the altered words that POWER CUTS allows besides. With other damage axle_recover may take a worn
 * node for a member of a list: for example where both links of an empty list's header have been altered to lead to it
 * (docs/FORMAT.md has the words).
 *
 * AXLE_WORN is a mark only on a node in no list. The node of a record whose identifier was altered to it is mended.
 *
 * A version before 1.4 answers AXLE_UNSOUND for a store with worn nodes, and its axle_recover clears the marks.
 *
 * DELETED RECORDS do not stay readable. axle_delete stores 0 to the P words of the record, behind its other stores, and a
 * sound store has 0 in every record word of every free node. What a cut insert or delete left in a node in no list is wiped
 * by axle_recover: once it is done, no free node holds a word of a record. A worn node is not wiped, so what it held stays
 * there; axle_mark_worn takes free nodes alone, whose records are wiped. Links of free nodes stay as they were, and other
 * copies of the memory (caches, images, backups) are the caller's.
 *
 * A store left by a version before 1.5 may have remains in its free nodes. Then axle_check answers AXLE_UNSOUND and every call
 * that asks question 6 is refused, until axle_recover has wiped them: it changes nothing else in such a store, whole or
 * cut. Versions from 1.4 on work on each other's stores; after 1.4 recover again.
 *
 * COST. A call that asks question 6 looks at every node's identifier and at the record of every free node, and goes once
 * through every list. To a position it goes link by link from the nearer end of the list: in min(p + 1, n - p) steps to
 * delete at position p of n records, in min(p, n + 1 - p) to insert there, never more than half of n, rounded up. The last
 * records cost no more than the first, and a record is appended in one step. The cells and stores of an insert are told for
 * a check and one turn round the nodes, the stores of a recovery for what it decides before its first one.
 *
 * THREADS. The calls have no state of their own and may run at the same time on different stores. On one store the caller
 * must let one call at a time through, the reading ones too, from interrupts as from threads. While a call runs nobody else
 * writes the store or the records.
 *
 * CUTS IN A TEST. Insert, delete and recover take an allowance: the number of word stores that they may make. What a smaller
 * allowance leaves is exactly what a power cut after so many stores leaves. AXLE_WHOLE is always enough. A call that would
 * be refused is refused with any allowance.
 *
 *     for (uint16_t n = 0; n <= AXLE_INSERT_STORES(3); n++) {
 *         memcpy(store, before, sizeof store);
 *         axle_insert(store, sizeof store, 0, 0, 2, record, sizeof record, n);     the power fails after n stores
 *         axle_recover(store, sizeof store, AXLE_WHOLE);                           power-up
 *         ...                                                                      with the record if n >= 8, else without
 *     }
 */
#ifndef AXLE_H
#define AXLE_H

#include <stddef.h>
#include <stdint.h>

#ifdef __cplusplus
extern "C" {
#endif

/* The version of the library: in numbers, and as text "MAJOR.MINOR.PATCH". */
#define AXLE_VERSION_MAJOR 1
#define AXLE_VERSION_MINOR 7
#define AXLE_VERSION_PATCH 1
#define AXLE_VERSION AXLE_DOTTED(AXLE_VERSION_MAJOR, AXLE_VERSION_MINOR, AXLE_VERSION_PATCH)
#define AXLE_DOTTED(a, b, c) AXLE_QUOTED(a) "." AXLE_QUOTED(b) "." AXLE_QUOTED(c)
#define AXLE_QUOTED(a) #a

/* Answers. */
#define AXLE_DONE 65536u
#define AXLE_STOPPED 131072u

#define AXLE_SHORT 1u
#define AXLE_NO_STORE 2u
#define AXLE_RANGE 3u
#define AXLE_SIZE 4u
#define AXLE_NO_LIST 5u
#define AXLE_UNSOUND 6u
#define AXLE_NO_POSITION 7u
#define AXLE_NO_NODE 8u
#define AXLE_RECORD_SIZE 9u
#define AXLE_FULL 10u
#define AXLE_NO_FIT 11u
#define AXLE_TWO_FIT 12u
#define AXLE_NOT_FREE 13u

/* The parts of an answer. At most one of the first three holds; none of them of the answer 0. */
static inline int axle_is_refused(uint32_t answer) { return answer != 0 && answer < AXLE_DONE; }
static inline int axle_is_done(uint32_t answer) { return answer >= AXLE_DONE && answer < AXLE_STOPPED; }
static inline int axle_is_stopped(uint32_t answer) { return answer >= AXLE_STOPPED; }
/* The refusal's number, the length, the number of stores, or the figure of a preview. */
static inline uint16_t axle_number(uint32_t answer) { return (uint16_t)(answer & 0xffffu); }

/* Limits. Each number is at least 1. */
#define AXLE_MAX_LISTS 8
#define AXLE_MAX_NODES 2000
#define AXLE_MAX_RECORD_WORDS 13
#define AXLE_MAX_STORE_BYTES 64080

/* The bytes of a store, and of one of its records. */
#define AXLE_STORE_BYTES(lists, nodes, record_words) \
    (2 * (8 + 4 * (size_t)(lists) + (3 + (size_t)(record_words)) * (size_t)(nodes)))
#define AXLE_RECORD_BYTES(record_words) (2 * (size_t)(record_words))

/* Word stores. Recover makes at most as many as this says. */
#define AXLE_WHOLE 65535u
#define AXLE_INSERT_STORES(record_words) ((record_words) + 6)
#define AXLE_INSERT_CENTRAL(record_words) ((record_words) + 5)
#define AXLE_INSERT_SEVERAL_STORES(record_words, records) (AXLE_INSERT_STORES(record_words) * (records))
#define AXLE_DELETE_STORES(record_words) ((record_words) + 4)
#define AXLE_DELETE_CENTRAL 2
#define AXLE_RECOVER_STORES(lists, nodes, record_words) (2 * (lists) + (nodes) + (record_words) * (nodes))

/*
 * The layout, for a caller that reads records itself once axle_check has answered 0. Cells are numbered: 0 to L - 1 are the
 * lists' headers, L to L + N - 1 the nodes. Forward and back hold cell numbers; the last member leads to the header.
 *
 *     words 0 to 3    82, 66, 83, 1                      words 4 to 6    L lists, N nodes, P record words      word 7    0
 *     header k        from word 8 + 4k:                  identifier, forward, back, count
 *     node i          from word 8 + 4L + (3 + P)(i - L): identifier, forward, back, P record words
 *
 * The identifier of list k is 42,400 + k; a node in no list has identifier 0 and record words 0, or AXLE_WORN if it is worn.
 */
#define AXLE_IDENTIFIER 42400u
#define AXLE_WORN 65535u
#define AXLE_HEADER_WORD(list) (8 + 4 * (size_t)(list))
#define AXLE_NODE_WORD(lists, record_words, cell) \
    (8 + 4 * (size_t)(lists) + (3 + (size_t)(record_words)) * ((size_t)(cell) - (size_t)(lists)))

/*
 * Writes a store of empty lists: words 0 to 7, the headers, 0 elsewhere. store_len is AXLE_STORE_BYTES(lists, nodes,
 * record_words). What was there is lost. Has no allowance: a cut leaves anything.
 * Answers: 0, 3, 4.
 */
uint32_t axle_format(uint8_t *store, size_t store_len, uint16_t lists, uint16_t nodes, uint16_t record_words);

/*
 * Is the store sound? Each list's header and members carry its identifier, forward leads from the header through the
 * members and back to it, back leads the other way round, the count is right, and every other node is free (identifier 0,
 * all record words 0) or worn (AXLE_WORN).
 * What it can be trusted for where words were altered stands above.
 * Answers: 0, 1 to 4, 6.
 */
uint32_t axle_check(const uint8_t *store, size_t store_len);

/*
 * How many records has the list?
 * Answers: AXLE_DONE + the length, 1 to 6.
 */
uint32_t axle_length(const uint8_t *store, size_t store_len, uint16_t list);

/*
 * Inserts a record so that it stands at the position, 0 to the list's length. It is put in the first free node, counting
 * up from the cell start and on from the first node after the last; worn nodes are passed over.
 * Answers: AXLE_DONE + P + 6, AXLE_STOPPED + the allowance, 1 to 10.
 */
uint32_t axle_insert(uint8_t *store, size_t store_len, uint16_t list, uint16_t position, uint16_t start,
                     const uint8_t *record, size_t record_len, uint16_t allowance);

/*
 * Inserts several records so that they stand at consecutive positions, the first at the position given. records_len is a
 * positive multiple of AXLE_RECORD_BYTES(P). Equal to axle_insert of one after the other, each at the next position and with
 * the starting cell after the cell just used (the first node after the last), but the questions are asked once, for all, and
 * one allowance counts all stores. A cut leaves the records whose central store was made: recover, then axle_length tells
 * how many are missing. Cheaper than single calls, each of which checks the whole store.
 * Answers: AXLE_DONE + AXLE_INSERT_SEVERAL_STORES(P, records), AXLE_STOPPED + the allowance, 1 to 10.
 */
uint32_t axle_insert_several(uint8_t *store, size_t store_len, uint16_t list, uint16_t position, uint16_t start,
                             const uint8_t *records, size_t records_len, uint16_t allowance);

/*
 * Which node would axle_insert_several put the first record in? The figure is its cell number, and nothing is written. The
 * arguments are those of the call, but for the allowance.
 * Answers: AXLE_DONE + the cell, 1 to 10.
 */
uint32_t axle_insert_several_first_cell(const uint8_t *store, size_t store_len, uint16_t list, uint16_t position,
                                        uint16_t start, const uint8_t *records, size_t records_len);

/*
 * And the last record? The cell may be lower than the first: the search goes on from the first node after the last.
 * Answers: AXLE_DONE + the cell, 1 to 10.
 */
uint32_t axle_insert_several_last_cell(const uint8_t *store, size_t store_len, uint16_t list, uint16_t position,
                                       uint16_t start, const uint8_t *records, size_t records_len);

/*
 * How many word stores would axle_insert_several make? What it answers with AXLE_WHOLE, and nothing is written.
 * Answers: AXLE_DONE + AXLE_INSERT_SEVERAL_STORES(P, records), 1 to 10.
 */
uint32_t axle_insert_several_stores(const uint8_t *store, size_t store_len, uint16_t list, uint16_t position,
                                    uint16_t start, const uint8_t *records, size_t records_len);

/*
 * Deletes the record at the position, and wipes it with its last P stores. Its node is free then.
 * Answers: AXLE_DONE + P + 4, AXLE_STOPPED + the allowance, 1 to 7.
 */
uint32_t axle_delete(uint8_t *store, size_t store_len, uint16_t list, uint16_t position, uint16_t allowance);

/*
 * Marks a free node as worn, by its cell number: memory that a fitter has found weak. From then on no insert takes it. One
 * store, its identifier: AXLE_WORN. Has no allowance. No call takes the mark back but axle_format, and axle_recover after the
 * damage that WORN CELLS and ALTERED WORDS tell.
 * Answers: AXLE_DONE + 1, 1 to 4, 6, 8, 13.
 */
uint32_t axle_mark_worn(uint8_t *store, size_t store_len, uint16_t cell);

/*
 * After a power cut: puts every list right, and frees and wipes the nodes in none, but for worn ones. A sequence of nodes fits
 * a list if at most one word of its header and members, the count not among them, is another than it should be; where two fit
 * the count tells which is taken. Words that are right are not stored. The rule and the order of the stores are in
 * docs/FORMAT.md (recovery).
 * Answers: AXLE_DONE + the number of stores, AXLE_STOPPED + the allowance, 1 to 4, 11, 12.
 */
uint32_t axle_recover(uint8_t *store, size_t store_len, uint16_t allowance);

/*
 * How many word stores would axle_recover make? What it answers with AXLE_WHOLE, and nothing is written.
 * Answers: AXLE_DONE + the number of stores, 1 to 4, 11, 12.
 */
uint32_t axle_recover_stores(const uint8_t *store, size_t store_len);

#ifdef __cplusplus
}
#endif

#endif
