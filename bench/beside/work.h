/*
 * A list of records that outlives its process. Each engine implements these calls, work.c uses them.
 *
 * The list is kept in files of the current folder. A call that fails ends the process. When a call has returned, its change
 * survives a killed process, and with set_durable(1) a power cut of the machine too, in the terms of the engine's manual.
 */
#ifndef WORK_H
#define WORK_H

#include <stdint.h>

enum { NODES = 2000, WORDS = 13 };

typedef struct {
    uint8_t bytes[2 * WORDS];
} Record;

/* Opens the list, or makes an empty one. After a kill it does all that is needed before the next call. */
void open_list(void);

/* From now on: 1, each change survives a power cut; 0, a killed process. 0 after open_list. */
void set_durable(int on);

/* Puts the record at the position, 0 to the length. */
void insert_at(int position, const Record *record);

/* Takes the record at the position away. */
void delete_at(int position);

/* All records, in order. Returns how many. */
int read_list(Record *records);

/* The bytes stored so far in mapped memory, by the engine's own count. -1: it writes by system calls, which the system counts. */
long long bytes_stored(void);

/* Ends the process unless the call has gone well. */
void must(int right, const char *call);

#endif
