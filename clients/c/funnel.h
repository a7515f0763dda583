/* funnel for C: an index in memory behind a handle. docs/library.md has an example, and says what is proved.
 *
 * What the caller owes:
 * - A handle is zeroed before its first call (funnel index = {0};), and is not copied while it has an index.
 * - One call at a time on a handle, from any thread. Different handles may be used at the same time.
 * - A pointer to bytes or numbers has as many as the length beside it says, fewer than 2^63 bytes. Where the length is 0 it may be null.
 *   Every other pointer is valid, and none of one call overlaps another.
 * - malloc, realloc and free are of one allocator, and align as the C library does.
 *
 * What a call does with anything else is answered by a code. Where a call is not FUNNEL_DONE, what stands at its pointers stays as it was,
 * but for the numbers that are named at its code. No call ends the process.
 */
#ifndef FUNNEL_H
#define FUNNEL_H

#include <stdbool.h>
#include <stddef.h>
#include <stdint.h>

#ifdef __cplusplus
extern "C" {
#endif

typedef struct {
    void *index;
} funnel;

enum {
    FUNNEL_DONE = 0,
    FUNNEL_CLOSED = 1,     /* the handle has no index: it was never opened, or is closed */
    FUNNEL_OPEN = 2,       /* the handle has an index already, which stays */
    FUNNEL_NOT_UTF8 = 3,   /* a text is not UTF-8 */
    FUNNEL_NO_CONFIG = 4,  /* the bytes are no configuration; *fault is the fault's number, from 1 */
    FUNNEL_PRESENT = 5,    /* the number is live; *place is the place of its add */
    FUNNEL_FULL = 6,       /* no column is left for the document */
    FUNNEL_ABSENT = 7,     /* the number is not live */
    FUNNEL_TRIMMED = 8,    /* *count commits are no longer kept, of which one was asked for */
    FUNNEL_SYNTAX = 9,     /* the text is no query; *count is the byte at which it goes wrong */
    FUNNEL_DEEP = 10,      /* the query nests too deep; *count is the byte at which it does */
    FUNNEL_SPENT = 11,     /* after 2^62 events no call is taken any more */
    FUNNEL_MEMORY = 12,    /* no memory was found */
    FUNNEL_MISFIT = 13,    /* no configuration fits; *length is 1 without an add line, 2 with too many, 3 where too many slices are needed,
                              4 where the rows have no room, 5 where there can't be so many documents, 6 where the lines are too long */
};

typedef struct {
    uint64_t documents; /* live documents */
    uint64_t place;     /* commits so far: adds, puts and deletes that were done */
    uint64_t base;      /* of which the journal no longer keeps so many */
    uint64_t columns;   /* columns of all slices */
    uint64_t free;      /* of which so many are unclaimed */
    uint64_t retired;   /* slices that are retired */
    uint64_t finds;     /* 0 */
} funnel_numbers;

/* An empty index by a configuration, as bytes of the JSON of docs/configuration.md ("{}" for 128 documents). */
uint32_t funnel_open(funnel *handle, const uint8_t *config, size_t config_length, uint64_t *fault);
/* Frees the index. */
uint32_t funnel_close(funnel *handle);

/* Adds a document. *place is the place of the add: each add, put and delete that is done is a commit, and its place is its number. */
uint32_t funnel_add(funnel *handle, uint64_t id, const uint8_t *text, size_t length, uint64_t *place);
/* The same in the place of the live document with the number, if there is one: *replaced is 1 then, and 0 else. */
uint32_t funnel_put(funnel *handle, uint64_t id, const uint8_t *text, size_t length, uint64_t *place, uint64_t *replaced);
uint32_t funnel_delete(funnel *handle, uint64_t id, uint64_t *place);
/* Keeps the text of a live document for funnel_bytes: *length bytes. *place is the place of its add. */
uint32_t funnel_get(funnel *handle, uint64_t id, uint64_t *place, uint64_t *length);

/* Keeps the numbers of the documents with every word of the query for funnel_ids, in the order of their adds: *count of them. */
uint32_t funnel_find(funnel *handle, const uint8_t *query, size_t length, uint64_t *count);
/* The same of those that a boolean query keeps. */
uint32_t funnel_query(funnel *handle, const uint8_t *query, size_t length, uint64_t *count);
/* How many documents a boolean query keeps, or with `words` how many have every word of the text (with an empty one, every document). */
uint32_t funnel_count(funnel *handle, bool words, const uint8_t *text, size_t length, uint64_t *count);
/* The same, and keeps the numbers of at most `most` of them for funnel_ids: the last ones, the newest first, or the first ones. */
uint32_t funnel_newest(funnel *handle, uint64_t most, bool words, const uint8_t *text, size_t length, uint64_t *count);
uint32_t funnel_oldest(funnel *handle, uint64_t most, bool words, const uint8_t *text, size_t length, uint64_t *count);

uint32_t funnel_place(funnel *handle, uint64_t *place);
/* Keeps the *count commits after the first `from`: the numbers of their documents for funnel_ids, and for funnel_bytes a '+' for each add or
 * put, and a '-' for each delete. An add of a live number replaces its document. */
uint32_t funnel_journal(funnel *handle, uint64_t from, uint64_t *count);
uint32_t funnel_stats(funnel *handle, funnel_numbers *numbers);

/* Keeps the bytes of a configuration for funnel_bytes, *length of them: one for so many documents that is fitted to the texts of these lines,
 * "add 7 The cat sat" and so on, fewer than 2^40 bytes. It is for another index: this one stays as it is. */
uint32_t funnel_fit(funnel *handle, uint64_t documents, const uint8_t *lines, size_t lines_length, uint64_t *length);

/* Copy what the last call kept that was done and keeps such, from place `from` on, as far as there is `room`. */
uint32_t funnel_ids(funnel *handle, uint64_t *out, size_t room, size_t from);
uint32_t funnel_bytes(funnel *handle, uint8_t *out, size_t room, size_t from);

#ifdef __cplusplus
}
#endif

#endif
