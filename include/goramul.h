/*
 * Copy-on-write memory objects over lent tables and memory. Link libgoramul.a; it keeps nothing for
 * itself, allocates nothing and calls only memcpy and memset.
 *
 * Every call is lent a pool first: six slices, each as a pointer and its length in elements.
 *
 *   nodes     GORAMUL_NODES_LEN words      64 records of 16 words
 *   pages     GORAMUL_PAGES_LEN words      64 rows of 64 page entries
 *   used      F bytes, F from 1 to 1,024   a byte 0 or 1 for each frame
 *   mappings  GORAMUL_MAPPINGS_LEN words   64 places of 4 words
 *   head      GORAMUL_HEAD_LEN words       the next owner number, 3 spare
 *   memory    F * GORAMUL_PAGE_SIZE bytes  the frames
 *
 * No pointer is NULL, also where a length is 0, and no two slices of a call overlap. Apart from that
 * a call answers for any contents and lengths: a pool that isn't sound is answered with
 * GORAMUL_BAD_POOL and left as it is.
 *
 * A call gives a code and writes its value behind `value`: 0 if it is refused, but for
 * goramul_write, which tells the bytes done. Objects and mappings are named by their numbers.
 *
 * Notices. A call that is lent a list of notices tells there which mappings have to be changed, and
 * behind `count` how many notices there are, refused or not. A notice is GORAMUL_NOTICE_WORDS words:
 *
 *   the mapping's number, the first page in the mapping, how many pages, the operation
 *
 * GORAMUL_UNMAP: other bytes stand there now. GORAMUL_REMOVE_WRITE: they may be written no more
 * without another call. The length of the list is in words; words past the notices are left as they
 * are. Room for GORAMUL_MAX_NOTICES notices is always enough.
 */
#ifndef GORAMUL_H
#define GORAMUL_H

#include <stddef.h>
#include <stdint.h>

#define GORAMUL_PAGE_SIZE 4096
#define GORAMUL_MAX_FRAMES 1024
#define GORAMUL_MAX_PAGES 64 /* of an object */
#define GORAMUL_NODES 64     /* objects, and hidden nodes above them */
#define GORAMUL_MAPPINGS 64

#define GORAMUL_NODES_LEN 1024
#define GORAMUL_PAGES_LEN 4096
#define GORAMUL_MAPPINGS_LEN 256
#define GORAMUL_HEAD_LEN 4

#define GORAMUL_NOTICE_WORDS 4
#define GORAMUL_MAX_NOTICES 4096

/* The value of goramul_commit_page for a page that reads as zeros and has no frame. */
#define GORAMUL_ZERO_FRAME 4294967295u

/* The operation of a notice. */
enum { GORAMUL_UNMAP = 1, GORAMUL_REMOVE_WRITE = 2 };

/* Where goramul_peek finds a page. */
enum { GORAMUL_NOWHERE = 0, GORAMUL_IN_FRAME = 1, GORAMUL_IN_ZERO_PAGE = 2 };

/* What a call can say. 5, 6 and 12 belong to calls that are not here yet. */
enum {
    GORAMUL_OK = 0,
    GORAMUL_OUT_OF_RANGE = 1,  /* the range doesn't lie inside the object */
    GORAMUL_BAD_STATE = 2,     /* the object's policy or pins forbid the call */
    GORAMUL_INVALID_ARGS = 3,  /* an argument that is never allowed */
    GORAMUL_NO_MEMORY = 4,     /* a frame is needed and none is free; earlier pages are done */
    GORAMUL_NOT_SUPPORTED = 5,
    GORAMUL_UNAVAILABLE = 6,
    GORAMUL_BAD_POOL = 7,      /* wrong lengths, or not a sound pool */
    GORAMUL_NO_OBJECT = 8,     /* the number isn't a live object's */
    GORAMUL_NO_NODE = 9,       /* too few free nodes, or owner numbers used up */
    GORAMUL_NO_ROOM = 10,      /* the notice list is too short, or no mapping is free */
    GORAMUL_STOPPED = 11,      /* the source would panic; earlier pages are done, this one untouched */
    GORAMUL_PIN_LEDGER = 12
};

#ifdef __cplusplus
extern "C" {
#endif

/* Makes the tables a fresh pool, whatever they hold; leaves the memory. BAD_POOL: wrong lengths only. */
uint32_t goramul_start(
    uint32_t *nodes, size_t nodes_len, uint32_t *pages, size_t pages_len,
    uint8_t *used, size_t used_len, uint32_t *mappings, size_t mappings_len,
    uint32_t *head, size_t head_len, const uint8_t *memory, size_t memory_len,
    uint64_t *value);

/* A fresh object of `size` pages, which read as zeros; its number. BAD_POOL, INVALID_ARGS, NO_NODE. */
uint32_t goramul_new(
    uint32_t *nodes, size_t nodes_len, const uint32_t *pages, size_t pages_len,
    const uint8_t *used, size_t used_len, const uint32_t *mappings, size_t mappings_len,
    uint32_t *head, size_t head_len, const uint8_t *memory, size_t memory_len,
    uint64_t size, uint64_t *value);

/* An object's length in bytes. BAD_POOL, NO_OBJECT. */
uint32_t goramul_len(
    const uint32_t *nodes, size_t nodes_len, const uint32_t *pages, size_t pages_len,
    const uint8_t *used, size_t used_len, const uint32_t *mappings, size_t mappings_len,
    const uint32_t *head, size_t head_len, const uint8_t *memory, size_t memory_len,
    uint64_t object, uint64_t *value);

/* 1 if the pool is sound, 0 if every call but goramul_start is refused with BAD_POOL. */
uint8_t goramul_is_sound(
    const uint32_t *nodes, size_t nodes_len, const uint32_t *pages, size_t pages_len,
    const uint8_t *used, size_t used_len, const uint32_t *mappings, size_t mappings_len,
    const uint32_t *head, size_t head_len, const uint8_t *memory, size_t memory_len);

/* A copy-on-write child of `len` bytes from `offset` on, both whole pages; its number. Needs room for one
 * notice a live mapping. BAD_POOL, NO_OBJECT, INVALID_ARGS, BAD_STATE, OUT_OF_RANGE, NO_NODE, NO_ROOM. */
uint32_t goramul_create_child(
    uint32_t *nodes, size_t nodes_len, uint32_t *pages, size_t pages_len,
    const uint8_t *used, size_t used_len, const uint32_t *mappings, size_t mappings_len,
    uint32_t *head, size_t head_len, const uint8_t *memory, size_t memory_len,
    uint32_t *notices, size_t notices_len, uint64_t object, uint64_t offset, uint64_t len,
    uint64_t *count, uint64_t *value);

/* Fills `buf` with the object's bytes from `from` on; 0. A page that only this object can still reach may
 * move to it. Refused, it fills no byte. BAD_POOL, NO_OBJECT, BAD_STATE, OUT_OF_RANGE. */
uint32_t goramul_read(
    const uint32_t *nodes, size_t nodes_len, uint32_t *pages, size_t pages_len,
    uint8_t *used, size_t used_len, const uint32_t *mappings, size_t mappings_len,
    const uint32_t *head, size_t head_len, uint8_t *memory, size_t memory_len,
    uint64_t object, uint64_t from, uint8_t *buf, size_t buf_len, uint64_t *value);

/* Writes `bytes` from `offset` on, page by page; the bytes done, and behind `taken` the frames taken. Needs
 * room for a notice for each page touched and live mapping. BAD_POOL, NO_OBJECT, BAD_STATE, OUT_OF_RANGE,
 * NO_ROOM, and at a page NO_MEMORY, STOPPED. */
uint32_t goramul_write(
    const uint32_t *nodes, size_t nodes_len, uint32_t *pages, size_t pages_len,
    uint8_t *used, size_t used_len, const uint32_t *mappings, size_t mappings_len,
    const uint32_t *head, size_t head_len, uint8_t *memory, size_t memory_len,
    uint32_t *notices, size_t notices_len, uint64_t object, uint64_t offset,
    const uint8_t *bytes, size_t bytes_len, uint64_t *taken, uint64_t *count, uint64_t *value);

/* Where a page's bytes are, with nothing moved: GORAMUL_IN_FRAME, the value is the frame, whose bytes are
 * memory[value * GORAMUL_PAGE_SIZE] on; GORAMUL_IN_ZERO_PAGE, in `zero`, which is to be a page of zeros;
 * GORAMUL_NOWHERE where goramul_read of the page would be refused, or `zero` isn't such a page. */
uint32_t goramul_peek(
    const uint32_t *nodes, size_t nodes_len, const uint32_t *pages, size_t pages_len,
    const uint8_t *used, size_t used_len, const uint32_t *mappings, size_t mappings_len,
    const uint32_t *head, size_t head_len, const uint8_t *memory, size_t memory_len,
    const uint8_t *zero, size_t zero_len, uint64_t object, uint64_t page, uint64_t *value);

/* A frame of its own for each page of `len` bytes from `offset` on, each rounded down to pages; 0, and behind
 * `taken` the frames taken. Needs room for a notice for each of these pages and live mapping. BAD_POOL,
 * NO_OBJECT, OUT_OF_RANGE, NO_ROOM, and at a page NO_MEMORY, STOPPED. */
uint32_t goramul_commit(
    const uint32_t *nodes, size_t nodes_len, uint32_t *pages, size_t pages_len,
    uint8_t *used, size_t used_len, const uint32_t *mappings, size_t mappings_len,
    const uint32_t *head, size_t head_len, uint8_t *memory, size_t memory_len,
    uint32_t *notices, size_t notices_len, uint64_t object, uint64_t offset, uint64_t len,
    uint64_t *taken, uint64_t *count, uint64_t *value);

/* The frame of a page, for writing if `write` is 1 (0 or 1, nothing else); its number, or GORAMUL_ZERO_FRAME.
 * For writing it needs room for one notice a live mapping. BAD_POOL, NO_OBJECT, OUT_OF_RANGE; for writing
 * NO_ROOM, NO_MEMORY, STOPPED. */
uint32_t goramul_commit_page(
    const uint32_t *nodes, size_t nodes_len, uint32_t *pages, size_t pages_len,
    uint8_t *used, size_t used_len, const uint32_t *mappings, size_t mappings_len,
    const uint32_t *head, size_t head_len, uint8_t *memory, size_t memory_len,
    uint32_t *notices, size_t notices_len, uint64_t object, uint64_t page, uint8_t write,
    uint64_t *count, uint64_t *value);

/* 1 if there are as many free frames as pages of the range that the object doesn't hold itself, else 0.
 * BAD_POOL, NO_OBJECT, OUT_OF_RANGE. */
uint32_t goramul_forecast(
    const uint32_t *nodes, size_t nodes_len, const uint32_t *pages, size_t pages_len,
    const uint8_t *used, size_t used_len, const uint32_t *mappings, size_t mappings_len,
    const uint32_t *head, size_t head_len, const uint8_t *memory, size_t memory_len,
    uint64_t object, uint64_t offset, uint64_t len, uint64_t *value);

/* A mapping of `count` pages of an object from page `first` on; its number. BAD_POOL, NO_OBJECT, INVALID_ARGS,
 * NO_ROOM. */
uint32_t goramul_append_mapping(
    const uint32_t *nodes, size_t nodes_len, const uint32_t *pages, size_t pages_len,
    const uint8_t *used, size_t used_len, uint32_t *mappings, size_t mappings_len,
    const uint32_t *head, size_t head_len, const uint8_t *memory, size_t memory_len,
    uint64_t object, uint64_t first, uint64_t count, uint64_t *value);

/* Takes a mapping off its object; 0. One that isn't live, or isn't the object's, changes nothing. BAD_POOL,
 * NO_OBJECT. */
uint32_t goramul_remove_mapping(
    const uint32_t *nodes, size_t nodes_len, const uint32_t *pages, size_t pages_len,
    const uint8_t *used, size_t used_len, uint32_t *mappings, size_t mappings_len,
    const uint32_t *head, size_t head_len, const uint8_t *memory, size_t memory_len,
    uint64_t object, uint64_t mapping, uint64_t *value);

#ifdef __cplusplus
}
#endif

#endif
