/* One stop of a timeline in C: a table is written, the stop is a child of it, the table is written
 * again, and the stop still reads the old bytes. Ends with 1 at the first thing that isn't so. */

#include "goramul.h"

#include <stdio.h>
#include <stdlib.h>
#include <string.h>

#define FRAMES 6
#define ROOM 8
#define LENGTH 16

static uint32_t nodes[GORAMUL_NODES_LEN], pages[GORAMUL_PAGES_LEN];
static uint32_t mappings[GORAMUL_MAPPINGS_LEN], head[GORAMUL_HEAD_LEN];
static uint8_t used[FRAMES], memory[FRAMES * GORAMUL_PAGE_SIZE];
static uint32_t notices[ROOM * GORAMUL_NOTICE_WORDS];
static const uint8_t zero[GORAMUL_PAGE_SIZE];

/* The lent pool. */
#define POOL nodes, GORAMUL_NODES_LEN, pages, GORAMUL_PAGES_LEN, used, FRAMES, \
             mappings, GORAMUL_MAPPINGS_LEN, head, GORAMUL_HEAD_LEN, memory, sizeof memory
#define LIST notices, ROOM * GORAMUL_NOTICE_WORDS

static void must(int so, const char *what) {
    if (!so) {
        printf("not so: %s\n", what);
        exit(1);
    }
}

static void write_row(uint64_t table, const char *row, uint64_t expected_notices) {
    uint64_t taken, count, done;
    uint32_t code = goramul_write(POOL, LIST, table, 0, (const uint8_t *)row, LENGTH, &taken, &count, &done);
    must(code == GORAMUL_OK && done == LENGTH && taken == 1, "a row is written, to a frame of its own");
    must(count == expected_notices, "a write tells the mappings of a page that it copies");
}

static void show(const char *words, uint64_t table, const char *expected) {
    char row[LENGTH + 1] = {0};
    uint64_t value;
    must(goramul_read(POOL, table, 0, (uint8_t *)row, LENGTH, &value) == GORAMUL_OK, "a table is read");
    printf("%s %s\n", words, row);
    must(strcmp(row, expected) == 0, "it reads what was written to it");
}

/* The one notice of the last call, from the mapping's first page on. */
static void told(uint32_t mapping, uint32_t count, uint32_t operation) {
    const uint32_t expected[GORAMUL_NOTICE_WORDS] = {mapping, 0, count, operation};
    must(memcmp(notices, expected, sizeof expected) == 0, "the notice is mapping, first page, pages, operation");
}

int main(void) {
    uint64_t live, mapping, stop, count, value;
    must(goramul_start(POOL, &value) == GORAMUL_OK, "a fresh pool");
    must(goramul_new(POOL, 2, &live) == GORAMUL_OK, "a table of two pages");
    must(goramul_append_mapping(POOL, live, 0, 2, &mapping) == GORAMUL_OK, "a mapping of both");
    write_row(live, "pass 17    09:20", 0);

    must(goramul_create_child(POOL, LIST, live, 0, 2 * GORAMUL_PAGE_SIZE, &count, &stop) == GORAMUL_OK, "a stop");
    must(count == 1, "the table's mapping is told of the stop");
    told((uint32_t)mapping, 2, GORAMUL_REMOVE_WRITE);

    write_row(live, "pass 18    10:52", 1);
    told((uint32_t)mapping, 1, GORAMUL_UNMAP);
    show("The live table reads ", live, "pass 18    10:52");
    show("The stop still reads ", stop, "pass 17    09:20");

    must(goramul_peek(POOL, zero, sizeof zero, stop, 1, &value) == GORAMUL_IN_ZERO_PAGE, "a page never written is zeros");
    must(goramul_len(POOL, 9, &value) == GORAMUL_NO_OBJECT && value == 0, "object 9 isn't live");
    must(goramul_is_sound(POOL) == 1, "the pool is sound");
    used[0] = 2;
    must(goramul_is_sound(POOL) == 0, "a flag of 2 isn't");
    must(goramul_len(POOL, live, &value) == GORAMUL_BAD_POOL, "and every call says so");
    return 0;
}
