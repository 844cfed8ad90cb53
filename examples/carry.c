/*
 * Carries out the planner's moves on real bytes: four pages, four images, and what a grant, a repeated one, a release, a growth
 * and an admit make of them.
 *
 *   cc -Iinclude examples/carry.c target/staticlib/libreserve.a -o carry && ./carry
 *
 * work_list and started are what a runtime needs; the rest is there to use them.
 */
#include <stdio.h>
#include <stdlib.h>
#include <string.h>

#include "reserve.h"

enum { HEIGHT = 2, PAGES = 1 << HEIGHT, PAGE_BYTES = 16 };

static uint8_t table[RESERVE_TABLE_BYTES];
static uint8_t line[RESERVE_LINE_BYTES];
static uint8_t moves[RESERVE_GROW_MOVES_BYTES];

/* The pages themselves, room for staged tenants, and room for a tenant that grows: as many pages as the reserve has are enough
 * for every list. */
static char reserve[PAGES * PAGE_BYTES];
static char room[PAGES * PAGE_BYTES];
static char own[PAGES * PAGE_BYTES];

struct move {
    unsigned tenant, from, to, staged;
};

static unsigned number(const uint8_t *bytes) { return bytes[0] + 256u * bytes[1]; }

static struct move move_at(unsigned i) {
    const uint8_t *bytes = moves + RESERVE_MOVE_BYTES * i;
    struct move move = {number(bytes), number(bytes + 2), number(bytes + 4), number(bytes + 6)};
    return move;
}

/* Where a node's bytes begin, and how many they are. */
static char *bytes_of(unsigned node) { return reserve + PAGE_BYTES * reserve_node_pages(HEIGHT, (uint16_t)node).first; }
static size_t length_of(unsigned node) { return (size_t)PAGE_BYTES * reserve_node_pages(HEIGHT, (uint16_t)node).count; }

/* Carries out the first so many moves of the list. The newcomer's bytes may be written after that, and not before. */
static void work_list(unsigned count) {
    char *next = room;
    for (unsigned i = 0; i < count; i++) { /* every staged tenant is lifted out of the reserve */
        struct move move = move_at(i);
        if (move.staged) {
            memcpy(next, bytes_of(move.from), length_of(move.from));
            next += length_of(move.from);
        }
    }
    next = room;
    for (unsigned i = 0; i < count; i++) { /* then all are set down in the list's order, the staged ones last */
        struct move move = move_at(i);
        memcpy(bytes_of(move.to), move.staged ? next : bytes_of(move.from), length_of(move.to));
        if (move.staged) next += length_of(move.to);
    }
}

/* The moves of a call, and each page afterwards: what stands on it, or -- if nobody holds it. */
static void show(unsigned tenant, const char *deed, struct reserve_outcome got) {
    uint8_t map[RESERVE_MAP_BYTES];
    printf("tenant %u %s node %u", tenant, deed, (unsigned)got.node);
    for (unsigned i = 0; i < got.moves; i++) {
        struct move move = move_at(i);
        printf(", %u:%u%c%u", move.tenant, move.from, move.staged ? '=' : '>', move.to);
    }
    reserve_draw(HEIGHT, table, sizeof table, map, sizeof map);
    for (unsigned page = 0; page < PAGES; page++) {
        int held = (map[page / 8] >> (page % 8)) & 1;
        printf("%s%s", page == 0 ? "\n    " : " ", held ? reserve + PAGE_BYTES * page : "--");
    }
    printf("\n");
}

/* Writes a tenant's pages from one of them on: A0 and A1 for tenant 0, B0 for tenant 1. */
static void write_pages(uint16_t tenant, unsigned node, unsigned from) {
    for (unsigned page = from; page < reserve_node_pages(HEIGHT, (uint16_t)node).count; page++) {
        snprintf(bytes_of(node) + PAGE_BYTES * page, PAGE_BYTES, "%c%u", 'A' + tenant, page);
    }
}

/* An image comes: the others make way, and then its pages are written. */
static void arrive(uint16_t tenant, struct reserve_outcome got) {
    work_list(got.moves);
    write_pages(tenant, got.node, 0);
    show(tenant, "gets", got);
}

/* Lets in whoever waits and fits now, until there is nobody. */
static void admit_all(void) {
    for (;;) {
        struct reserve_admission let_in = reserve_admit(HEIGHT, table, sizeof table, line, sizeof line, moves, sizeof moves);
        struct reserve_outcome got = {let_in.answer, let_in.node, let_in.moves};
        if (let_in.answer != RESERVE_DONE) exit(1);
        if (let_in.tenant == RESERVE_NOBODY) return;
        arrive(let_in.tenant, got);
    }
}

/* What becomes of a start. An image that had a node before the call was there already, and its pages stay as it has made them. One
 * for which there is no room joins the line, and then whoever fits is let in. */
static void started(uint16_t tenant, struct reserve_entry had, struct reserve_outcome got, uint16_t level) {
    if (got.answer == RESERVE_DONE && had.node != 0) {
        show(tenant, "keeps", got);
    } else if (got.answer == RESERVE_DONE) {
        arrive(tenant, got);
    } else if (got.answer == RESERVE_REFUSED_NO_ROOM) {
        if (reserve_join(HEIGHT, table, sizeof table, line, sizeof line, tenant, level) != RESERVE_DONE) exit(1);
        printf("tenant %u waits for level %u\n", (unsigned)tenant, (unsigned)level);
        admit_all();
    } else {
        exit(1);
    }
}

/* An image asks for a block of 2^level pages. */
static void start(uint16_t tenant, uint16_t level) {
    struct reserve_entry had = reserve_look(table, sizeof table, tenant);
    struct reserve_outcome got =
        reserve_grant_level(HEIGHT, table, sizeof table, line, sizeof line, moves, sizeof moves, tenant, level);
    started(tenant, had, got, level);
}

/* An image asks for so many pages and a guard page; if it has to wait, then for the level that these take. */
static void start_with_pages(uint16_t tenant, uint16_t pages) {
    struct reserve_entry had = reserve_look(table, sizeof table, tenant);
    struct reserve_outcome got =
        reserve_grant_pages(HEIGHT, table, sizeof table, line, sizeof line, moves, sizeof moves, tenant, pages);
    started(tenant, had, got, reserve_level_of_pages(HEIGHT, pages).level);
}

/* An image changes what stands on its first page, and finds it again whenever it looks. */
static void put_data(uint16_t tenant, const char *data) {
    snprintf(bytes_of(reserve_look(table, sizeof table, tenant).node), PAGE_BYTES, "%s", data);
}

static void expect_data(uint16_t tenant, const char *data) {
    if (strcmp(bytes_of(reserve_look(table, sizeof table, tenant).node), data) != 0) {
        printf("tenant %u has lost its data\n", (unsigned)tenant);
        exit(1);
    }
}

/* An image gets a larger block, or a smaller one. Its old pages are free from the start, so what it wants to keep of them waits
 * outside the reserve while the others move, and is set down last. */
static void resize(uint16_t tenant, uint16_t level) {
    unsigned node = reserve_look(table, sizeof table, tenant).node;
    size_t had = length_of(node);
    memcpy(own, bytes_of(node), had);
    struct reserve_outcome got = reserve_grow(HEIGHT, table, sizeof table, moves, sizeof moves, tenant, level);
    if (got.answer != RESERVE_DONE) exit(1);
    work_list(got.moves);
    memcpy(bytes_of(got.node), own, had < length_of(got.node) ? had : length_of(got.node));
    write_pages(tenant, got.node, (unsigned)(had / PAGE_BYTES));
    show(tenant, "has now", got);
    admit_all();
}

/* An image gives up its block, whose bytes nobody needs any more, and the others close up. */
static void stop(uint16_t tenant) {
    struct reserve_outcome got = reserve_release(HEIGHT, table, sizeof table, moves, sizeof moves, tenant);
    if (got.answer != RESERVE_DONE) exit(1);
    work_list(got.moves);
    show(tenant, "leaves", got);
    admit_all();
}

int main(void) {
    if (reserve_open(HEIGHT, table, sizeof table, line, sizeof line) != RESERVE_DONE) return 1;
    start(0, 1);
    put_data(0, "a0");
    start(0, 1); /* the client has lost the answer, and starts the image again */
    expect_data(0, "a0");
    start(1, 0);
    start(2, 0);
    stop(1);
    resize(2, 1);
    resize(0, 0);
    start_with_pages(3, 1); /* a page and its guard page: level 1, for which there is no room */
    stop(2);
    expect_data(0, "a0");
    return 0;
}
