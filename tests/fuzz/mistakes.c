/* Mistakes to plant between the fuzzer and the planner, one at a time (-DMISTAKE=1 and so on): the linker hands each call to
 * __wrap_..., which asks the planner as __real_... and spoils what it asks or what comes back. Each shows in one rare situation
 * only. */
#include <string.h>

#include "reserve.h"

struct reserve_outcome __real_reserve_grant_level(uint16_t height, uint8_t *table, size_t table_length, uint8_t *line,
                                                  size_t line_length, uint8_t *moves, size_t moves_length, uint16_t tenant,
                                                  uint16_t level);
struct reserve_outcome __real_reserve_grant_pages(uint16_t height, uint8_t *table, size_t table_length, uint8_t *line,
                                                  size_t line_length, uint8_t *moves, size_t moves_length, uint16_t tenant,
                                                  uint16_t pages);
struct reserve_outcome __real_reserve_release(uint16_t height, uint8_t *table, size_t table_length, uint8_t *moves,
                                              size_t moves_length, uint16_t tenant);
struct reserve_outcome __real_reserve_grow(uint16_t height, uint8_t *table, size_t table_length, uint8_t *moves,
                                           size_t moves_length, uint16_t tenant, uint16_t level);
uint16_t __real_reserve_join(uint16_t height, const uint8_t *table, size_t table_length, uint8_t *line, size_t line_length,
                             uint16_t tenant, uint16_t level);
struct reserve_admission __real_reserve_admit(uint16_t height, uint8_t *table, size_t table_length, uint8_t *line,
                                              size_t line_length, uint8_t *moves, size_t moves_length);
uint16_t __real_reserve_withdraw(uint16_t height, const uint8_t *table, size_t table_length, uint8_t *line, size_t line_length,
                                 uint16_t tenant);
struct reserve_entry __real_reserve_look(const uint8_t *table, size_t table_length, uint16_t tenant);
struct reserve_level __real_reserve_level_of_pages(uint16_t height, uint16_t pages);
uint16_t __real_reserve_draw(uint16_t height, const uint8_t *table, size_t table_length, uint8_t *map, size_t map_length);
struct reserve_counted __real_reserve_count(const uint8_t *map, size_t map_length);
struct reserve_reading __real_reserve_read(const uint8_t *journal, size_t journal_length, size_t offset);

/* A number of two bytes. */
static int number(const uint8_t *bytes) { return bytes[0] | bytes[1] << 8; }

/* Exchanges a move with the next one of its list. */
static void exchange(uint8_t *move) {
    for (size_t byte = 0; byte < RESERVE_MOVE_BYTES; byte++) {
        uint8_t own = move[byte];
        move[byte] = move[RESERVE_MOVE_BYTES + byte];
        move[RESERVE_MOVE_BYTES + byte] = own;
    }
}

/* 1: a release that moves four tells the last one's old node wrong.
 * 2: a release that moves three does not tell the last one as staged if it has 64 pages or more.
 * 3: a release that moves four tells the first two by tenant number. */
struct reserve_outcome __wrap_reserve_release(uint16_t height, uint8_t *table, size_t table_length, uint8_t *moves,
                                              size_t moves_length, uint16_t tenant) {
    struct reserve_outcome got = __real_reserve_release(height, table, table_length, moves, moves_length, tenant);
    uint8_t *third = moves + 2 * RESERVE_MOVE_BYTES, *fourth = third + RESERVE_MOVE_BYTES;
    if (MISTAKE == 1 && got.moves == 4) fourth[2] ^= 1;
    if (MISTAKE == 2 && got.moves == 3 && number(third + 2) < (2 << height) / 64) third[6] = 0;
    if (MISTAKE == 3 && got.moves == 4 && number(moves) > number(moves + RESERVE_MOVE_BYTES)) exchange(moves);
    return got;
}

/* The node in a tenant's entry; 0 if there is none, or no such tenant. */
static int node_in(const uint8_t *table, size_t table_length, uint16_t tenant) {
    return __real_reserve_look(table, table_length, tenant).node;
}

/* The bytes of a line's count of how many wait, of those who wait, and of the number of passes of one of them. */
enum { COUNT_BYTES = 2, WAITING_BYTES = 6, PASSED = COUNT_BYTES + 4 };

/* How many wait in a line of the right length, else 0. */
static int waiting_in(const uint8_t *line, size_t line_length) { return line_length == RESERVE_LINE_BYTES ? number(line) : 0; }

/* Of those who were passed eight times, makes it seven; whether there was one. */
static int lift_bar(uint8_t *line, size_t line_length) {
    int lifted = 0;
    for (int place = 0; place < waiting_in(line, line_length) && place < RESERVE_LINE_PLACES; place++) {
        uint8_t *passed = line + PASSED + WAITING_BYTES * place;
        if (number(passed) == RESERVE_MOST_PASSES) {
            passed[0]--;
            lifted = 1;
        }
    }
    return lifted;
}

/* 4: a grant by level that moves three writes one byte past the last move.
 * 14: one that is repeated by a tenant of level 3 is refused with 8, on a reserve of height 9.
 * 18: one of level 2 passes somebody who was passed eight times. */
struct reserve_outcome __wrap_reserve_grant_level(uint16_t height, uint8_t *table, size_t table_length, uint8_t *line,
                                                  size_t line_length, uint8_t *moves, size_t moves_length, uint16_t tenant,
                                                  uint16_t level) {
    int node = node_in(table, table_length, tenant);
    struct reserve_outcome got =
        __real_reserve_grant_level(height, table, table_length, line, line_length, moves, moves_length, tenant, level);
    if (MISTAKE == 4 && got.moves == 3) moves[3 * RESERVE_MOVE_BYTES] ^= 1;
    if (MISTAKE == 14 && got.answer == RESERVE_DONE && node != 0 && height == 9 && level == 3) {
        got.answer = RESERVE_REFUSED_HOLDS;
        got.node = 0;
    }
    if (MISTAKE == 18 && got.answer == RESERVE_REFUSED_NO_ROOM && level == 2 && lift_bar(line, line_length))
        got = __real_reserve_grant_level(height, table, table_length, line, line_length, moves, moves_length, tenant, level);
    return got;
}

/* 5: a spoilt table is refused as "no room" where one page is asked of the tallest reserve.
 * 9: an image that names no size gets a guard page behind its sixteen pages on a reserve of height 5.
 * 15: a tenant of level 2 or more that names all pages of its block is told its node, as if they had no guard page. */
struct reserve_outcome __wrap_reserve_grant_pages(uint16_t height, uint8_t *table, size_t table_length, uint8_t *line,
                                                  size_t line_length, uint8_t *moves, size_t moves_length, uint16_t tenant,
                                                  uint16_t pages) {
    uint16_t asked = MISTAKE == 9 && height == 5 && pages == 0 ? 16 : pages;
    int node = node_in(table, table_length, tenant);
    struct reserve_outcome got =
        __real_reserve_grant_pages(height, table, table_length, line, line_length, moves, moves_length, tenant, asked);
    if (MISTAKE == 5 && got.answer == RESERVE_REFUSED_NOT_IN_ORDER && height == RESERVE_MAX_HEIGHT && pages == 1)
        got.answer = RESERVE_REFUSED_NO_ROOM;
    if (MISTAKE == 15 && got.answer == RESERVE_REFUSED_HOLDS && pages >= 4 &&
        pages == reserve_node_pages(height, (uint16_t)node).count) {
        got.answer = RESERVE_DONE;
        got.node = (uint16_t)node;
    }
    return got;
}

/* 16: an admit does not count as passing the third in line.
 * 17: an admit that grants the second of six or more leaves the last number behind the shortened line. */
struct reserve_admission __wrap_reserve_admit(uint16_t height, uint8_t *table, size_t table_length, uint8_t *line,
                                              size_t line_length, uint8_t *moves, size_t moves_length) {
    int waiting = waiting_in(line, line_length);
    uint8_t *second = line + COUNT_BYTES + WAITING_BYTES, *third = second + WAITING_BYTES;
    int second_tenant = waiting > 1 ? number(second) : RESERVE_NOBODY;
    int third_tenant = waiting > 2 ? number(third) : RESERVE_NOBODY;
    struct reserve_admission got = __real_reserve_admit(height, table, table_length, line, line_length, moves, moves_length);
    if (MISTAKE == 16 && got.node != 0 && waiting > 3 && number(third) == third_tenant) third[4]--;
    if (MISTAKE == 17 && got.node != 0 && waiting > 5 && got.tenant == second_tenant)
        line[COUNT_BYTES + WAITING_BYTES * (waiting - 1)] = 1;
    return got;
}

/* 19: the last place in line is not given to anybody. */
uint16_t __wrap_reserve_join(uint16_t height, const uint8_t *table, size_t table_length, uint8_t *line, size_t line_length,
                             uint16_t tenant, uint16_t level) {
    int waiting = waiting_in(line, line_length);
    uint16_t answer = __real_reserve_join(height, table, table_length, line, line_length, tenant, level);
    if (MISTAKE == 19 && answer == RESERVE_DONE && waiting == RESERVE_LINE_PLACES - 1) {
        __real_reserve_withdraw(height, table, table_length, line, line_length, tenant);
        answer = RESERVE_REFUSED_LINE_FULL;
    }
    return answer;
}

/* 20: a withdrawal does not look at the numbers behind those who wait. */
uint16_t __wrap_reserve_withdraw(uint16_t height, const uint8_t *table, size_t table_length, uint8_t *line, size_t line_length,
                                 uint16_t tenant) {
    uint16_t answer = __real_reserve_withdraw(height, table, table_length, line, line_length, tenant);
    int waiting = waiting_in(line, line_length);
    if (MISTAKE == 20 && answer == RESERVE_REFUSED_NOT_IN_ORDER && waiting <= RESERVE_LINE_PLACES) {
        size_t used = COUNT_BYTES + WAITING_BYTES * waiting, behind = RESERVE_LINE_BYTES - used;
        uint8_t kept[RESERVE_LINE_BYTES];
        memcpy(kept, line + used, behind);
        memset(line + used, 0, behind);
        answer = __real_reserve_withdraw(height, table, table_length, line, line_length, tenant);
        memcpy(line + used, kept, behind);
    }
    return answer;
}

/* 10: a growth that moves four or more tells the last one's new node wrong.
 * 11: a growth that stages two tells the first of them as direct.
 * 12: a tenant of level 5 or more that shrinks to level 0 is told to be on the next node, on a reserve of height 8.
 * 13: a growth to the level that the tenant has is taken with four entries. */
struct reserve_outcome __wrap_reserve_grow(uint16_t height, uint8_t *table, size_t table_length, uint8_t *moves,
                                           size_t moves_length, uint16_t tenant, uint16_t level) {
    int node = node_in(table, table_length, tenant);
    struct reserve_outcome got = __real_reserve_grow(height, table, table_length, moves, moves_length, tenant, level);
    uint8_t *last = moves + (got.moves > 0 ? got.moves - 1 : 0) * RESERVE_MOVE_BYTES;
    if (MISTAKE == 10 && got.moves >= 4) last[4] ^= 1;
    if (MISTAKE == 11 && got.moves > 1 && (last - RESERVE_MOVE_BYTES)[6] == 1) (last - RESERVE_MOVE_BYTES)[6] = 0;
    if (MISTAKE == 12 && got.answer == RESERVE_DONE && height == 8 && level == 0 && node < 16) got.node ^= 1;
    if (MISTAKE == 13 && got.answer == RESERVE_REFUSED_MOVES && moves_length >= RESERVE_MOVES_BYTES && level < height &&
        node >> (height - level) == 1) {
        got.answer = RESERVE_DONE;
        got.node = (uint16_t)node;
    }
    return got;
}

/* 21: of a tenant on one of the last pages of a reserve of height 12 the page beside its own is told. */
struct reserve_entry __wrap_reserve_look(const uint8_t *table, size_t table_length, uint16_t tenant) {
    struct reserve_entry got = __real_reserve_look(table, table_length, tenant);
    if (MISTAKE == 21 && got.answer == RESERVE_DONE && got.node >= 8000 && got.node < 8192) got.node ^= 1;
    return got;
}

/* 22: more than half of a reserve of height 11 is told to go into a half. */
struct reserve_level __wrap_reserve_level_of_pages(uint16_t height, uint16_t pages) {
    struct reserve_level got = __real_reserve_level_of_pages(height, pages);
    if (MISTAKE == 22 && height == 11 && got.level == 11) got.level = 10;
    return got;
}

/* 6: the byte behind a map is written where the whole of a reserve of height 7 is held. */
uint16_t __wrap_reserve_draw(uint16_t height, const uint8_t *table, size_t table_length, uint8_t *map, size_t map_length) {
    uint16_t answer = __real_reserve_draw(height, table, table_length, map, map_length);
    if (MISTAKE == 6 && answer == RESERVE_DONE && height == 7 && map[15] == 255) map[RESERVE_MAP_BYTES] ^= 1;
    return answer;
}

/* 7: a grant by pages that is cut off is reported one byte too far on, unless near the front. */
struct reserve_reading __wrap_reserve_read(const uint8_t *journal, size_t journal_length, size_t offset) {
    struct reserve_reading got = __real_reserve_read(journal, journal_length, offset);
    if (MISTAKE == 7 && got.answer == RESERVE_REFUSED_CUT_OFF && journal[offset] == RESERVE_KIND_GRANT_PAGES && offset > 8)
        got.offset = offset + 1;
    return got;
}

/* 8: a map that is longer by just eight bytes is counted without the last number of its 512. */
struct reserve_counted __wrap_reserve_count(const uint8_t *map, size_t map_length) {
    struct reserve_counted got = __real_reserve_count(map, map_length);
    if (MISTAKE == 8 && map_length == RESERVE_MAP_BYTES + 8) {
        for (size_t byte = RESERVE_MAP_BYTES - 8; byte < RESERVE_MAP_BYTES; byte++) got.count -= __builtin_popcount(map[byte]);
    }
    return got;
}
