/*
 * The reserve as a runtime uses it: this program includes nothing of the planner's but its header and links nothing but its
 * archive. Every buffer that is lent stands between guard bytes. The last line is 'N passed, M failed'.
 */
#include <stdio.h>
#include <stdlib.h>
#include <string.h>

#include "reserve.h"

/* as a program says which header it was written for */
#if RESERVE_VERSION < 7001
#error "reserve.h of version 7.1 or later is needed"
#endif

/* ---- counting */

static int passed, failed;

static void expect(int ok, const char *what, int line) {
    if (ok) {
        passed++;
    } else {
        failed++;
        printf("door.c:%d: %s\n", line, what);
    }
}

#define EXPECT(condition) expect((condition) != 0, #condition, __LINE__)

/* ---- lent bytes between guards; the byte after the last guard is the sanitizer's */

enum { GUARD = 64, GUARD_BYTE = 0xA5 };

struct lent {
    uint8_t *whole;
    uint8_t *bytes;
    size_t length;
};

static struct lent lend(size_t length, int fill) {
    struct lent lent;
    lent.whole = (uint8_t *)malloc(length + 2 * GUARD);
    if (lent.whole == NULL) {
        exit(2);
    }
    memset(lent.whole, GUARD_BYTE, length + 2 * GUARD);
    lent.bytes = lent.whole + GUARD;
    lent.length = length;
    memset(lent.bytes, fill, length);
    return lent;
}

static int guarded(struct lent lent) {
    size_t i;
    for (i = 0; i < GUARD; i++) {
        if (lent.whole[i] != GUARD_BYTE || lent.bytes[lent.length + i] != GUARD_BYTE) {
            return 0;
        }
    }
    return 1;
}

static int all_are(struct lent lent, int byte) {
    size_t i;
    for (i = 0; i < lent.length; i++) {
        if (lent.bytes[i] != byte) {
            return 0;
        }
    }
    return 1;
}

static void give_back(struct lent lent) {
    EXPECT(guarded(lent));
    free(lent.whole);
}

static uint8_t *copy_of(struct lent lent) {
    uint8_t *copy = (uint8_t *)malloc(lent.length + 1);
    if (copy == NULL) {
        exit(2);
    }
    memcpy(copy, lent.bytes, lent.length);
    return copy;
}

/* ---- numbers of two bytes */

static unsigned word(const uint8_t *bytes) { return bytes[0] + 256u * bytes[1]; }

static unsigned node_of(struct lent table, unsigned tenant) { return word(table.bytes + 2 * tenant); }

/* puts a number into a table or a line, at its place among the numbers there */
static void put_number(struct lent numbers, unsigned place, unsigned number) {
    numbers.bytes[2 * place] = (uint8_t)(number % 256);
    numbers.bytes[2 * place + 1] = (uint8_t)(number / 256);
}

static void put_node(struct lent table, unsigned tenant, unsigned node) { put_number(table, tenant, node); }

static int is_entry(struct lent moves, unsigned place, unsigned tenant, unsigned from, unsigned to, unsigned staged) {
    const uint8_t *move = moves.bytes + RESERVE_MOVE_BYTES * place;
    return word(move) == tenant && word(move + 2) == from && word(move + 4) == to && word(move + 6) == staged;
}

static int is_direct(struct lent moves, unsigned place, unsigned tenant, unsigned from, unsigned to) {
    return is_entry(moves, place, tenant, from, to, 0);
}

static int is_staged(struct lent moves, unsigned place, unsigned tenant, unsigned from, unsigned to) {
    return is_entry(moves, place, tenant, from, to, 1);
}

/* ---- the calls that take a line, on lent bytes */

/* no bytes, behind a pointer to nowhere */
static const struct lent nothing;

static unsigned open_on(uint16_t height, struct lent table, struct lent line) {
    return reserve_open(height, table.bytes, table.length, line.bytes, line.length);
}

static struct reserve_outcome grant_level_on(uint16_t height, struct lent table, struct lent line, struct lent moves,
                                             uint16_t tenant, uint16_t level) {
    return reserve_grant_level(height, table.bytes, table.length, line.bytes, line.length, moves.bytes, moves.length, tenant,
                               level);
}

static struct reserve_outcome grant_pages_on(uint16_t height, struct lent table, struct lent line, struct lent moves,
                                             uint16_t tenant, uint16_t pages) {
    return reserve_grant_pages(height, table.bytes, table.length, line.bytes, line.length, moves.bytes, moves.length, tenant,
                               pages);
}

static unsigned join_on(uint16_t height, struct lent table, struct lent line, uint16_t tenant, uint16_t level) {
    return reserve_join(height, table.bytes, table.length, line.bytes, line.length, tenant, level);
}

static struct reserve_admission admit_on(uint16_t height, struct lent table, struct lent line, struct lent moves) {
    return reserve_admit(height, table.bytes, table.length, line.bytes, line.length, moves.bytes, moves.length);
}

static unsigned withdraw_on(uint16_t height, struct lent table, struct lent line, uint16_t tenant) {
    return reserve_withdraw(height, table.bytes, table.length, line.bytes, line.length, tenant);
}

/* ---- a reserve with its table, line and moves */

struct box {
    uint16_t height;
    struct lent table;
    struct lent line;
    struct lent moves;
};

static struct box open_box(uint16_t height) {
    struct box box;
    box.height = height;
    box.table = lend(RESERVE_TABLE_BYTES, 0xEE);
    box.line = lend(RESERVE_LINE_BYTES, 0xEE);
    box.moves = lend(RESERVE_GROW_MOVES_BYTES + 7, 0x77);
    EXPECT(open_on(height, box.table, box.line) == RESERVE_DONE);
    EXPECT(all_are(box.table, 0) && all_are(box.line, 0));
    return box;
}

static void give_back_box(struct box box) {
    give_back(box.table);
    give_back(box.line);
    give_back(box.moves);
}

/* where nobody waits, the line stays as the opening left it */
static void close_box(struct box box) {
    EXPECT(all_are(box.line, 0));
    give_back_box(box);
}

static struct reserve_outcome grant_level(struct box box, uint16_t tenant, uint16_t level) {
    memset(box.moves.bytes, 0x77, box.moves.length);
    return grant_level_on(box.height, box.table, box.line, box.moves, tenant, level);
}

static struct reserve_outcome grant_pages(struct box box, uint16_t tenant, uint16_t pages) {
    memset(box.moves.bytes, 0x77, box.moves.length);
    return grant_pages_on(box.height, box.table, box.line, box.moves, tenant, pages);
}

static struct reserve_outcome release(struct box box, uint16_t tenant) {
    memset(box.moves.bytes, 0x77, box.moves.length);
    return reserve_release(box.height, box.table.bytes, box.table.length, box.moves.bytes, box.moves.length, tenant);
}

static struct reserve_outcome grow(struct box box, uint16_t tenant, uint16_t level) {
    memset(box.moves.bytes, 0x77, box.moves.length);
    return reserve_grow(box.height, box.table.bytes, box.table.length, box.moves.bytes, box.moves.length, tenant, level);
}

static unsigned join(struct box box, uint16_t tenant, uint16_t level) {
    return join_on(box.height, box.table, box.line, tenant, level);
}

static struct reserve_admission admit(struct box box) {
    memset(box.moves.bytes, 0x77, box.moves.length);
    return admit_on(box.height, box.table, box.line, box.moves);
}

static unsigned withdraw(struct box box, uint16_t tenant) { return withdraw_on(box.height, box.table, box.line, tenant); }

/* the bytes after so many moves are as they were lent */
static int moves_end_after(struct box box, unsigned number) {
    size_t i;
    for (i = RESERVE_MOVE_BYTES * number; i < box.moves.length; i++) {
        if (box.moves.bytes[i] != 0x77) {
            return 0;
        }
    }
    return 1;
}

static int granted(struct box box, struct reserve_outcome got, unsigned tenant, unsigned node, unsigned moves) {
    return got.answer == RESERVE_DONE && got.node == node && got.moves == moves && node_of(box.table, tenant) == node &&
           moves_end_after(box, moves);
}

static int released(struct box box, struct reserve_outcome got, unsigned tenant, unsigned node, unsigned moves) {
    return got.answer == RESERVE_DONE && got.node == node && got.moves == moves && node_of(box.table, tenant) == 0 &&
           moves_end_after(box, moves);
}

static int refused(struct reserve_outcome got, unsigned answer) {
    return got.answer == answer && got.node == 0 && got.moves == 0;
}

static int admitted(struct box box, struct reserve_admission got, unsigned tenant, unsigned node, unsigned moves) {
    return got.answer == RESERVE_DONE && got.tenant == tenant && got.node == node && got.moves == moves &&
           node_of(box.table, tenant) == node && moves_end_after(box, moves);
}

/* an admit that is refused, or with answer 0 one that grants nobody */
static int admitted_nobody(struct reserve_admission got, unsigned answer) {
    return got.answer == answer && got.tenant == RESERVE_NOBODY && got.node == 0 && got.moves == 0;
}

static int admits_nobody(struct box box, unsigned answer) {
    return admitted_nobody(admit(box), answer) && moves_end_after(box, 0);
}

/* ---- that no byte changes */

struct kept {
    uint8_t *table, *line;
};

static struct kept keep(struct box box) {
    struct kept kept = {copy_of(box.table), copy_of(box.line)};
    return kept;
}

/* whether table and line are as they were then, and no move was written by the last call */
static int unchanged(struct box box, struct kept kept) {
    return memcmp(kept.table, box.table.bytes, box.table.length) == 0 &&
           memcmp(kept.line, box.line.bytes, box.line.length) == 0 && moves_end_after(box, 0);
}

static void forget(struct kept kept) {
    free(kept.table);
    free(kept.line);
}

/* ---- the calls */

static void opening(void) {
    struct lent table = lend(RESERVE_TABLE_BYTES, 0x5A);
    struct lent line = lend(RESERVE_LINE_BYTES, 0x5A);
    struct lent shorter = lend(RESERVE_TABLE_BYTES - 2, 0x5A);
    EXPECT(open_on(13, table, line) == RESERVE_REFUSED_HEIGHT);
    EXPECT(open_on(65535, table, line) == RESERVE_REFUSED_HEIGHT);
    EXPECT(open_on(13, shorter, line) == RESERVE_REFUSED_HEIGHT);
    EXPECT(open_on(13, nothing, nothing) == RESERVE_REFUSED_HEIGHT);
    EXPECT(open_on(12, shorter, line) == RESERVE_REFUSED_TABLE_LENGTH);
    EXPECT(all_are(table, 0x5A) && all_are(line, 0x5A) && all_are(shorter, 0x5A));
    EXPECT(open_on(12, table, line) == RESERVE_DONE);
    EXPECT(all_are(table, 0) && all_are(line, 0));
    memset(table.bytes, 0x5A, table.length);
    memset(line.bytes, 0x5A, line.length);
    EXPECT(open_on(0, table, line) == RESERVE_DONE);
    EXPECT(all_are(table, 0) && all_are(line, 0));
    give_back(table);
    give_back(line);
    give_back(shorter);
}

/* all calls that take both a table and a line, one after the other, answer this */
static int all_answer(unsigned answer, uint16_t height, struct lent table, struct lent line, struct lent moves) {
    return open_on(height, table, line) == answer && join_on(height, table, line, 5, 0) == answer &&
           withdraw_on(height, table, line, 5) == answer && join_on(height, table, line, 6, 0) == answer &&
           admit_on(height, table, line, moves).answer == answer &&
           grant_level_on(height, table, line, moves, 7, 0).answer == answer &&
           grant_pages_on(height, table, line, moves, 8, 1).answer == answer;
}

/* a table and a line, each of the right length and of those beside it: another length is refused, and no byte changes */
static void lengths(void) {
    static const int beside[] = {0, -2, -1, 1, 2};
    size_t i, j;
    for (i = 0; i < sizeof beside / sizeof beside[0]; i++) {
        for (j = 0; j < sizeof beside / sizeof beside[0]; j++) {
            struct lent table = lend((size_t)(RESERVE_TABLE_BYTES + beside[i]), 0x5A);
            struct lent line = lend((size_t)(RESERVE_LINE_BYTES + beside[j]), 0x5A);
            struct lent moves = lend(RESERVE_MOVES_BYTES, 0x5A);
            int are_right = i == 0 && j == 0;
            EXPECT(all_answer(are_right ? RESERVE_DONE : RESERVE_REFUSED_TABLE_LENGTH, 2, table, line, moves));
            EXPECT(are_right || (all_are(table, 0x5A) && all_are(line, 0x5A)));
            EXPECT(all_are(moves, 0x5A));
            EXPECT(all_answer(RESERVE_REFUSED_TABLE_LENGTH, 2, table, nothing, moves));
            EXPECT(all_answer(RESERVE_REFUSED_TABLE_LENGTH, 2, nothing, line, moves));
            EXPECT(all_answer(RESERVE_REFUSED_HEIGHT, 13, table, line, moves));
            give_back(table);
            give_back(line);
            give_back(moves);
        }
    }
    EXPECT(all_answer(RESERVE_REFUSED_TABLE_LENGTH, 2, nothing, nothing, nothing));
}

/* four pages: two single ones move everybody, and one of the movers has to be lifted out of the others' way */
static void four_pages(void) {
    struct box box = open_box(2);
    EXPECT(granted(box, grant_level(box, 0, 1), 0, 2, 0));
    EXPECT(granted(box, grant_level(box, 1, 0), 1, 6, 0));
    EXPECT(granted(box, grant_level(box, 2, 0), 2, 5, 2));
    EXPECT(is_direct(box.moves, 0, 0, 2, 3));
    EXPECT(is_staged(box.moves, 1, 1, 6, 4));
    EXPECT(node_of(box.table, 0) == 3 && node_of(box.table, 1) == 4);
    EXPECT(refused(release(box, 7), RESERVE_REFUSED_HOLDS_NONE));
    EXPECT(refused(grant_pages(box, 3, 1), RESERVE_REFUSED_NO_ROOM));
    EXPECT(refused(grant_level(box, 1, 1), RESERVE_REFUSED_HOLDS));
    EXPECT(moves_end_after(box, 0));
    EXPECT(granted(box, grant_level(box, 1, 0), 1, 4, 0));
    EXPECT(released(box, release(box, 1), 1, 4, 2));
    EXPECT(is_direct(box.moves, 0, 0, 3, 2));
    EXPECT(is_staged(box.moves, 1, 2, 5, 6));
    close_box(box);
}

/* height 5, with one page, two, four, four and eight: a grant of two more moves three tenants, and a release then four */
static struct box open_crowded_box(void) {
    struct box box = open_box(5);
    EXPECT(granted(box, grant_level(box, 10, 0), 10, 32, 0));
    EXPECT(grant_level(box, 11, 1).answer == RESERVE_DONE);
    EXPECT(grant_level(box, 12, 2).answer == RESERVE_DONE);
    EXPECT(grant_level(box, 13, 2).answer == RESERVE_DONE);
    EXPECT(grant_level(box, 4095, 3).answer == RESERVE_DONE);
    EXPECT(node_of(box.table, 10) == 34 && node_of(box.table, 11) == 16);
    EXPECT(node_of(box.table, 12) == 9 && node_of(box.table, 13) == 12);
    EXPECT(node_of(box.table, 4095) == 5);
    return box;
}

static int is_list_of_four(struct lent moves) {
    return is_direct(moves, 0, 14, 17, 16) && is_direct(moves, 1, 10, 44, 34) && is_direct(moves, 2, 4095, 6, 5) &&
           is_staged(moves, 3, 13, 10, 12);
}

static void most_moves(void) {
    struct box box = open_crowded_box();
    EXPECT(granted(box, grant_level(box, 14, 1), 14, 17, 3));
    EXPECT(is_direct(box.moves, 0, 4095, 5, 6));
    EXPECT(is_direct(box.moves, 1, 10, 34, 44));
    EXPECT(is_staged(box.moves, 2, 13, 12, 10));
    EXPECT(released(box, release(box, 11), 11, 16, 4));
    EXPECT(is_list_of_four(box.moves));
    close_box(box);
}

/* four moves go into just the bytes that have to be lent, and with one byte fewer nothing is done */
static void bytes_of_four_moves(void) {
    struct box box = open_crowded_box();
    struct lent few = lend(RESERVE_MOVES_BYTES - 1, 0x22);
    struct lent enough = lend(RESERVE_MOVES_BYTES, 0x22);
    struct reserve_outcome got;
    EXPECT(granted(box, grant_level(box, 14, 1), 14, 17, 3));
    EXPECT(refused(reserve_release(5, box.table.bytes, box.table.length, few.bytes, few.length, 11), RESERVE_REFUSED_MOVES));
    EXPECT(all_are(few, 0x22) && node_of(box.table, 11) == 16);
    got = reserve_release(5, box.table.bytes, box.table.length, enough.bytes, enough.length, 11);
    EXPECT(got.answer == RESERVE_DONE && got.node == 16 && got.moves == 4 && is_list_of_four(enough));
    give_back(few);
    give_back(enough);
    close_box(box);
}

/* every refusal of an argument, with all later ones present too: the first is answered, and no byte changes */
static void arguments(void) {
    struct box box = open_box(3);
    struct lent longer = lend(RESERVE_TABLE_BYTES + 2, 0x11);
    struct lent shorter = lend(RESERVE_TABLE_BYTES - 2, 0x11);
    struct lent line = lend(RESERVE_LINE_BYTES - 1, 0x11);
    struct lent few = lend(RESERVE_MOVES_BYTES - 1, 0x22);
    struct kept kept;
    EXPECT(granted(box, grant_pages(box, 5, 1), 5, 4, 0));
    kept = keep(box);
    EXPECT(refused(grant_level_on(13, longer, line, few, 4096, 14), RESERVE_REFUSED_HEIGHT));
    EXPECT(refused(grant_level_on(12, longer, line, few, 4096, 14), RESERVE_REFUSED_TABLE_LENGTH));
    EXPECT(refused(grant_pages_on(12, shorter, line, few, 4096, 9), RESERVE_REFUSED_TABLE_LENGTH));
    EXPECT(refused(grant_level_on(3, box.table, line, few, 4096, 4), RESERVE_REFUSED_TABLE_LENGTH));
    EXPECT(refused(grant_pages_on(3, box.table, line, few, 4096, 9), RESERVE_REFUSED_TABLE_LENGTH));
    EXPECT(refused(reserve_release(12, shorter.bytes, shorter.length, few.bytes, few.length, 4096),
                   RESERVE_REFUSED_TABLE_LENGTH));
    EXPECT(refused(reserve_release(12, NULL, 0, NULL, 0, 4096), RESERVE_REFUSED_TABLE_LENGTH));
    EXPECT(refused(reserve_release(3, box.table.bytes, box.table.length, NULL, 0, 4096), RESERVE_REFUSED_MOVES));
    EXPECT(refused(grant_level_on(3, box.table, box.line, few, 4096, 4), RESERVE_REFUSED_MOVES));
    EXPECT(refused(grant_pages_on(3, box.table, box.line, few, 4096, 9), RESERVE_REFUSED_MOVES));
    EXPECT(refused(reserve_release(3, box.table.bytes, box.table.length, few.bytes, few.length, 4096),
                   RESERVE_REFUSED_MOVES));
    EXPECT(refused(grant_level(box, 4096, 4), RESERVE_REFUSED_TENANT));
    EXPECT(refused(grant_pages(box, 65535, 9), RESERVE_REFUSED_TENANT));
    EXPECT(refused(release(box, 4096), RESERVE_REFUSED_TENANT));
    EXPECT(refused(grant_level(box, 5, 4), RESERVE_REFUSED_LEVEL));
    EXPECT(refused(grant_level(box, 5, 65535), RESERVE_REFUSED_LEVEL));
    EXPECT(refused(grant_pages(box, 5, 8), RESERVE_REFUSED_PAGES));
    EXPECT(refused(grant_pages(box, 5, 65535), RESERVE_REFUSED_PAGES));
    EXPECT(refused(grant_level(box, 5, 3), RESERVE_REFUSED_HOLDS));
    EXPECT(refused(grant_level(box, 6, 3), RESERVE_REFUSED_NO_ROOM));
    EXPECT(refused(grant_pages(box, 5, 7), RESERVE_REFUSED_HOLDS));
    EXPECT(refused(grant_pages(box, 6, 7), RESERVE_REFUSED_NO_ROOM));
    EXPECT(refused(release(box, 6), RESERVE_REFUSED_HOLDS_NONE));
    EXPECT(unchanged(box, kept));
    EXPECT(all_are(longer, 0x11) && all_are(shorter, 0x11) && all_are(line, 0x11) && all_are(few, 0x22));
    forget(kept);
    give_back(longer);
    give_back(shorter);
    give_back(line);
    give_back(few);
    close_box(box);
}

/* 32 bytes are enough for the moves; sizes at their edges */
static void edges(void) {
    struct lent table = lend(RESERVE_TABLE_BYTES, 1);
    struct lent line = lend(RESERVE_LINE_BYTES, 1);
    struct lent moves = lend(RESERVE_MOVES_BYTES, 0x33);
    struct reserve_outcome got;
    EXPECT(open_on(12, table, line) == RESERVE_DONE);
    got = grant_pages_on(12, table, line, moves, 4095, 4095);
    EXPECT(got.answer == RESERVE_DONE && got.node == 1 && got.moves == 0);
    EXPECT(refused(grant_pages_on(12, table, line, moves, 0, 4096), RESERVE_REFUSED_PAGES));
    EXPECT(refused(grant_pages_on(12, table, line, moves, 0, 0), RESERVE_REFUSED_NO_ROOM));
    got = reserve_release(12, table.bytes, table.length, moves.bytes, moves.length, 4095);
    EXPECT(got.answer == RESERVE_DONE && got.node == 1 && got.moves == 0);
    EXPECT(all_are(table, 0));
    got = grant_pages_on(12, table, line, moves, 0, 0);
    EXPECT(got.answer == RESERVE_DONE && got.node == 256 && node_of(table, 0) == 256);
    got = grant_level_on(12, table, line, moves, 1, 11);
    EXPECT(got.answer == RESERVE_DONE && got.node == 2 && got.moves == 1 && is_direct(moves, 0, 0, 256, 384));
    EXPECT(open_on(0, table, line) == RESERVE_DONE);
    got = grant_level_on(0, table, line, moves, 2, 0);
    EXPECT(got.answer == RESERVE_DONE && got.node == 1);
    EXPECT(refused(grant_level_on(0, table, line, moves, 3, 1), RESERVE_REFUSED_LEVEL));
    EXPECT(all_are(line, 0));
    give_back(table);
    give_back(line);
    give_back(moves);
}

/* the first node of the smallest level whose block has so many pages and the guard page, or sixteen pages where no size is
 * named; the root if the reserve has fewer */
static unsigned first_node(unsigned height, unsigned pages) {
    unsigned needed = pages == 0 ? 16 : pages + 1;
    unsigned level = 0;
    while (level < height && 1u << level < needed) {
        level++;
    }
    return 1u << (height - level);
}

/* every size that can be named, at every height: on an empty reserve it gets its block, or 6 from 2^h pages on */
static void sizes(void) {
    unsigned height, pages;
    for (height = 0; height <= RESERVE_MAX_HEIGHT; height++) {
        struct box box = open_box((uint16_t)height);
        int right = 1;
        for (pages = 0; pages < 1u << height; pages++) {
            unsigned node = first_node(height, pages);
            right = right && granted(box, grant_pages(box, 9, (uint16_t)pages), 9, node, 0);
            right = right && released(box, release(box, 9), 9, node, 0);
        }
        for (; pages <= 65535; pages++) {
            right = right && refused(grant_pages(box, 9, (uint16_t)pages), RESERVE_REFUSED_PAGES) && node_of(box.table, 9) == 0;
            right = right && moves_end_after(box, 0);
        }
        EXPECT(right);
        EXPECT(all_are(box.table, 0));
        close_box(box);
    }
}

/* images that name no size, at every height: each gets sixteen pages, or the first one the whole of a smaller reserve, as long
 * as there is room, and never 6; one page less than that is no room */
static void no_size(void) {
    unsigned height, t;
    for (height = 0; height <= RESERVE_MAX_HEIGHT; height++) {
        struct box box = open_box((uint16_t)height);
        unsigned pages = height < 4 ? 1u << height : 16, images = (1u << height) / pages;
        int right = 1;
        for (t = 0; t < images; t++) {
            unsigned node = images + t;
            struct reserve_pages got = reserve_node_pages((uint16_t)height, (uint16_t)node);
            right = right && granted(box, grant_pages(box, (uint16_t)t, 0), t, node, 0);
            right = right && got.answer == RESERVE_DONE && got.first == t * pages && got.count == pages;
        }
        EXPECT(right);
        EXPECT(refused(grant_pages(box, (uint16_t)images, 0), RESERVE_REFUSED_NO_ROOM));
        EXPECT(granted(box, grant_pages(box, 0, 0), 0, images, 0));
        EXPECT(released(box, release(box, (uint16_t)(images - 1)), images - 1, 2 * images - 1, 0));
        EXPECT(grant_level(box, 4095, 0).answer == RESERVE_DONE);
        EXPECT(refused(grant_pages(box, (uint16_t)images, 0), RESERVE_REFUSED_NO_ROOM));
        close_box(box);
    }
}

/* one byte fewer than the moves need is refused, where nothing else is wrong; all that they need, and more, is not */
static void bytes_of_moves(void) {
    size_t n;
    for (n = 0; n <= RESERVE_MOVES_BYTES + 1; n++) {
        unsigned answer = n < RESERVE_MOVES_BYTES ? RESERVE_REFUSED_MOVES : RESERVE_DONE;
        struct lent table = lend(RESERVE_TABLE_BYTES, 0);
        struct lent line = lend(RESERVE_LINE_BYTES, 0);
        struct lent moves = lend(n, 0x22);
        EXPECT(grant_level_on(2, table, line, moves, 0, 1).answer == answer);
        EXPECT(grant_pages_on(2, table, line, moves, 1, 1).answer == answer);
        EXPECT(all_are(table, 0) == (n < RESERVE_MOVES_BYTES));
        put_node(table, 0, 2);
        put_node(table, 1, 3);
        EXPECT(reserve_release(2, table.bytes, table.length, moves.bytes, n, 1).answer == answer);
        EXPECT(node_of(table, 1) == (n < RESERVE_MOVES_BYTES ? 3 : 0));
        EXPECT(all_are(line, 0) && all_are(moves, 0x22));
        give_back(table);
        give_back(line);
        give_back(moves);
    }
}

/* the low byte first, at a node above 255 */
static void byte_order(void) {
    struct box box = open_box(12);
    EXPECT(granted(box, grant_level(box, 258, 3), 258, 512, 0));
    EXPECT(box.table.bytes[516] == 0 && box.table.bytes[517] == 2);
    EXPECT(granted(box, grant_level(box, 1, 0), 1, 4104, 0));
    EXPECT(box.table.bytes[2] == 0x08 && box.table.bytes[3] == 0x10);
    close_box(box);
}

/* tables that no call leaves; what the arguments alone decide comes first */
static void not_in_order(void) {
    static const unsigned nodes[][2] = {{8, 8}, {4, 8}, {16, 0}, {15, 0}, {9, 0}, {65535, 0}, {8, 5}, {8, 10}, {5, 12}};
    size_t i;
    for (i = 0; i < sizeof nodes / sizeof nodes[0]; i++) {
        struct box box = open_box(3);
        struct kept kept;
        put_node(box.table, 100, nodes[i][0]);
        put_node(box.table, 4095, nodes[i][1]);
        kept = keep(box);
        EXPECT(refused(grant_level(box, 100, 0), RESERVE_REFUSED_NOT_IN_ORDER));
        EXPECT(refused(grant_level(box, 100, 1), RESERVE_REFUSED_NOT_IN_ORDER));
        EXPECT(refused(grant_pages(box, 100, 1), RESERVE_REFUSED_NOT_IN_ORDER));
        EXPECT(refused(grant_pages(box, 5, 7), RESERVE_REFUSED_NOT_IN_ORDER));
        EXPECT(refused(release(box, 5), RESERVE_REFUSED_NOT_IN_ORDER));
        EXPECT(refused(grow(box, 5, 3), RESERVE_REFUSED_NOT_IN_ORDER));
        EXPECT(refused(grow(box, 100, 0), RESERVE_REFUSED_NOT_IN_ORDER));
        EXPECT(join(box, 100, 0) == RESERVE_REFUSED_NOT_IN_ORDER && join(box, 5, 0) == RESERVE_REFUSED_NOT_IN_ORDER);
        EXPECT(admits_nobody(box, RESERVE_REFUSED_NOT_IN_ORDER));
        EXPECT(withdraw(box, 5) == RESERVE_REFUSED_NOT_IN_ORDER);
        EXPECT(refused(grant_level(box, 100, 4), RESERVE_REFUSED_LEVEL));
        EXPECT(refused(grant_pages(box, 100, 8), RESERVE_REFUSED_PAGES));
        EXPECT(refused(release(box, 4096), RESERVE_REFUSED_TENANT));
        EXPECT(unchanged(box, kept));
        forget(kept);
        close_box(box);
    }
}

/* all tenants at once, and all again, but none with more; the first one's page goes to the last one, and that one's to the first */
static void everybody(void) {
    struct box box = open_box(12);
    unsigned t;
    int right = 1;
    for (t = 0; t < 2 * RESERVE_TENANTS; t++) {
        uint16_t tenant = (uint16_t)(t % RESERVE_TENANTS);
        right = right && granted(box, grant_level(box, tenant, 0), tenant, 4096u + tenant, 0);
    }
    EXPECT(right);
    EXPECT(refused(grant_level(box, 0, 1), RESERVE_REFUSED_HOLDS));
    EXPECT(released(box, release(box, 0), 0, 4096, 1) && is_direct(box.moves, 0, 4095, 8191, 4096));
    EXPECT(refused(grant_level(box, 0, 1), RESERVE_REFUSED_NO_ROOM));
    EXPECT(refused(grant_pages(box, 0, 0), RESERVE_REFUSED_NO_ROOM));
    EXPECT(granted(box, grant_level(box, 0, 0), 0, 8191, 0));
    right = released(box, release(box, 0), 0, 8191, 0);
    for (t = RESERVE_TENANTS - 2; t > 0; t--) {
        right = right && released(box, release(box, (uint16_t)t), t, 4096 + t, 0);
    }
    right = right && released(box, release(box, 4095), 4095, 4096, 0);
    EXPECT(right);
    EXPECT(all_are(box.table, 0));
    close_box(box);
}

/* ---- a start that is repeated */

/* the node that the tenant has if it asks for just that level, else 8; not one lent byte changes */
static int told(struct box box, struct kept kept, struct reserve_outcome got, unsigned tenant, int same) {
    int is_right = same ? granted(box, got, tenant, node_of(box.table, tenant), 0) : refused(got, RESERVE_REFUSED_HOLDS);
    return is_right && unchanged(box, kept);
}

/* tenant 0 has two pages of eight, and tenant 4095 four: every level, and every size after it is rounded */
static void start_again(struct box box) {
    struct kept kept = keep(box);
    uint16_t level, pages;
    for (level = 0; level <= 3; level++) {
        EXPECT(told(box, kept, grant_level(box, 0, level), 0, level == 1));
        EXPECT(told(box, kept, grant_level(box, 4095, level), 4095, level == 2));
    }
    for (pages = 0; pages <= 7; pages++) {
        EXPECT(told(box, kept, grant_pages(box, 0, pages), 0, pages == 1));
        EXPECT(told(box, kept, grant_pages(box, 4095, pages), 4095, pages == 2 || pages == 3));
    }
    forget(kept);
}

/* with room for another tenant, without, and after a growth there and back */
static void starting_again(void) {
    struct box box = open_box(3);
    EXPECT(granted(box, grant_level(box, 0, 1), 0, 4, 0));
    EXPECT(granted(box, grant_pages(box, 4095, 3), 4095, 2, 1));
    EXPECT(is_direct(box.moves, 0, 0, 4, 6));
    start_again(box);
    EXPECT(granted(box, grant_level(box, 7, 1), 7, 5, 2));
    EXPECT(refused(grant_level(box, 8, 0), RESERVE_REFUSED_NO_ROOM));
    start_again(box);
    EXPECT(grow(box, 4095, 0).answer == RESERVE_DONE);
    EXPECT(refused(grant_level(box, 4095, 2), RESERVE_REFUSED_HOLDS));
    EXPECT(granted(box, grant_level(box, 4095, 0), 4095, node_of(box.table, 4095), 0));
    EXPECT(grow(box, 4095, 2).answer == RESERVE_DONE);
    start_again(box);
    close_box(box);
}

/* a list of fewer than 32 bytes is refused here too; 32 and more are not written */
static void bytes_of_starting_again(void) {
    size_t n;
    for (n = 0; n <= RESERVE_MOVES_BYTES + RESERVE_MOVE_BYTES; n++) {
        unsigned answer = n < RESERVE_MOVES_BYTES ? RESERVE_REFUSED_MOVES : RESERVE_DONE;
        struct lent table = lend(RESERVE_TABLE_BYTES, 0);
        struct lent line = lend(RESERVE_LINE_BYTES, 0);
        struct lent moves = lend(n, 0x22);
        put_node(table, 4095, 2);
        EXPECT(grant_level_on(2, table, line, moves, 4095, 1).answer == answer);
        EXPECT(grant_pages_on(2, table, line, moves, 4095, 1).answer == answer);
        EXPECT(all_are(line, 0) && all_are(moves, 0x22) && node_of(table, 4095) == 2);
        give_back(table);
        give_back(line);
        give_back(moves);
    }
}

/* ---- growth */

/* four pages: a tenant gives up its page for two others, on which somebody lies who moves to that page */
static void growing(void) {
    struct box box = open_box(2);
    EXPECT(granted(box, grant_level(box, 0, 0), 0, 4, 0));
    EXPECT(granted(box, grant_level(box, 1, 0), 1, 5, 0));
    EXPECT(granted(box, grant_level(box, 2, 1), 2, 3, 0));
    EXPECT(refused(grow(box, 0, 1), RESERVE_REFUSED_NO_ROOM));
    EXPECT(refused(grow(box, 3, 1), RESERVE_REFUSED_HOLDS_NONE));
    EXPECT(moves_end_after(box, 0));
    EXPECT(node_of(box.table, 0) == 4 && node_of(box.table, 1) == 5 && node_of(box.table, 2) == 3);
    EXPECT(granted(box, grow(box, 2, 1), 2, 3, 0));
    EXPECT(granted(box, grow(box, 2, 0), 2, 6, 0));
    EXPECT(granted(box, grow(box, 0, 1), 0, 3, 1));
    EXPECT(is_direct(box.moves, 0, 2, 6, 4));
    EXPECT(node_of(box.table, 1) == 5 && node_of(box.table, 2) == 4);
    close_box(box);
}

/* Height 9, with the counts 3, 3, 3, 1, 3, 1, 1, 2 on levels 0 to 7, held by tenants 0 to 16 from the lowest node on. A tenant
 * on node 257 or 258 that grows to level 5 moves seven others, and one on 259 six. */
static const unsigned crowd[] = {5, 6, 14, 18, 34, 35, 38, 67, 130, 131, 132, 257, 258, 259, 512, 513, 532};

static void seat_crowd(struct lent table) {
    unsigned tenant;
    for (tenant = 0; tenant < sizeof crowd / sizeof crowd[0]; tenant++) {
        put_node(table, tenant, crowd[tenant]);
    }
}

/* the last ones of the list, which are the same for all three */
static int is_end_of_list(struct lent moves, unsigned place) {
    return is_direct(moves, place, 16, 532, 518) && is_direct(moves, place + 1, 7, 67, 66) &&
           is_staged(moves, place + 2, 2, 14, 10) && is_staged(moves, place + 3, 10, 132, 134);
}

static void seven_moves(void) {
    unsigned tenant, i;
    for (tenant = 11; tenant <= 13; tenant++) {
        struct box box = open_box(9);
        unsigned moved = crowd[tenant] == 259 ? 6 : 7;
        seat_crowd(box.table);
        EXPECT(granted(box, grow(box, (uint16_t)tenant, 5), tenant, 19, moved));
        EXPECT(is_direct(box.moves, 0, 0, 5, 7) && is_direct(box.moves, 1, 6, 38, 44));
        EXPECT(moved == 6 || is_direct(box.moves, 2, 13, 259, crowd[tenant]));
        EXPECT(is_end_of_list(box.moves, moved - 4));
        for (i = 0; i < moved; i++) {
            const uint8_t *move = box.moves.bytes + RESERVE_MOVE_BYTES * i;
            EXPECT(node_of(box.table, word(move)) == word(move + 4));
        }
        EXPECT(granted(box, grow(box, (uint16_t)tenant, 1), tenant, 259, 6));
        close_box(box);
    }
}

/* seven moves go into just the bytes that have to be lent, and with one byte fewer nothing is done; more are left alone */
static void bytes_of_seven_moves(void) {
    static const size_t lengths[] = {55, 56, 57, 64};
    size_t i, n;
    for (i = 0; i < sizeof lengths / sizeof lengths[0]; i++) {
        struct lent table = lend(RESERVE_TABLE_BYTES, 0);
        struct lent moves = lend(lengths[i], 0x22);
        struct reserve_outcome got;
        seat_crowd(table);
        got = reserve_grow(9, table.bytes, table.length, moves.bytes, moves.length, 11, 5);
        if (lengths[i] < RESERVE_GROW_MOVES_BYTES) {
            EXPECT(refused(got, RESERVE_REFUSED_MOVES));
            EXPECT(all_are(moves, 0x22) && node_of(table, 0) == 5 && node_of(table, 11) == 257);
        } else {
            EXPECT(got.answer == RESERVE_DONE && got.node == 19 && got.moves == 7 && is_end_of_list(moves, 3));
            for (n = RESERVE_GROW_MOVES_BYTES; n < moves.length; n++) {
                EXPECT(moves.bytes[n] == 0x22);
            }
        }
        give_back(table);
        give_back(moves);
    }
}

/* every refusal of a growth, with all later ones present too: the first is answered, and no byte changes */
static void arguments_of_growth(void) {
    struct box box = open_box(3);
    struct lent longer = lend(RESERVE_TABLE_BYTES + 2, 0x11);
    struct lent few = lend(RESERVE_GROW_MOVES_BYTES - 1, 0x22);
    struct kept kept;
    EXPECT(granted(box, grant_level(box, 5, 1), 5, 4, 0));
    EXPECT(grant_level(box, 6, 2).answer == RESERVE_DONE);
    kept = keep(box);
    EXPECT(refused(reserve_grow(13, longer.bytes, longer.length, few.bytes, few.length, 4096, 14), RESERVE_REFUSED_HEIGHT));
    EXPECT(refused(reserve_grow(12, longer.bytes, longer.length, few.bytes, few.length, 4096, 14), RESERVE_REFUSED_TABLE_LENGTH));
    EXPECT(refused(reserve_grow(12, NULL, 0, NULL, 0, 4096, 14), RESERVE_REFUSED_TABLE_LENGTH));
    EXPECT(refused(reserve_grow(3, box.table.bytes, box.table.length, few.bytes, few.length, 4096, 4), RESERVE_REFUSED_MOVES));
    EXPECT(refused(reserve_grow(3, box.table.bytes, box.table.length, NULL, 0, 4096, 4), RESERVE_REFUSED_MOVES));
    EXPECT(refused(grow(box, 4096, 4), RESERVE_REFUSED_TENANT));
    EXPECT(refused(grow(box, 65535, 65535), RESERVE_REFUSED_TENANT));
    EXPECT(refused(grow(box, 7, 4), RESERVE_REFUSED_LEVEL));
    EXPECT(refused(grow(box, 5, 65535), RESERVE_REFUSED_LEVEL));
    EXPECT(refused(grow(box, 7, 3), RESERVE_REFUSED_HOLDS_NONE));
    EXPECT(refused(grow(box, 5, 3), RESERVE_REFUSED_NO_ROOM));
    EXPECT(unchanged(box, kept));
    EXPECT(all_are(longer, 0x11) && all_are(few, 0x22));
    forget(kept);
    give_back(longer);
    give_back(few);
    close_box(box);
}

/* a list of fewer than 56 bytes is refused whatever the level, that of the tenant too; 56 and more are not */
static void bytes_of_growth(void) {
    size_t n;
    uint16_t level;
    for (n = 0; n <= RESERVE_GROW_MOVES_BYTES + RESERVE_MOVE_BYTES; n++) {
        unsigned answer = n < RESERVE_GROW_MOVES_BYTES ? RESERVE_REFUSED_MOVES : RESERVE_DONE;
        struct lent table = lend(RESERVE_TABLE_BYTES, 0);
        struct lent moves = lend(n, 0x22);
        for (level = 0; level <= 2; level++) {
            put_node(table, 4095, 2);
            EXPECT(reserve_grow(2, table.bytes, table.length, moves.bytes, n, 4095, level).answer == answer);
            EXPECT(node_of(table, 4095) == (n < RESERVE_GROW_MOVES_BYTES ? 2 : 4u >> level));
        }
        EXPECT(all_are(moves, 0x22));
        give_back(table);
        give_back(moves);
    }
}

/* ---- the line */

/* who waits, as 'tenant:level:passed' from the oldest on, and whether other than zeros stand behind them */
static const char *text_of(struct lent line) {
    static char text[32 * RESERVE_LINE_PLACES];
    unsigned waiting = word(line.bytes), i;
    size_t end = 0, behind;
    text[0] = 0;
    for (i = 0; i < waiting && i < RESERVE_LINE_PLACES; i++) {
        const uint8_t *one = line.bytes + 2 + 6 * i;
        end += (size_t)sprintf(text + end, "%s%u:%u:%u", i == 0 ? "" : " ", word(one), word(one + 2), word(one + 4));
    }
    for (behind = 2 + 6 * (size_t)waiting; behind < line.length; behind++) {
        if (line.bytes[behind] != 0) {
            return "more than who waits";
        }
    }
    return text;
}

static int waits(struct box box, const char *who) { return strcmp(text_of(box.line), who) == 0; }

/* four pages: who finds no room waits, and is admitted in turn or withdraws */
static void waiting(void) {
    struct box box = open_box(2);
    EXPECT(granted(box, grant_level(box, 0, 1), 0, 2, 0));
    EXPECT(granted(box, grant_level(box, 1, 1), 1, 3, 0));
    EXPECT(refused(grant_level(box, 2, 1), RESERVE_REFUSED_NO_ROOM));
    EXPECT(join(box, 2, 1) == RESERVE_DONE && waits(box, "2:1:0"));
    EXPECT(join(box, 4095, 0) == RESERVE_DONE && waits(box, "2:1:0 4095:0:0"));
    EXPECT(admits_nobody(box, RESERVE_DONE) && waits(box, "2:1:0 4095:0:0"));
    EXPECT(released(box, release(box, 1), 1, 3, 0) && waits(box, "2:1:0 4095:0:0"));
    EXPECT(admitted(box, admit(box), 2, 3, 0) && waits(box, "4095:0:0"));
    EXPECT(admits_nobody(box, RESERVE_DONE) && waits(box, "4095:0:0"));
    EXPECT(withdraw(box, 4095) == RESERVE_DONE && waits(box, ""));
    EXPECT(withdraw(box, 4095) == RESERVE_REFUSED_HOLDS_NONE);
    EXPECT(withdraw(box, 0) == RESERVE_REFUSED_HOLDS_NONE);
    EXPECT(admits_nobody(box, RESERVE_DONE));
    EXPECT(node_of(box.table, 0) == 2 && node_of(box.table, 2) == 3);
    close_box(box);
}

/* the moves of an admit are those of a direct grant, and 32 bytes are enough for them */
static void moves_of_admit(void) {
    struct box box = open_crowded_box();
    struct lent few = lend(RESERVE_MOVES_BYTES - 1, 0x22);
    struct lent enough = lend(RESERVE_MOVES_BYTES, 0x22);
    struct reserve_admission got;
    EXPECT(join(box, 14, 1) == RESERVE_DONE);
    EXPECT(admitted_nobody(admit_on(5, box.table, box.line, few), RESERVE_REFUSED_MOVES));
    EXPECT(all_are(few, 0x22) && node_of(box.table, 10) == 34 && waits(box, "14:1:0"));
    got = admit_on(5, box.table, box.line, enough);
    EXPECT(got.answer == RESERVE_DONE && got.tenant == 14 && got.node == 17 && got.moves == 3);
    EXPECT(is_direct(enough, 0, 4095, 5, 6) && is_direct(enough, 1, 10, 34, 44) && is_staged(enough, 2, 13, 12, 10));
    EXPECT(node_of(box.table, 14) == 17 && node_of(box.table, 4095) == 6);
    EXPECT(node_of(box.table, 10) == 44 && node_of(box.table, 13) == 10);
    give_back(few);
    give_back(enough);
    close_box(box);
}

/* Tenant 5 waits for the whole of four pages. Others pass it, by admits and directly, and a start that is repeated passes nobody;
 * from the eighth on all are barred, until it goes or gets its pages. */
static struct box open_box_passed_eight_times(void) {
    struct box box = open_box(2);
    unsigned times;
    EXPECT(granted(box, grant_level(box, 0, 1), 0, 2, 0));
    EXPECT(join(box, 5, 2) == RESERVE_DONE && join(box, 6, 0) == RESERVE_DONE && join(box, 7, 1) == RESERVE_DONE);
    EXPECT(admitted(box, admit(box), 6, 6, 0) && waits(box, "5:2:1 7:1:0"));
    EXPECT(admits_nobody(box, RESERVE_DONE) && waits(box, "5:2:1 7:1:0"));
    EXPECT(granted(box, grant_level(box, 8, 0), 8, 5, 2) && waits(box, "5:2:2 7:1:1"));
    EXPECT(granted(box, grant_level(box, 8, 0), 8, 5, 0) && waits(box, "5:2:2 7:1:1"));
    EXPECT(refused(grant_level(box, 9, 0), RESERVE_REFUSED_NO_ROOM) && waits(box, "5:2:2 7:1:1"));
    EXPECT(release(box, 6).answer == RESERVE_DONE && release(box, 8).answer == RESERVE_DONE);
    EXPECT(admitted(box, admit(box), 7, 3, 0) && waits(box, "5:2:3"));
    EXPECT(released(box, release(box, 7), 7, 3, 0));
    for (times = 4; times <= RESERVE_MOST_PASSES; times++) {
        EXPECT(grant_pages(box, 8, 1).answer == RESERVE_DONE);
        EXPECT(release(box, 8).answer == RESERVE_DONE);
    }
    EXPECT(waits(box, "5:2:8"));
    return box;
}

static void passing(void) {
    struct box box = open_box_passed_eight_times();
    EXPECT(refused(grant_level(box, 8, 0), RESERVE_REFUSED_NO_ROOM));
    EXPECT(refused(grant_pages(box, 8, 1), RESERVE_REFUSED_NO_ROOM));
    EXPECT(granted(box, grant_level(box, 0, 1), 0, 2, 0));
    EXPECT(refused(grant_level(box, 0, 0), RESERVE_REFUSED_HOLDS));
    EXPECT(refused(grant_level(box, 5, 0), RESERVE_REFUSED_WAITS));
    EXPECT(granted(box, grow(box, 0, 0), 0, 4, 0));
    EXPECT(join(box, 9, 0) == RESERVE_DONE);
    EXPECT(admits_nobody(box, RESERVE_DONE) && waits(box, "5:2:8 9:0:0"));
    EXPECT(withdraw(box, 5) == RESERVE_DONE && waits(box, "9:0:0"));
    EXPECT(admitted(box, admit(box), 9, 5, 0));
    close_box(box);
    box = open_box_passed_eight_times();
    EXPECT(join(box, 9, 0) == RESERVE_DONE && released(box, release(box, 0), 0, 2, 0));
    EXPECT(refused(grant_level(box, 8, 0), RESERVE_REFUSED_NO_ROOM));
    EXPECT(admitted(box, admit(box), 5, 1, 0) && waits(box, "9:0:0"));
    give_back_box(box);
}

/* as many as there are places, and each is admitted in its turn; one more is refused, but not before 8 and 18 */
static void full_line(void) {
    struct box box = open_box(6);
    unsigned node = 64;
    uint16_t i;
    int right = 1;
    for (i = 0; i < RESERVE_LINE_PLACES; i++) {
        right = right && join(box, (uint16_t)(4095 - i), 0) == RESERVE_DONE && word(box.line.bytes) == i + 1u;
    }
    EXPECT(right);
    EXPECT(join(box, 0, 0) == RESERVE_REFUSED_LINE_FULL);
    EXPECT(join(box, 4095, 0) == RESERVE_REFUSED_WAITS && join(box, 4032, 6) == RESERVE_REFUSED_WAITS);
    EXPECT(granted(box, grant_level(box, 1, 0), 1, 64, 0));
    EXPECT(join(box, 1, 0) == RESERVE_REFUSED_HOLDS);
    EXPECT(released(box, release(box, 1), 1, 64, 0));
    EXPECT(withdraw(box, 4095) == RESERVE_DONE && withdraw(box, 4032) == RESERVE_DONE && withdraw(box, 4060) == RESERVE_DONE);
    EXPECT(word(box.line.bytes) == 61 && join(box, 4095, 1) == RESERVE_DONE);
    for (i = 4094; i > 4032; i--) {
        right = right && (i == 4060 || admitted(box, admit(box), i, node++, 0));
    }
    EXPECT(right && waits(box, "4095:1:0"));
    EXPECT(admitted(box, admit(box), 4095, 62, 1) && waits(box, ""));
    close_box(box);
}

/* every refusal of the three calls, with all later ones present too: the first is answered, and no byte changes */
static void arguments_of_line(void) {
    struct box box = open_box(3);
    struct lent longer = lend(RESERVE_TABLE_BYTES + 2, 0x11);
    struct lent shorter = lend(RESERVE_LINE_BYTES - 1, 0x11);
    struct lent few = lend(RESERVE_MOVES_BYTES - 1, 0x22);
    struct kept kept;
    EXPECT(granted(box, grant_level(box, 5, 3), 5, 1, 0) && join(box, 6, 3) == RESERVE_DONE);
    kept = keep(box);
    EXPECT(join_on(13, longer, shorter, 4096, 14) == RESERVE_REFUSED_HEIGHT);
    EXPECT(admitted_nobody(admit_on(13, longer, shorter, few), RESERVE_REFUSED_HEIGHT));
    EXPECT(withdraw_on(13, longer, shorter, 4096) == RESERVE_REFUSED_HEIGHT);
    EXPECT(join_on(3, box.table, shorter, 4096, 4) == RESERVE_REFUSED_TABLE_LENGTH);
    EXPECT(admitted_nobody(admit_on(3, box.table, shorter, few), RESERVE_REFUSED_TABLE_LENGTH));
    EXPECT(withdraw_on(3, box.table, shorter, 4096) == RESERVE_REFUSED_TABLE_LENGTH);
    EXPECT(admitted_nobody(admit_on(3, box.table, box.line, few), RESERVE_REFUSED_MOVES));
    EXPECT(admitted_nobody(admit_on(3, box.table, box.line, nothing), RESERVE_REFUSED_MOVES));
    EXPECT(join(box, 4096, 4) == RESERVE_REFUSED_TENANT && join(box, 65535, 65535) == RESERVE_REFUSED_TENANT);
    EXPECT(withdraw(box, 4096) == RESERVE_REFUSED_TENANT && withdraw(box, 65535) == RESERVE_REFUSED_TENANT);
    EXPECT(join(box, 5, 4) == RESERVE_REFUSED_LEVEL && join(box, 6, 65535) == RESERVE_REFUSED_LEVEL);
    EXPECT(join(box, 5, 3) == RESERVE_REFUSED_HOLDS && join(box, 5, 0) == RESERVE_REFUSED_HOLDS);
    EXPECT(join(box, 6, 3) == RESERVE_REFUSED_WAITS && join(box, 6, 0) == RESERVE_REFUSED_WAITS);
    EXPECT(refused(grant_level(box, 6, 3), RESERVE_REFUSED_WAITS) && refused(grant_pages(box, 6, 0), RESERVE_REFUSED_WAITS));
    EXPECT(withdraw(box, 5) == RESERVE_REFUSED_HOLDS_NONE && withdraw(box, 7) == RESERVE_REFUSED_HOLDS_NONE);
    EXPECT(unchanged(box, kept));
    EXPECT(all_are(longer, 0x11) && all_are(shorter, 0x11) && all_are(few, 0x22));
    forget(kept);
    give_back(longer);
    give_back(shorter);
    give_back(few);
    give_back_box(box);
}

/* eight pages, of which tenant 50 holds two, with tenants 100 and 4095 in line; then one number there is another */
static struct box open_box_with_line(unsigned place, unsigned number) {
    struct box box = open_box(3);
    EXPECT(granted(box, grant_level(box, 50, 1), 50, 4, 0));
    EXPECT(join(box, 100, 1) == RESERVE_DONE && join(box, 4095, 3) == RESERVE_DONE);
    put_number(box.line, place, number);
    return box;
}

/* lines that no call leaves: every call that takes one refuses it, after what is wrong with its arguments and before all else; a
 * release and a growth take none */
static void lines_not_in_order(void) {
    static const unsigned wrong[][2] = {{0, 65},   {0, 65535}, {0, 1},    {0, 4},    {1, 4096}, {1, 65535}, {1, 4095}, {1, 50},
                                        {4, 100},  {2, 4},     {2, 256},  {5, 65535}, {3, 9},   {6, 65535}, {7, 1},    {8, 1},
                                        {9, 256},  {192, 1},   {192, 32768}};
    size_t i;
    for (i = 0; i < sizeof wrong / sizeof wrong[0]; i++) {
        struct box box = open_box_with_line(wrong[i][0], wrong[i][1]);
        struct kept kept = keep(box);
        EXPECT(refused(grant_level(box, 5, 0), RESERVE_REFUSED_NOT_IN_ORDER));
        EXPECT(refused(grant_level(box, 50, 1), RESERVE_REFUSED_NOT_IN_ORDER));
        EXPECT(refused(grant_level(box, 50, 2), RESERVE_REFUSED_NOT_IN_ORDER));
        EXPECT(refused(grant_pages(box, 100, 1), RESERVE_REFUSED_NOT_IN_ORDER));
        EXPECT(refused(grant_level(box, 5, 4), RESERVE_REFUSED_LEVEL));
        EXPECT(join(box, 5, 0) == RESERVE_REFUSED_NOT_IN_ORDER && join(box, 50, 0) == RESERVE_REFUSED_NOT_IN_ORDER);
        EXPECT(join(box, 100, 0) == RESERVE_REFUSED_NOT_IN_ORDER && join(box, 5, 4) == RESERVE_REFUSED_LEVEL);
        EXPECT(admits_nobody(box, RESERVE_REFUSED_NOT_IN_ORDER));
        EXPECT(withdraw(box, 100) == RESERVE_REFUSED_NOT_IN_ORDER && withdraw(box, 5) == RESERVE_REFUSED_NOT_IN_ORDER);
        EXPECT(unchanged(box, kept));
        EXPECT(granted(box, grow(box, 50, 0), 50, 8, 0) && released(box, release(box, 50), 50, 8, 0));
        EXPECT(memcmp(kept.line, box.line.bytes, box.line.length) == 0);
        forget(kept);
        give_back_box(box);
    }
}

/* lines at the edges of what is in order: counts up to eight, the older one's or the younger one's, levels up to the height, and
 * three zeros for tenant 0, who waits for a page */
static void lines_in_order(void) {
    static const struct {
        unsigned place, number;
        const char *who;
    } right[] = {{3, 8, "100:1:8 4095:3:0"}, {6, 8, "100:1:0 4095:3:8"}, {2, 3, "100:3:0 4095:3:0"}, {1, 0, "0:1:0 4095:3:0"},
                 {0, 3, "100:1:0 4095:3:0 0:0:0"}};
    size_t i;
    for (i = 0; i < sizeof right / sizeof right[0]; i++) {
        struct box box = open_box_with_line(right[i].place, right[i].number);
        EXPECT(waits(box, right[i].who));
        EXPECT(withdraw(box, 7) == RESERVE_REFUSED_HOLDS_NONE && waits(box, right[i].who));
        EXPECT(withdraw(box, 4095) == RESERVE_DONE && join(box, 4094, 2) == RESERVE_DONE);
        give_back_box(box);
    }
}

/* how many wait, and of each the tenant, the level and the count, the low byte first */
static void byte_order_of_line(void) {
    static const uint8_t numbers[] = {2, 0, 0x02, 0x01, 12, 0, 0, 0, 0xFF, 0x0F, 3, 0, 0, 0};
    struct box box = open_box(12);
    EXPECT(join(box, 258, 12) == RESERVE_DONE && join(box, 4095, 3) == RESERVE_DONE);
    EXPECT(memcmp(box.line.bytes, numbers, sizeof numbers) == 0);
    give_back_box(box);
}

/* ---- the page map */

static int counts(struct lent map, unsigned answer, unsigned count) {
    struct reserve_counted got = reserve_count(map.bytes, map.length);
    return got.answer == answer && got.count == count;
}

static void page_map(void) {
    struct box box = open_box(3);
    struct lent map = lend(RESERVE_MAP_BYTES + 3, 0xFF);
    struct lent shorter = lend(RESERVE_MAP_BYTES - 1, 0xFF);
    size_t i;
    int clear = 1;
    EXPECT(grant_level(box, 0, 1).answer == RESERVE_DONE);
    EXPECT(grant_level(box, 1, 0).answer == RESERVE_DONE);
    EXPECT(counts(map, RESERVE_DONE, 4096));
    EXPECT(reserve_draw(3, box.table.bytes, box.table.length, map.bytes, map.length) == RESERVE_DONE);
    EXPECT(map.bytes[0] == 0x07);
    for (i = 1; i < RESERVE_MAP_BYTES; i++) {
        clear = clear && map.bytes[i] == 0;
    }
    EXPECT(clear);
    for (; i < map.length; i++) {
        EXPECT(map.bytes[i] == 0xFF);
    }
    EXPECT(counts(map, RESERVE_DONE, 3));
    memset(map.bytes, 0x6C, map.length);
    EXPECT(reserve_draw(13, box.table.bytes, box.table.length, shorter.bytes, shorter.length) == RESERVE_REFUSED_HEIGHT);
    EXPECT(reserve_draw(3, box.table.bytes, box.table.length - 1, shorter.bytes, shorter.length) == RESERVE_REFUSED_TABLE_LENGTH);
    EXPECT(reserve_draw(3, NULL, 0, NULL, 0) == RESERVE_REFUSED_TABLE_LENGTH);
    EXPECT(reserve_draw(3, box.table.bytes, box.table.length, shorter.bytes, shorter.length) == RESERVE_REFUSED_TOO_SHORT);
    EXPECT(reserve_draw(3, box.table.bytes, box.table.length, NULL, 0) == RESERVE_REFUSED_TOO_SHORT);
    put_node(box.table, 9, 4);
    EXPECT(reserve_draw(3, box.table.bytes, box.table.length, shorter.bytes, shorter.length) == RESERVE_REFUSED_NOT_IN_ORDER);
    EXPECT(reserve_draw(3, box.table.bytes, box.table.length, map.bytes, map.length) == RESERVE_REFUSED_NOT_IN_ORDER);
    EXPECT(all_are(map, 0x6C) && all_are(shorter, 0xFF));
    EXPECT(counts(shorter, RESERVE_REFUSED_TOO_SHORT, 0));
    EXPECT(reserve_count(NULL, 0).answer == RESERVE_REFUSED_TOO_SHORT);
    close_box(box);
    give_back(map);
    give_back(shorter);
    box = open_box(12);
    map = lend(RESERVE_MAP_BYTES, 0);
    EXPECT(grant_pages(box, 3, 2047).answer == RESERVE_DONE);
    EXPECT(reserve_draw(12, box.table.bytes, box.table.length, map.bytes, map.length) == RESERVE_DONE);
    EXPECT(map.bytes[0] == 0xFF && map.bytes[255] == 0xFF && map.bytes[256] == 0 && map.bytes[511] == 0);
    EXPECT(counts(map, RESERVE_DONE, 2048));
    close_box(box);
    give_back(map);
}

/* ---- bytes that lie side by side: a table, with the moves or the map right in front of it or right behind it */

static int same(struct reserve_outcome one, struct reserve_outcome other) {
    return one.answer == other.answer && one.node == other.node && one.moves == other.moves;
}

static void side_by_side(void) {
    struct box apart = open_box(5);
    struct lent line = lend(RESERVE_LINE_BYTES, 0);
    struct lent map = lend(RESERVE_MAP_BYTES, 0);
    struct lent joint = lend(RESERVE_MAP_BYTES + RESERVE_TABLE_BYTES + RESERVE_MAP_BYTES, 0);
    uint8_t *table = joint.bytes + RESERVE_MAP_BYTES;
    uint8_t *behind = table + RESERVE_TABLE_BYTES;
    static const uint8_t levels[] = {0, 1, 2, 2, 3, 1};
    unsigned t;
    for (t = 0; t < sizeof levels; t++) {
        uint8_t *moves = t % 2 == 0 ? table - RESERVE_MOVES_BYTES : behind;
        struct reserve_outcome got;
        memset(moves, 0x77, RESERVE_MOVES_BYTES);
        got = reserve_grant_level(5, table, RESERVE_TABLE_BYTES, line.bytes, line.length, moves, RESERVE_MOVES_BYTES,
                                  (uint16_t)t, levels[t]);
        EXPECT(same(got, grant_level(apart, (uint16_t)t, levels[t])) && got.answer == RESERVE_DONE);
        EXPECT(memcmp(table, apart.table.bytes, RESERVE_TABLE_BYTES) == 0);
        EXPECT(memcmp(moves, apart.moves.bytes, RESERVE_MOVES_BYTES) == 0);
    }
    for (t = 0; t < sizeof levels; t++) {
        uint8_t *moves = t % 2 == 0 ? table - RESERVE_GROW_MOVES_BYTES : behind;
        struct reserve_outcome got;
        memset(moves, 0x77, RESERVE_GROW_MOVES_BYTES);
        got = reserve_grow(5, table, RESERVE_TABLE_BYTES, moves, RESERVE_GROW_MOVES_BYTES, (uint16_t)t, levels[t] / 2);
        EXPECT(same(got, grow(apart, (uint16_t)t, levels[t] / 2)) && got.answer == RESERVE_DONE);
        EXPECT(memcmp(table, apart.table.bytes, RESERVE_TABLE_BYTES) == 0);
        EXPECT(memcmp(moves, apart.moves.bytes, RESERVE_GROW_MOVES_BYTES) == 0);
    }
    EXPECT(reserve_draw(5, apart.table.bytes, RESERVE_TABLE_BYTES, map.bytes, RESERVE_MAP_BYTES) == RESERVE_DONE);
    EXPECT(reserve_draw(5, table, RESERVE_TABLE_BYTES, joint.bytes, RESERVE_MAP_BYTES) == RESERVE_DONE);
    EXPECT(reserve_draw(5, table, RESERVE_TABLE_BYTES, behind, RESERVE_MAP_BYTES) == RESERVE_DONE);
    EXPECT(memcmp(joint.bytes, map.bytes, RESERVE_MAP_BYTES) == 0 && memcmp(behind, map.bytes, RESERVE_MAP_BYTES) == 0);
    /* no bytes overlap nothing, wherever their pointer points */
    EXPECT(refused(reserve_release(5, table, RESERVE_TABLE_BYTES, table + 2, 0, 1), RESERVE_REFUSED_MOVES));
    EXPECT(reserve_draw(5, table, RESERVE_TABLE_BYTES, table + 2, 0) == RESERVE_REFUSED_TOO_SHORT);
    EXPECT(memcmp(table, apart.table.bytes, RESERVE_TABLE_BYTES) == 0);
    close_box(apart);
    give_back(line);
    give_back(map);
    give_back(joint);
}

/* a part of lent bytes; those around it are not its guards, so it is not given back */
static struct lent part_of(struct lent whole, size_t from, size_t length) {
    struct lent part = {whole.whole, whole.bytes + from, length};
    return part;
}

/* a table, a line and moves side by side, each of them first, in the middle and last: calls that move others and pass those who
 * wait come out as on bytes that lie apart */
static void three_side_by_side(void) {
    static const size_t order[][3] = {{0, 1, 2}, {0, 2, 1}, {1, 0, 2}, {1, 2, 0}, {2, 0, 1}, {2, 1, 0}};
    static const size_t lengths[] = {RESERVE_TABLE_BYTES, RESERVE_LINE_BYTES, RESERVE_GROW_MOVES_BYTES + 7};
    size_t i, j;
    for (i = 0; i < sizeof order / sizeof order[0]; i++) {
        struct box apart = open_crowded_box(), joint = apart;
        struct lent whole = lend(lengths[0] + lengths[1] + lengths[2], 0), part[3];
        size_t from = 0;
        for (j = 0; j < 3; j++) {
            part[order[i][j]] = part_of(whole, from, lengths[order[i][j]]);
            from += lengths[order[i][j]];
        }
        joint.table = part[0];
        joint.line = part[1];
        joint.moves = part[2];
        memcpy(joint.table.bytes, apart.table.bytes, RESERVE_TABLE_BYTES);
        EXPECT(join(apart, 20, 5) == RESERVE_DONE && join(joint, 20, 5) == RESERVE_DONE);
        EXPECT(join(apart, 14, 1) == RESERVE_DONE && join(joint, 14, 1) == RESERVE_DONE);
        EXPECT(admitted(apart, admit(apart), 14, 17, 3) && admitted(joint, admit(joint), 14, 17, 3));
        EXPECT(same(grant_level(apart, 21, 0), grant_level(joint, 21, 0)));
        EXPECT(waits(apart, "20:5:2") && waits(joint, "20:5:2"));
        EXPECT(memcmp(joint.table.bytes, apart.table.bytes, RESERVE_TABLE_BYTES) == 0);
        EXPECT(memcmp(joint.moves.bytes, apart.moves.bytes, apart.moves.length) == 0);
        EXPECT(withdraw(joint, 20) == RESERVE_DONE && waits(joint, ""));
        EXPECT(memcmp(joint.table.bytes, apart.table.bytes, RESERVE_TABLE_BYTES) == 0);
        give_back_box(apart);
        give_back(whole);
    }
}

/* ---- what the manual says of keeping a journal, a table and a line */

/* granted in another order, the same holdings occupy the same places, and not with the same tenants */
static void in_another_order(void) {
    struct box one = open_box(2), other = open_box(2);
    EXPECT(granted(one, grant_level(one, 0, 0), 0, 4, 0) && granted(one, grant_level(one, 1, 0), 1, 5, 0));
    EXPECT(granted(other, grant_level(other, 1, 0), 1, 4, 0) && granted(other, grant_level(other, 0, 0), 0, 5, 0));
    EXPECT(memcmp(one.table.bytes, other.table.bytes, RESERVE_TABLE_BYTES) != 0);
    EXPECT(grant_level(one, 2, 1).node == grant_level(other, 2, 1).node);
    close_box(one);
    close_box(other);
}

/* a table from before an admit beside the line from after it is taken, and the tenant is in neither; the other way round it is 7 */
static void of_two_moments(void) {
    struct box box = open_box(2);
    struct kept before, after;
    EXPECT(join(box, 9, 1) == RESERVE_DONE);
    before = keep(box);
    EXPECT(admitted(box, admit(box), 9, 2, 0));
    after = keep(box);
    memcpy(box.table.bytes, before.table, RESERVE_TABLE_BYTES);
    EXPECT(admits_nobody(box, RESERVE_DONE) && reserve_look(box.table.bytes, box.table.length, 9).node == 0);
    memcpy(box.table.bytes, after.table, RESERVE_TABLE_BYTES);
    memcpy(box.line.bytes, before.line, RESERVE_LINE_BYTES);
    EXPECT(admits_nobody(box, RESERVE_REFUSED_NOT_IN_ORDER));
    forget(before);
    forget(after);
    give_back_box(box);
}

/* so many records of a length go into a journal behind its open, and no more */
static int go_in(size_t length, size_t records) {
    uint8_t out[RESERVE_RECORD_BYTES];
    size_t room = RESERVE_JOURNAL_BYTES - reserve_write_open(12, out, sizeof out).length;
    return length * records <= room && length * (records + 1) > room;
}

static void records_in_a_journal(void) {
    uint8_t out[RESERVE_RECORD_BYTES];
    size_t by_pages = reserve_write_grant_pages(1, 2, out, sizeof out).length;
    size_t stop = reserve_write_release(1, out, sizeof out).length;
    size_t admits = reserve_write_admit(out, sizeof out).length;
    EXPECT(go_in(reserve_write_grant_level(1, 2, out, sizeof out).length, 16383));
    EXPECT(go_in(reserve_write_grow(1, 2, out, sizeof out).length, 16383));
    EXPECT(go_in(reserve_write_join(1, 2, out, sizeof out).length, 16383));
    EXPECT(go_in(by_pages, 13106));
    EXPECT(go_in(stop, 21844) && go_in(reserve_write_withdraw(1, out, sizeof out).length, 21844));
    EXPECT(go_in(by_pages + stop + admits, 7281));
}

/* ---- a tenant's entry */

static int looks(struct lent table, unsigned tenant, unsigned answer, unsigned node) {
    struct reserve_entry got = reserve_look(table.bytes, table.length, (uint16_t)tenant);
    return got.answer == answer && got.node == node;
}

/* an entry of its own for each tenant, which no reserve could have */
static void looking(void) {
    static const size_t other_lengths[] = {1, 2, RESERVE_TABLE_BYTES - 2, RESERVE_TABLE_BYTES - 1, RESERVE_TABLE_BYTES + 1,
                                           RESERVE_TABLE_BYTES + 2};
    struct lent table = lend(RESERVE_TABLE_BYTES, 0);
    uint8_t *before;
    unsigned tenant;
    size_t i;
    int right = 1;
    for (tenant = 0; tenant < RESERVE_TENANTS; tenant++) {
        put_node(table, tenant, 65535 - 3 * tenant);
    }
    before = copy_of(table);
    for (tenant = 0; tenant <= 65535; tenant++) {
        right = right && (tenant < RESERVE_TENANTS ? looks(table, tenant, RESERVE_DONE, 65535 - 3 * tenant)
                                                   : looks(table, tenant, RESERVE_REFUSED_TENANT, 0));
    }
    EXPECT(right);
    EXPECT(memcmp(before, table.bytes, table.length) == 0);
    free(before);
    give_back(table);
    EXPECT(looks(nothing, 0, RESERVE_REFUSED_TABLE_LENGTH, 0) && looks(nothing, 4096, RESERVE_REFUSED_TABLE_LENGTH, 0));
    for (i = 0; i < sizeof other_lengths / sizeof other_lengths[0]; i++) {
        table = lend(other_lengths[i], 1);
        EXPECT(looks(table, 0, RESERVE_REFUSED_TABLE_LENGTH, 0) && looks(table, 4096, RESERVE_REFUSED_TABLE_LENGTH, 0));
        give_back(table);
    }
}

/* before and after each call a tenant's entry has its node, or 0 */
static void looking_between_calls(void) {
    struct box box = open_box(2);
    EXPECT(looks(box.table, 0, RESERVE_DONE, 0));
    EXPECT(granted(box, grant_level(box, 0, 1), 0, 2, 0) && looks(box.table, 0, RESERVE_DONE, 2));
    EXPECT(granted(box, grant_level(box, 1, 0), 1, 6, 0) && looks(box.table, 1, RESERVE_DONE, 6));
    EXPECT(granted(box, grant_level(box, 2, 0), 2, 5, 2));
    EXPECT(looks(box.table, 0, RESERVE_DONE, 3) && looks(box.table, 1, RESERVE_DONE, 4) && looks(box.table, 2, RESERVE_DONE, 5));
    EXPECT(refused(grant_level(box, 3, 0), RESERVE_REFUSED_NO_ROOM) && looks(box.table, 3, RESERVE_DONE, 0));
    EXPECT(release(box, 1).answer == RESERVE_DONE && looks(box.table, 1, RESERVE_DONE, 0));
    close_box(box);
}

/* ---- the level of pages */

static int takes_level(unsigned height, unsigned pages, unsigned answer, unsigned level) {
    struct reserve_level got = reserve_level_of_pages((uint16_t)height, (uint16_t)pages);
    return got.answer == answer && got.level == level;
}

/* the smallest level with so many pages and one more, or that of an image that names no size */
static unsigned smallest_level(unsigned height, unsigned pages) {
    unsigned level = 0;
    if (pages == 0) {
        return height < 4 ? height : 4;
    }
    while (1u << level < pages + 1) {
        level++;
    }
    return level;
}

static void levels_of_pages(void) {
    unsigned height, pages;
    int right = 1;
    for (height = 0; height <= RESERVE_MAX_HEIGHT; height++) {
        for (pages = 0; pages <= 65535; pages++) {
            right = right && (pages < 1u << height ? takes_level(height, pages, RESERVE_DONE, smallest_level(height, pages))
                                                   : takes_level(height, pages, RESERVE_REFUSED_PAGES, 0));
        }
    }
    EXPECT(right);
    right = 1;
    for (height = RESERVE_MAX_HEIGHT + 1; height <= 65535; height++) {
        right = right && takes_level(height, 0, RESERVE_REFUSED_HEIGHT, 0) && takes_level(height, 65535, RESERVE_REFUSED_HEIGHT, 0);
    }
    EXPECT(right);
}

/* a grant by pages that finds no room waits with the level that is told, and is let in on it */
static void waiting_with_pages(void) {
    struct box box = open_box(5);
    EXPECT(granted(box, grant_level(box, 0, 5), 0, 1, 0));
    EXPECT(refused(grant_pages(box, 1, 5), RESERVE_REFUSED_NO_ROOM));
    EXPECT(join(box, 1, reserve_level_of_pages(5, 5).level) == RESERVE_DONE);
    EXPECT(refused(grant_pages(box, 2, 0), RESERVE_REFUSED_NO_ROOM));
    EXPECT(join(box, 2, reserve_level_of_pages(5, 0).level) == RESERVE_DONE);
    EXPECT(release(box, 0).answer == RESERVE_DONE);
    EXPECT(admitted(box, admit(box), 1, 4, 0) && reserve_node_pages(5, 4).count == 8);
    EXPECT(admitted(box, admit(box), 2, 2, 1) && reserve_node_pages(5, 2).count == 16);
    EXPECT(granted(box, grant_pages(box, 2, 0), 2, 2, 0));
    close_box(box);
}

/* ---- the pages of a node */

static int covers(uint16_t height, unsigned node, unsigned answer, unsigned first, unsigned count) {
    struct reserve_pages got = reserve_node_pages(height, (uint16_t)node);
    return got.answer == answer && got.first == first && got.count == count;
}

/* a node covers its pages, and its two children each a half of them, left and right */
static int halved(uint16_t height, unsigned node, unsigned first, unsigned count) {
    return covers(height, node, RESERVE_DONE, first, count) &&
           (count == 1 ||
            (halved(height, 2 * node, first, count / 2) && halved(height, 2 * node + 1, first + count / 2, count / 2)));
}

static void node_pages(void) {
    uint16_t height;
    unsigned node, taller;
    int right = 1;
    for (height = 0; height <= RESERVE_MAX_HEIGHT; height++) {
        EXPECT(halved(height, 1, 0, 1u << height));
        right = right && covers(height, 0, RESERVE_REFUSED_NOT_IN_ORDER, 0, 0);
        for (node = 2u << height; node <= 65535; node++) {
            right = right && covers(height, node, RESERVE_REFUSED_NOT_IN_ORDER, 0, 0);
        }
    }
    EXPECT(right);
    right = 1;
    for (taller = RESERVE_MAX_HEIGHT + 1; taller <= 65535; taller++) {
        right = right && covers((uint16_t)taller, 0, RESERVE_REFUSED_HEIGHT, 0, 0);
        right = right && covers((uint16_t)taller, 1, RESERVE_REFUSED_HEIGHT, 0, 0);
        right = right && covers((uint16_t)taller, 65535, RESERVE_REFUSED_HEIGHT, 0, 0);
    }
    EXPECT(right);
}

/* ---- the journal */

static int reads(const uint8_t *journal, size_t length, size_t at, unsigned kind, unsigned who, unsigned size, size_t next) {
    struct reserve_reading got = reserve_read(journal, length, at);
    return got.answer == RESERVE_DONE && got.kind == kind && got.who == who && got.size == size && got.offset == next;
}

static int read_refused(const uint8_t *journal, size_t length, size_t at, unsigned answer, size_t offset) {
    struct reserve_reading got = reserve_read(journal, length, at);
    return got.answer == answer && got.kind == RESERVE_KIND_NONE && got.who == 0 && got.size == 0 && got.offset == offset;
}

/* behind an open, a byte of a kind that there is not is refused */
static void kinds(void) {
    unsigned kind;
    for (kind = 0; kind <= 255; kind++) {
        const uint8_t journal[] = {1, 2, (uint8_t)kind, 0, 0, 0, 0};
        int is_known = (kind >= RESERVE_KIND_OPEN && kind <= RESERVE_KIND_GROW) ||
                       (kind >= RESERVE_KIND_JOIN && kind <= RESERVE_KIND_WITHDRAW);
        EXPECT((reserve_read(journal, sizeof journal, 2).answer == RESERVE_REFUSED_UNKNOWN_KIND) == !is_known);
    }
}

static void reading(void) {
    static const uint8_t sample[] = {1, 2, 2, 0, 0, 1, 2, 1, 0, 0, 2, 2, 0, 0, 4, 7, 0, 3, 3, 0, 1, 0};
    struct lent journal = lend(sizeof sample, 0);
    const size_t length = sizeof sample;
    memcpy(journal.bytes, sample, length);
    EXPECT(reads(journal.bytes, length, 0, RESERVE_KIND_OPEN, 2, 0, 2));
    EXPECT(reads(journal.bytes, length, 2, RESERVE_KIND_GRANT_LEVEL, 0, 1, 6));
    EXPECT(reads(journal.bytes, length, 14, RESERVE_KIND_RELEASE, 7, 0, 17));
    EXPECT(reads(journal.bytes, length, 17, RESERVE_KIND_GRANT_PAGES, 3, 1, 22));
    EXPECT(reads(journal.bytes, length, 22, RESERVE_KIND_NONE, 0, 0, 22));
    EXPECT(reads(journal.bytes, length, (size_t)-1, RESERVE_KIND_NONE, 0, 0, (size_t)-1));
    EXPECT(read_refused(journal.bytes, length, 3, RESERVE_REFUSED_UNKNOWN_KIND, 3));
    EXPECT(read_refused(journal.bytes, 21, 17, RESERVE_REFUSED_CUT_OFF, 17));
    EXPECT(read_refused(journal.bytes, length, 5, RESERVE_REFUSED_OPEN_AGAIN, 5));
    EXPECT(read_refused(journal.bytes + 2, length - 2, 4, RESERVE_REFUSED_NO_OPEN, 0));
    EXPECT(read_refused(NULL, 0, 0, RESERVE_REFUSED_NO_OPEN, 0));
    EXPECT(memcmp(journal.bytes, sample, length) == 0);
    give_back(journal);
    journal = lend(RESERVE_JOURNAL_BYTES, 1);
    EXPECT(reads(journal.bytes, journal.length, 0, RESERVE_KIND_OPEN, 1, 0, 2));
    give_back(journal);
    journal = lend(RESERVE_JOURNAL_BYTES + 1, 0);
    EXPECT(read_refused(journal.bytes, journal.length, 9, RESERVE_REFUSED_TOO_LONG, 0));
    give_back(journal);
}

static int wrote(struct reserve_written got, size_t length) { return got.answer == RESERVE_DONE && got.length == length; }

static int no_room(struct reserve_written got) { return got.answer == RESERVE_REFUSED_TOO_SHORT && got.length == 0; }

static void writing(void) {
    static const uint8_t records[] = {1,   255, 2, 2, 1,   200, 3, 255, 15, 0,  16,  4,   254, 255,
                                      5,   3,   1, 255, 9, 255, 15, 12, 10, 11, 255, 255, 0x44};
    struct lent out = lend(sizeof records, 0x44);
    EXPECT(wrote(reserve_write_open(255, out.bytes, out.length), 2));
    EXPECT(wrote(reserve_write_grant_level(258, 200, out.bytes + 2, out.length - 2), 4));
    EXPECT(wrote(reserve_write_grant_pages(4095, 4096, out.bytes + 6, out.length - 6), 5));
    EXPECT(wrote(reserve_write_release(65534, out.bytes + 11, out.length - 11), 3));
    EXPECT(wrote(reserve_write_grow(259, 255, out.bytes + 14, out.length - 14), 4));
    EXPECT(wrote(reserve_write_join(4095, 12, out.bytes + 18, out.length - 18), 4));
    EXPECT(wrote(reserve_write_admit(out.bytes + 22, out.length - 22), 1));
    EXPECT(wrote(reserve_write_withdraw(65535, out.bytes + 23, out.length - 23), 3));
    EXPECT(memcmp(out.bytes, records, sizeof records) == 0);
    EXPECT(reads(out.bytes, 14, 2, RESERVE_KIND_GRANT_LEVEL, 258, 200, 6));
    EXPECT(reads(out.bytes, 14, 6, RESERVE_KIND_GRANT_PAGES, 4095, 4096, 11));
    EXPECT(reads(out.bytes, 14, 11, RESERVE_KIND_RELEASE, 65534, 0, 14));
    EXPECT(reads(out.bytes, 18, 14, RESERVE_KIND_GROW, 259, 255, 18));
    EXPECT(reads(out.bytes, 22, 18, RESERVE_KIND_JOIN, 4095, 12, 22));
    EXPECT(reads(out.bytes, 23, 22, RESERVE_KIND_ADMIT, 0, 0, 23));
    EXPECT(reads(out.bytes, 26, 22, RESERVE_KIND_ADMIT, 0, 0, 23));
    EXPECT(reads(out.bytes, 26, 23, RESERVE_KIND_WITHDRAW, 65535, 0, 26));
    EXPECT(read_refused(out.bytes, 17, 14, RESERVE_REFUSED_CUT_OFF, 14));
    EXPECT(read_refused(out.bytes, 21, 18, RESERVE_REFUSED_CUT_OFF, 18));
    EXPECT(read_refused(out.bytes, 25, 23, RESERVE_REFUSED_CUT_OFF, 23));
    give_back(out);
}

/* each record into fewer bytes than it has, just as many, and more */
static void bytes_of_records(void) {
    struct lent out;
    size_t n;
    for (n = 0; n <= RESERVE_RECORD_BYTES; n++) {
        out = lend(n, 0x44);
        EXPECT(n >= 2 || no_room(reserve_write_open(3, out.bytes, n)));
        EXPECT(n >= 4 || no_room(reserve_write_grant_level(3, 1, out.bytes, n)));
        EXPECT(n >= 5 || no_room(reserve_write_grant_pages(3, 1, out.bytes, n)));
        EXPECT(n >= 3 || no_room(reserve_write_release(3, out.bytes, n)));
        EXPECT(n >= 4 || no_room(reserve_write_grow(3, 1, out.bytes, n)));
        EXPECT(n >= 4 || no_room(reserve_write_join(3, 1, out.bytes, n)));
        EXPECT(n >= 1 || no_room(reserve_write_admit(out.bytes, n)));
        EXPECT(n >= 3 || no_room(reserve_write_withdraw(3, out.bytes, n)));
        EXPECT(all_are(out, 0x44));
        EXPECT(n < 1 || wrote(reserve_write_admit(out.bytes, n), 1));
        EXPECT(n < 3 || wrote(reserve_write_release(3, out.bytes, n), 3));
        EXPECT(n < 3 || wrote(reserve_write_withdraw(3, out.bytes, n), 3));
        EXPECT(n < 4 || wrote(reserve_write_grow(3, 1, out.bytes, n), 4));
        EXPECT(n < 4 || wrote(reserve_write_join(3, 1, out.bytes, n), 4));
        give_back(out);
    }
    EXPECT(no_room(reserve_write_open(3, NULL, 0)) && no_room(reserve_write_admit(NULL, 0)));
    out = lend(2 * RESERVE_RECORD_BYTES, 0x44);
    EXPECT(wrote(reserve_write_grant_pages(3, 1, out.bytes, out.length), RESERVE_RECORD_BYTES));
    give_back(out);
}

int main(void) {
    opening();
    lengths();
    four_pages();
    most_moves();
    bytes_of_four_moves();
    arguments();
    edges();
    sizes();
    no_size();
    bytes_of_moves();
    byte_order();
    not_in_order();
    everybody();
    starting_again();
    bytes_of_starting_again();
    growing();
    seven_moves();
    bytes_of_seven_moves();
    arguments_of_growth();
    bytes_of_growth();
    waiting();
    moves_of_admit();
    passing();
    full_line();
    arguments_of_line();
    lines_not_in_order();
    lines_in_order();
    byte_order_of_line();
    page_map();
    side_by_side();
    three_side_by_side();
    in_another_order();
    of_two_moments();
    records_in_a_journal();
    looking();
    looking_between_calls();
    levels_of_pages();
    waiting_with_pages();
    node_pages();
    reading();
    kinds();
    writing();
    bytes_of_records();
    printf("%d passed, %d failed\n", passed, failed);
    return failed == 0 ? 0 : 1;
}
