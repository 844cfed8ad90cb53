/*
 * reserve.h - a planner for a reserve of pages.
 *
 * THE RESERVE
 *
 * A reserve of height h, 0 to 12, has 2^h pages, numbered from 0. They are the leaves of a complete binary tree, left to
 * right. Its nodes are numbered: the root is 1, and node n has the children 2n and 2n + 1. A node's depth is the place of
 * its highest one bit, counted from 0; its level is h less its depth. A node of level l covers 2^l pages: the k-th node of
 * its level, k = n - 2^(h-l), covers the pages k * 2^l to (k + 1) * 2^l - 1.
 *
 * Tenants are numbered 0 to 4095. Each holds at most one block, and a block is one node. Where the blocks lie depends on
 * nothing but how many are held on each level, so a call may have to move other tenants: a grant at most three, a release at
 * most four, a growth at most seven. The planner says who moves from where to where; copying the pages is the caller's work
 * (THE MOVES, below). reserve_node_pages says which pages a node covers.
 *
 * A grant names its block by level or by pages. A tenant that names pages gets one more, a guard page right behind them, in
 * case it runs over: p pages, p above 0, get the smallest block of p + 1 or more. 0 pages name no size and get a block of 16
 * pages, or the whole of a reserve under height 4, without a guard page. A block that is named by its level has just its
 * 2^level pages: who needs a single page asks for level 0.
 *
 * A start may come twice, because the reply to the first was lost: a grant to a tenant that holds a block of just the level
 * asked for, or of the level that the pages asked for take, is answered with the node that the tenant has now, without moves and
 * without a change of any byte. So it may be repeated as often as one likes, on a full reserve too. The moves of the first grant
 * were reported by the first grant alone. A grant to a tenant that holds a block of another level is refused.
 *
 * The answer to a grant does not say whether the tenant is new, and whoever writes the pages of one that was there overwrites
 * what it has made of them. So look before the grant: if reserve_look names a node, the tenant is there, and when the grant is
 * answered 0, its pages are left alone. If it names node 0, the tenant comes with this grant, and its pages are to be written.
 *
 * A tenant can exchange its block for a larger or a smaller one: it grows, up or down, to a level. Its old block counts as
 * given back, so there is room if the pages of the others and of the new block are no more than the reserve has. If there is no
 * room, it keeps its block.
 *
 * THE LINE
 *
 * A tenant for whom there is no room may wait for a level: up to 64 wait, the oldest first. reserve_join puts a tenant at the end
 * of the line, reserve_withdraw takes it out, and reserve_admit grants the first from the front whose block fits, just as a
 * grant of its level would, and says whom. So, after a grant that is answered 10 (RESERVE_REFUSED_NO_ROOM), join, with the level that
 * was asked for, or the one that reserve_level_of_pages names for the pages; and after each release, growth, join or withdrawal, and
 * after each admit that granted somebody, call reserve_admit, until it names nobody and node 0. That is after at most 64 grants.
 *
 * Nobody is passed without end by smaller images. Each grant that gives a block, by reserve_admit or direct, adds one to the passed
 * count of every older tenant that still waits; a direct grant counts as last in line, so it passes everybody. Behind a tenant
 * that was passed eight times all are barred: an admit grants nobody behind it, and a direct grant is answered 10, even if its
 * block would fit. So nobody is passed more than eight times, and when an admit names nobody, the oldest that was passed eight
 * times lacks its pages. A grant that repeats an earlier start is neither barred nor counted.
 *
 * A tenant that waits holds nothing: a join by one that holds a block is answered 8, and a grant or another join to one that
 * waits 18. A withdrawal leaves the counts of the others, and who joins again stands at the end, with count 0. A release and a
 * growth take no line, and are not held up by it.
 *
 * THE MOVES
 *
 * The new pages of a mover may be pages that another mover has not left yet. Whoever just copies one tenant after the other
 * from its old pages to its new ones destroys data. So some entries of the list are staged, and the moves of a call are
 * carried out in three steps, all of them before the next call on the same table:
 *
 *   1. Copy the pages of every staged tenant out of the reserve, to room of your own.
 *   2. Go through the list from its first entry to its last. Copy a tenant that is not staged from its old pages to its new
 *      ones; copy a staged one from that room to its new pages. The staged ones stand behind all others.
 *   3. After a grant or an admit, write the newcomer's pages now and not before; after a growth, those of the tenant that has grown.
 *      After a grant to a tenant that was there (reserve_look named its node before the call), write nothing.
 *
 * Then every page is free at the moment when it is written. The pages of a released block and the old pages of a tenant that
 * grows are free from the start: what is still wanted of them has to be taken before step 1. A tenant that grows is not in the
 * list, and can keep as much as both of its blocks have room for.
 *
 * The room has to hold the pages of all staged entries of the list together. No way to carry out the same moves needs
 * less. Read from each list how many they are. Tests have found no grant and no release that stages more than one tenant, or
 * more than a quarter of the reserve, and no growth that stages more than two, or more than 5/32 of it; but that is no promise.
 * 2^h pages are enough for every list, with what a growing tenant keeps.
 *
 * examples/carry.c does all this with real bytes.
 *
 * WHAT IS LENT
 *
 * There is no state but the table and the line, which are the caller's. Every function reads and writes only the bytes that it is lent,
 * only while it runs, and keeps no pointer. It allocates nothing, calls nothing but memcpy and memset, uses less than
 * 32 KiB of stack and always returns. A pointer may be null if its length is 0.
 *
 * The table, the line and the moves of one call must not overlap, nor the table and the map of reserve_draw; they may lie side
 * by side. Until a call returns, nobody else may write any of the bytes that it is lent, or read those that it is lent to
 * write (the pointers without const). Calls on different bytes, and calls that only read the same bytes, may run at the
 * same time.
 *
 * BYTES
 *
 * All lengths and offsets count bytes. Numbers of two bytes have the low byte first, whatever the machine's own order:
 *
 *   table   RESERVE_TABLE_BYTES bytes: for each tenant, by number, two bytes with its node, or 0 if it holds nothing; reserve_look
 *           reads them
 *   line    RESERVE_LINE_BYTES bytes, numbers of two bytes: how many wait; then, of each, the oldest first, the tenant, the level
 *           that it waits for and its passed count; then zeros
 *   moves   RESERVE_MOVE_BYTES bytes for each move: the tenant, its old node, its new node, and 1 if it is staged, else 0;
 *           two bytes each
 *   map     RESERVE_MAP_BYTES bytes: page i is bit i mod 8 of byte i / 8, and bit 0 weighs 1; set if a held block covers the page
 *   record  of a journal: one byte of kind and a body (RESERVE_KIND_..., below)
 *
 * ANSWERS
 *
 * Every function answers 0, RESERVE_DONE, or the number of a refusal. The conditions are tested in the order of their
 * numbers, those of the arguments that the function has, and the first that holds is answered. (For a journal, 16 comes
 * before 11; 18 comes right after 8, and 17 last.) A refused call changes no byte; its other results are 0 unless said otherwise.
 *
 * THE ARCHIVE
 *
 * `make archive` writes target/staticlib/libreserve.a, and a program is linked with `cc program.c libreserve.a`. It
 * is for x86-64 Linux: ELF, the System V calling convention, the instructions that every x86-64 processor has. It is
 * position independent, so that shared objects can have it too. It takes memcpy and memset from the C library, or from
 * whatever else it is linked with; all names that it defines begin with reserve_.
 *
 * THE SMALLEST PROGRAM
 *
 *   #include <stdio.h>
 *   #include "reserve.h"
 *
 *   static uint8_t table[RESERVE_TABLE_BYTES];
 *   static uint8_t line[RESERVE_LINE_BYTES];
 *   static uint8_t moves[RESERVE_MOVES_BYTES];
 *
 *   int main(void) {
 *       if (reserve_open(12, table, sizeof table, line, sizeof line) != RESERVE_DONE) return 1;
 *       struct reserve_entry had = reserve_look(table, sizeof table, 7);
 *       struct reserve_outcome got = reserve_grant_pages(12, table, sizeof table, line, sizeof line, moves, sizeof moves, 7, 100);
 *       if (got.answer != RESERVE_DONE) return 1;
 *       for (unsigned i = 0; i < got.moves; i++) {
 *           const uint8_t *m = moves + RESERVE_MOVE_BYTES * i;
 *           const char *how = m[6] + 256u * m[7] == 1 ? "staged" : "direct";
 *           printf("tenant %u: node %u to %u, %s\n", m[0] + 256u * m[1], m[2] + 256u * m[3], m[4] + 256u * m[5], how);
 *       }
 *       struct reserve_pages has = reserve_node_pages(12, got.node);
 *       printf("tenant 7 has node %u, %u pages from page %u on: %s\n", (unsigned)got.node, (unsigned)has.count,
 *              (unsigned)has.first, had.node == 0 ? "write them now" : "they are written");
 *       return 0;
 *   }
 */
#ifndef RESERVE_H
#define RESERVE_H

#include <stddef.h>
#include <stdint.h>

#ifdef __cplusplus
extern "C" {
#endif

/* The version of this interface. Whatever changes a layout, a signature, a constant or what a function does with the same
 * arguments raises it: the major number, and the minor one is then 0, if programs have to be changed or compiled again; the
 * minor number if something is only added. 2.0: a grant by pages has a guard page. 3.0: a move has a fourth number, and the
 * moves stand in an order in which they can be carried out. 4.0: a grant of 0 pages gets 16 pages, and no longer one. 5.0: a
 * tenant can grow or shrink, and a journal has records of that. 6.0: a grant of the level that its tenant holds answers 0 and the
 * tenant's node, and no longer 8. 7.0: there is a line, and a journal has records of joins, admits and withdrawals; opening and
 * grants take the line. 7.1 adds reserve_look and reserve_level_of_pages. */
#define RESERVE_VERSION_MAJOR 7
#define RESERVE_VERSION_MINOR 1
#define RESERVE_VERSION (1000 * RESERVE_VERSION_MAJOR + RESERVE_VERSION_MINOR)

/* The greatest height, the number of tenants, the most that wait, how often one that waits may be passed, and what stands for
 * no tenant. */
#define RESERVE_MAX_HEIGHT 12
#define RESERVE_TENANTS 4096
#define RESERVE_LINE_PLACES 64
#define RESERVE_MOST_PASSES 8
#define RESERVE_NOBODY 65535

/* The bytes of a table, of a line, of one move, of the moves that have to be lent to a grant, an admit or a release (at least) and
 * to a growth, of a page map, and of the longest record. */
#define RESERVE_TABLE_BYTES 8192
#define RESERVE_LINE_BYTES 386
#define RESERVE_MOVE_BYTES 8
#define RESERVE_MOVES_BYTES 32
#define RESERVE_GROW_MOVES_BYTES 56
#define RESERVE_MAP_BYTES 512
#define RESERVE_RECORD_BYTES 5

/* The most bytes of a journal. */
#define RESERVE_JOURNAL_BYTES 65536

/* What a function answers. */
enum reserve_answer {
    RESERVE_DONE = 0,
    RESERVE_REFUSED_HEIGHT = 1,        /* the height is above 12 */
    RESERVE_REFUSED_TABLE_LENGTH = 2,  /* the table is not of 8192 bytes, or the line not of 386 */
    RESERVE_REFUSED_MOVES = 3,         /* fewer than 32 bytes are lent for the moves, or fewer than 56 for those of a growth */
    RESERVE_REFUSED_TENANT = 4,        /* the tenant is above 4095 */
    RESERVE_REFUSED_LEVEL = 5,         /* the level is above the height */
    RESERVE_REFUSED_PAGES = 6,         /* the pages with their guard page are more than the reserve has: 2^h or more are named */
    RESERVE_REFUSED_NOT_IN_ORDER = 7,  /* the table is none that this planner leaves at this height; or the line has more than 64,
                                          other than zeros behind them, a count above 8, a level above the height, or a tenant
                                          above 4095, twice or holding a block; or a number is no node */
    RESERVE_REFUSED_HOLDS = 8,         /* a grant to a tenant that holds a block of another level, or a join by one that holds any */
    RESERVE_REFUSED_HOLDS_NONE = 9,    /* a release or a growth by a tenant that holds none, or a withdrawal by one that does not wait */
    RESERVE_REFUSED_NO_ROOM = 10,      /* the pages held and the new block are more than the reserve has; of a growth, those of the
                                          others and its new block; or of a direct grant, somebody in line was passed eight times */
    RESERVE_REFUSED_NO_OPEN = 11,      /* the journal is empty, or its first record is no open */
    RESERVE_REFUSED_UNKNOWN_KIND = 12, /* a record of a kind that there is not */
    RESERVE_REFUSED_CUT_OFF = 13,      /* the journal ends inside a record */
    RESERVE_REFUSED_OPEN_AGAIN = 14,   /* an open record that is not the first */
    RESERVE_REFUSED_TOO_SHORT = 15,    /* the bytes lent for a map or a record are too few */
    RESERVE_REFUSED_TOO_LONG = 16,     /* the journal has more than 65536 bytes */
    RESERVE_REFUSED_LINE_FULL = 17,    /* 64 wait already */
    RESERVE_REFUSED_WAITS = 18         /* a grant or a join to a tenant that waits */
};

/* The kinds of a journal's records, and the bodies that follow the byte of kind. */
enum reserve_kind {
    RESERVE_KIND_NONE = 0,        /* no record: the end, or a refusal */
    RESERVE_KIND_OPEN = 1,        /* height, one byte */
    RESERVE_KIND_GRANT_LEVEL = 2, /* tenant, two bytes; level, one byte */
    RESERVE_KIND_GRANT_PAGES = 3, /* tenant, two bytes; pages, two bytes */
    RESERVE_KIND_RELEASE = 4,     /* tenant, two bytes */
    RESERVE_KIND_GROW = 5,        /* tenant, two bytes; level, one byte */
    RESERVE_KIND_JOIN = 9,        /* tenant, two bytes; level, one byte */
    RESERVE_KIND_ADMIT = 10,      /* nothing */
    RESERVE_KIND_WITHDRAW = 11    /* tenant, two bytes */
};

/* What a grant, a release or a growth reports. */
struct reserve_outcome {
    uint16_t answer; /* enum reserve_answer */
    uint16_t node;   /* the tenant's node, or the node given up */
    uint16_t moves;  /* how many moves stand at the front of the bytes lent for them */
};

/* What an admit reports. */
struct reserve_admission {
    uint16_t answer; /* enum reserve_answer: 0, 1 to 3 or 7 */
    uint16_t tenant; /* whom it granted, or RESERVE_NOBODY; a refused admit has RESERVE_NOBODY too, and not 0, which is a tenant */
    uint16_t node;   /* that tenant's node, or 0 */
    uint16_t moves;  /* how many moves stand at the front of the bytes lent for them */
};

/* What a tenant's entry holds. */
struct reserve_entry {
    uint16_t answer; /* enum reserve_answer: 0, 2 or 4 */
    uint16_t node;   /* the tenant's node, or 0 if it holds nothing */
};

/* Which level a number of pages takes. */
struct reserve_level {
    uint16_t answer; /* enum reserve_answer: 0, 1 or 6 */
    uint16_t level;  /* the level */
};

/* Which pages a node covers. */
struct reserve_pages {
    uint16_t answer; /* enum reserve_answer: 0, 1 or 7 */
    uint16_t first;  /* the first page */
    uint16_t count;  /* how many pages, from the first one on */
};

/* What counting a map reports. */
struct reserve_counted {
    uint16_t answer; /* enum reserve_answer: 0 or 15 */
    uint16_t count;  /* how many pages are set */
};

/* What stands at an offset of a journal. */
struct reserve_reading {
    uint16_t answer; /* enum reserve_answer: 0, or 11 to 14 or 16 */
    uint16_t kind;   /* enum reserve_kind: 0 past the last byte */
    uint16_t who;    /* the height of an open, else the tenant; 0 for an admit */
    uint16_t size;   /* the level or the pages of a grant, the level of a growth or a join, else 0 */
    size_t offset;   /* where the next record begins; past the last byte, the offset asked; of a refusal, the offset of the
                        record that it concerns (0 for 11 and 16) */
};

/* What writing a record reports. */
struct reserve_written {
    uint16_t answer; /* enum reserve_answer: 0 or 15 */
    size_t length;   /* how many bytes the record has taken */
};

/* Opens a reserve: every byte of the table and of the line becomes 0. Answers 0, 1 or 2. */
uint16_t reserve_open(uint16_t height, uint8_t *table, size_t table_length, uint8_t *line, size_t line_length);

/* Grants a tenant a block of 2^level pages; one that holds such a block keeps it, without moves. Answers 0, or 1 to 5, 7, 8, 18
 * or 10. */
struct reserve_outcome reserve_grant_level(uint16_t height, uint8_t *table, size_t table_length, uint8_t *line,
                                           size_t line_length, uint8_t *moves, size_t moves_length, uint16_t tenant,
                                           uint16_t level);

/* Grants a tenant the smallest block that has so many pages and one more, the guard page; 0 pages get a block of 16 pages, or the
 * whole of a reserve under height 4. A tenant that holds a block of just that size keeps it, without moves. Answers 0, or 1 to 4,
 * 6 to 8, 18 or 10; 6 never for 0 pages. */
struct reserve_outcome reserve_grant_pages(uint16_t height, uint8_t *table, size_t table_length, uint8_t *line,
                                           size_t line_length, uint8_t *moves, size_t moves_length, uint16_t tenant,
                                           uint16_t pages);

/* Releases a tenant's block. Answers 0, or 1 to 4, 7 or 9. */
struct reserve_outcome reserve_release(uint16_t height, uint8_t *table, size_t table_length, uint8_t *moves,
                                       size_t moves_length, uint16_t tenant);

/* Gives a tenant a block of 2^level pages in the place of the one that it has; the level that it has leaves it its block, without
 * moves. Takes RESERVE_GROW_MOVES_BYTES for the moves. Answers 0, or 1 to 5, 7, 9 or 10. */
struct reserve_outcome reserve_grow(uint16_t height, uint8_t *table, size_t table_length, uint8_t *moves,
                                    size_t moves_length, uint16_t tenant, uint16_t level);

/* Puts a tenant at the end of the line, to wait for a block of 2^level pages, whether or not there is room for one. Answers 0, or 1,
 * 2, 4, 5, 7, 8, 18 or 17. */
uint16_t reserve_join(uint16_t height, const uint8_t *table, size_t table_length, uint8_t *line, size_t line_length,
                      uint16_t tenant, uint16_t level);

/* Grants the first from the front of the line that fits and is not behind one that was passed eight times the block that it waits
 * for, and takes it out of the line; where there is none, it changes nothing and answers 0, RESERVE_NOBODY and node 0. Answers 0,
 * or 1 to 3 or 7. */
struct reserve_admission reserve_admit(uint16_t height, uint8_t *table, size_t table_length, uint8_t *line, size_t line_length,
                                       uint8_t *moves, size_t moves_length);

/* Takes a tenant out of the line. Answers 0, or 1, 2, 4, 7 or 9. */
uint16_t reserve_withdraw(uint16_t height, const uint8_t *table, size_t table_length, uint8_t *line, size_t line_length,
                          uint16_t tenant);

/* Looks up a tenant's entry. The table is not tested for its order, so any 8192 bytes are answered. Answers 0, 2 or 4. */
struct reserve_entry reserve_look(const uint8_t *table, size_t table_length, uint16_t tenant);

/* The level that reserve_grant_pages asks for with so many pages, guard page and images without a size included: a grant of that
 * level does the same. It is the level to join with when such a grant is answered 10. Answers 0, 1 or 6; 6 never for 0 pages. */
struct reserve_level reserve_level_of_pages(uint16_t height, uint16_t pages);

/* The pages that a node covers in a reserve of this height. Answers 0; 1; or 7 if the tree has no such node: 0, or above
 * 2^(h+1) - 1. */
struct reserve_pages reserve_node_pages(uint16_t height, uint16_t node);

/* Draws the page map of a table into the first 512 bytes lent, and leaves those after them. Pages that the reserve does not have are
 * not set. Answers 0, or 1, 2, 7 or 15. */
uint16_t reserve_draw(uint16_t height, const uint8_t *table, size_t table_length, uint8_t *map, size_t map_length);

/* Counts the set bits of the first 512 bytes of any map. Answers 0 or 15. */
struct reserve_counted reserve_count(const uint8_t *map, size_t map_length);

/* Reads the record at an offset of a journal. Any offset may be asked; the first record's is 0. Fields are handed out as they
 * stand, whether or not a call would take them. */
struct reserve_reading reserve_read(const uint8_t *journal, size_t journal_length, size_t offset);

/* Each writes one record at the front of the lent bytes and leaves those after it: 2, 4, 5, 3, 4, 4, 1 and 3 bytes. Answers 0 or
 * 15. */
struct reserve_written reserve_write_open(uint8_t height, uint8_t *out, size_t out_length);
struct reserve_written reserve_write_grant_level(uint16_t tenant, uint8_t level, uint8_t *out, size_t out_length);
struct reserve_written reserve_write_grant_pages(uint16_t tenant, uint16_t pages, uint8_t *out, size_t out_length);
struct reserve_written reserve_write_release(uint16_t tenant, uint8_t *out, size_t out_length);
struct reserve_written reserve_write_grow(uint16_t tenant, uint8_t level, uint8_t *out, size_t out_length);
struct reserve_written reserve_write_join(uint16_t tenant, uint8_t level, uint8_t *out, size_t out_length);
struct reserve_written reserve_write_admit(uint8_t *out, size_t out_length);
struct reserve_written reserve_write_withdraw(uint16_t tenant, uint8_t *out, size_t out_length);

#ifdef __cplusplus
}
#endif

#endif
