/*
 * How much stack each function uses: it runs on a stack of its own that was painted before, and the paint left is counted.
 * Grants, admits, releases and growths are those that move the most tenants, and the line is as long as it can be. The last line
 * is 'N passed, M failed'; a function that uses more than the header says is a failure.
 */
#define _XOPEN_SOURCE 700
#include <stdio.h>
#include <string.h>
#include <ucontext.h>

#include "reserve.h"

enum { STACK = 256 * 1024, MOST = 32 * 1024, PAINT = 0xA5 };

static uint8_t stack[STACK];
static uint8_t table[RESERVE_TABLE_BYTES], line[RESERVE_LINE_BYTES], moves[RESERVE_GROW_MOVES_BYTES], map[RESERVE_MAP_BYTES];
static uint8_t record[RESERVE_RECORD_BYTES];
static struct reserve_outcome got;
static ucontext_t here, there;
static int passed, failed;

/* the tenant whose growth to level 5 moves seven others */
static uint16_t grower;

/* what the context switch itself takes, measured with a function that does nothing */
static long overhead;

static void nothing(void) {}
static void opens(void) { reserve_open(12, table, sizeof table, line, sizeof line); }

static void grants(uint16_t tenant, uint16_t level) {
    got = reserve_grant_level(12, table, sizeof table, line, sizeof line, moves, sizeof moves, tenant, level);
}

static void grants_level(void) { grants(6, 1); }

static void grants_pages(void) {
    got = reserve_grant_pages(12, table, sizeof table, line, sizeof line, moves, sizeof moves, 6, 1);
}

static void joins(void) { reserve_join(12, table, sizeof table, line, sizeof line, 6, 1); }
static void admits(void) { got.moves = reserve_admit(12, table, sizeof table, line, sizeof line, moves, sizeof moves).moves; }
static void withdraws(void) { reserve_withdraw(12, table, sizeof table, line, sizeof line, 1000); }
static void releases(void) { got = reserve_release(12, table, sizeof table, moves, sizeof moves, 1); }
static void grows(void) { got = reserve_grow(12, table, sizeof table, moves, sizeof moves, grower, 5); }
static void looks(void) { reserve_look(table, sizeof table, 6); }
static void names_level(void) { reserve_level_of_pages(12, 100); }
static void names_pages(void) { reserve_node_pages(12, 4100); }
static void draws(void) { reserve_draw(12, table, sizeof table, map, sizeof map); }
static void counts(void) { reserve_count(map, sizeof map); }
static void writes(void) { reserve_write_grant_pages(5, 6, record, sizeof record); }
static void writes_growth(void) { reserve_write_grow(5, 6, record, sizeof record); }
static void writes_join(void) { reserve_write_join(5, 6, record, sizeof record); }
static void writes_admit(void) { reserve_write_admit(record, sizeof record); }
static void writes_withdrawal(void) { reserve_write_withdraw(5, record, sizeof record); }
static void reads(void) { reserve_read(record, sizeof record, 0); }

static long used_by(void (*call)(void)) {
    long i = 0;
    memset(stack, PAINT, sizeof stack);
    getcontext(&there);
    there.uc_stack.ss_sp = stack;
    there.uc_stack.ss_size = sizeof stack;
    there.uc_link = &here;
    makecontext(&there, call, 0);
    swapcontext(&here, &there);
    while (i < STACK && stack[i] == PAINT) {
        i++;
    }
    return STACK - i;
}

/* five tenants, such that a grant of two pages to the sixth moves three of them, and a release after that moves four */
static void fill_table(void) {
    static const uint16_t tenants[][2] = {{5, 3}, {3, 2}, {4, 2}, {1, 1}, {2, 0}};
    size_t i;
    opens();
    for (i = 0; i < sizeof tenants / sizeof tenants[0]; i++) {
        grants(tenants[i][0], tenants[i][1]);
    }
}

/* so many tenants that wait for the whole reserve */
static void fill_line(uint16_t number) {
    uint16_t i;
    for (i = 0; i < number; i++) {
        reserve_join(12, table, sizeof table, line, sizeof line, 1000 + i, 12);
    }
}

/* as many tenants on each level as it takes for a growth to move seven others: a tenant on the second node of level 1 */
static void fill_for_growth(void) {
    static const unsigned counts[] = {3, 3, 3, 1, 3, 1, 1, 2};
    uint16_t tenant = 0;
    unsigned i, level;
    opens();
    for (level = 0; level < sizeof counts / sizeof counts[0]; level++) {
        for (i = 0; i < counts[level]; i++) {
            grants(tenant++, (uint16_t)level);
        }
    }
    grower = 0;
    while (grower < tenant && reserve_look(table, sizeof table, grower).node != 2049) {
        grower++;
    }
}

static void measure(const char *name, void (*call)(void), unsigned moved) {
    long used;
    got.moves = 0;
    used = used_by(call) - overhead;
    printf("%s: %ld bytes of stack\n", name, used);
    if (got.moves != moved) printf("%s: %u moves and not %u\n", name, (unsigned)got.moves, moved);
    if (used <= MOST && got.moves == moved) {
        passed++;
    } else {
        failed++;
    }
}

int main(void) {
    overhead = used_by(nothing);
    measure("reserve_open", opens, 0);
    fill_table();
    fill_line(RESERVE_LINE_PLACES);
    measure("reserve_grant_level", grants_level, 3);
    measure("reserve_release", releases, 4);
    fill_table();
    fill_line(RESERVE_LINE_PLACES);
    measure("reserve_grant_pages", grants_pages, 3);
    fill_table();
    fill_line(RESERVE_LINE_PLACES - 1);
    measure("reserve_join", joins, 0);
    measure("reserve_admit", admits, 3);
    measure("reserve_withdraw", withdraws, 0);
    fill_for_growth();
    measure("reserve_grow", grows, 7);
    measure("reserve_look", looks, 0);
    measure("reserve_level_of_pages", names_level, 0);
    measure("reserve_node_pages", names_pages, 0);
    measure("reserve_draw", draws, 0);
    measure("reserve_count", counts, 0);
    measure("reserve_write_grant_pages", writes, 0);
    measure("reserve_write_grow", writes_growth, 0);
    measure("reserve_write_join", writes_join, 0);
    measure("reserve_write_admit", writes_admit, 0);
    measure("reserve_write_withdraw", writes_withdrawal, 0);
    measure("reserve_read", reads, 0);
    printf("%d passed, %d failed\n", passed, failed);
    return failed == 0 ? 0 : 1;
}
