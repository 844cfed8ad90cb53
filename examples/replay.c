/*
 * Replays a journal through the calls of reserve.h, on an empty reserve, and writes what the program `listing` writes.
 *
 *   cc -Iinclude examples/replay.c target/staticlib/libreserve.a -o replay && ./replay <examples/waiting.journal
 *
 * call is what a runtime needs to make a journal's calls again; the rest is there to show their outcomes.
 */
#include <stdio.h>

#include "reserve.h"

/* A byte more than a journal may have, so that a longer one is refused and not cut. */
static uint8_t journal[RESERVE_JOURNAL_BYTES + 1];

static uint16_t height;
static uint8_t table[RESERVE_TABLE_BYTES];
static uint8_t line[RESERVE_LINE_BYTES];
static uint8_t moves[RESERVE_GROW_MOVES_BYTES];

/* What a call reports that moves nobody, and that has no node. */
static struct reserve_outcome answered(uint16_t answer) {
    struct reserve_outcome got = {answer, 0, 0};
    return got;
}

/* Whom the last admit granted. */
static uint16_t granted;

static struct reserve_outcome admit(void) {
    struct reserve_admission let_in = reserve_admit(height, table, sizeof table, line, sizeof line, moves, RESERVE_MOVES_BYTES);
    struct reserve_outcome got = {let_in.answer, let_in.node, let_in.moves};
    granted = let_in.tenant;
    return got;
}

/* Makes the call that a record stands for. */
static struct reserve_outcome call(struct reserve_reading record) {
    const size_t few = RESERVE_MOVES_BYTES;
    switch (record.kind) {
    case RESERVE_KIND_OPEN:
        height = record.who;
        return answered(reserve_open(height, table, sizeof table, line, sizeof line));
    case RESERVE_KIND_GRANT_LEVEL:
        return reserve_grant_level(height, table, sizeof table, line, sizeof line, moves, few, record.who, record.size);
    case RESERVE_KIND_GRANT_PAGES:
        return reserve_grant_pages(height, table, sizeof table, line, sizeof line, moves, few, record.who, record.size);
    case RESERVE_KIND_RELEASE:
        return reserve_release(height, table, sizeof table, moves, few, record.who);
    case RESERVE_KIND_GROW:
        return reserve_grow(height, table, sizeof table, moves, sizeof moves, record.who, record.size);
    case RESERVE_KIND_JOIN:
        return answered(reserve_join(height, table, sizeof table, line, sizeof line, record.who, record.size));
    case RESERVE_KIND_WITHDRAW:
        return answered(reserve_withdraw(height, table, sizeof table, line, sizeof line, record.who));
    default:
        return admit();
    }
}

static unsigned number(const uint8_t *bytes) { return bytes[0] + 256u * bytes[1]; }

/* A field of a line: a number, or - where there is none. */
static void show_field(int is_there, unsigned value) {
    if (is_there) {
        printf(" %u", value);
    } else {
        printf(" -");
    }
}

static void show(unsigned ordinal, struct reserve_reading record, struct reserve_outcome got) {
    static const char letters[] = " OGPRZ   WAX"; /* by kind; the reader hands out no other */
    int is_admit = record.kind == RESERVE_KIND_ADMIT;
    int has_size = record.kind == RESERVE_KIND_GRANT_LEVEL || record.kind == RESERVE_KIND_GRANT_PAGES ||
                   record.kind == RESERVE_KIND_GROW || record.kind == RESERVE_KIND_JOIN;
    int has_node = got.answer == RESERVE_DONE && record.kind != RESERVE_KIND_OPEN && record.kind != RESERVE_KIND_JOIN &&
                   record.kind != RESERVE_KIND_WITHDRAW;
    printf("%u %c", ordinal, letters[record.kind]);
    show_field(!is_admit || granted != RESERVE_NOBODY, is_admit ? granted : record.who);
    show_field(has_size, record.size);
    show_field(1, got.answer);
    show_field(has_node, got.node);
    show_field(1, got.moves);
    for (unsigned i = 0; i < got.moves; i++) {
        const uint8_t *move = moves + RESERVE_MOVE_BYTES * i;
        printf(" %u:%u%c%u", number(move), number(move + 2), number(move + 6) ? '=' : '>', number(move + 4));
    }
    printf("\n");
}

int main(void) {
    size_t length = fread(journal, 1, sizeof journal, stdin), offset = 0;
    for (unsigned ordinal = 1;; ordinal++) {
        struct reserve_reading record = reserve_read(journal, length, offset);
        if (record.answer != RESERVE_DONE) {
            printf("! %zu %u\n", record.offset, (unsigned)record.answer);
            return 0;
        }
        if (record.kind == RESERVE_KIND_NONE) return 0;
        struct reserve_outcome got = call(record);
        if (record.kind == RESERVE_KIND_OPEN && got.answer != RESERVE_DONE) {
            printf("! %zu %u\n", offset, (unsigned)got.answer);
            return 0;
        }
        show(ordinal, record, got);
        offset = record.offset;
    }
}
