/*
 * Lists of moves carried out on marked pages, as include/reserve.h says, through long random histories of all heights, with
 * tenants that wait in line: no page may be written while somebody's data lies there, and after every call each tenant's pages
 * have to carry its own marks. Wrong ways to work a list are tried too, and have to be found. `carry SEED TIMES` draws from
 * another seed, and so many times as much. The last line is 'N passed, M failed'.
 */
#include <stdio.h>
#include <stdlib.h>
#include <string.h>

#include "reserve.h"

enum { PAGES = 1 << RESERVE_MAX_HEIGHT, NOBODY = RESERVE_TENANTS };
enum { HISTORIES = 16, CALLS = 1500, UNTOUCHED = 0x77 };

/* ---- the ways to work a list */

enum way { AS_SAID, NOBODY_LIFTED, FROM_THE_END, NEWCOMER_FIRST, RELEASED_LAST, GROWN_FIRST, GROWN_LEFT_LYING, STARTED_AGAIN };

/* the wrong ones; each writes on pages that are not free, and all but one destroy data with that */
static const struct {
    enum way way;
    int destroys;
    const char *name;
} wrong_ways[] = {
    {NOBODY_LIFTED, 1, "staged tenants are copied like the others"},
    {FROM_THE_END, 1, "the list is worked from its end"},
    {NEWCOMER_FIRST, 1, "the newcomer is written first"},
    {RELEASED_LAST, 0, "a released block is given up last"},
    {GROWN_FIRST, 1, "a growing tenant is set down first"},
    {GROWN_LEFT_LYING, 1, "a tenant that gets a larger block is lifted last"},
    {STARTED_AGAIN, 1, "a tenant that was there is written like a newcomer"},
};

/* ---- a reserve with its pages */

struct box {
    uint16_t height;
    enum way way;
    uint8_t table[RESERVE_TABLE_BYTES];
    uint8_t line[RESERVE_LINE_BYTES];
    uint8_t moves[RESERVE_GROW_MOVES_BYTES];
    uint32_t page[PAGES];           /* what stands on each page */
    uint32_t room[PAGES];           /* what was lifted, each page at its number in the reserve */
    uint32_t own[PAGES];            /* what the tenant that comes or grows has on its pages, from the first on */
    uint16_t whose[PAGES];          /* whose data lies on each page, or NOBODY */
    uint16_t node[RESERVE_TENANTS]; /* where each tenant's data lies, or 0 */
    uint32_t mark[RESERVE_TENANTS]; /* what a tenant's first page has to carry; the next pages count on from there */
    uint32_t marks_given;           /* each tenant has as many as it needs to grow to the whole reserve */
    uint32_t drawn;
    int filling;
    /* what was found */
    unsigned long covered; /* pages written while somebody's data lay there */
    unsigned long spoilt;  /* pages that do not carry their tenant's marks, and tenants that the table has elsewhere */
    int misshapen;         /* a list or an entry that is not as the header says */
};

/* what all right histories together had: growths, admits of somebody, starts that were repeated, and the other calls */
static struct total {
    unsigned long calls, moves, staged;
    unsigned most_moves, most_staged;
    unsigned most_pages; /* that one list staged, in 4,096ths of the reserve */
} of_growths, of_admits, of_others, of_repeated;

struct move {
    unsigned tenant, from, to, staged;
};

struct call {
    enum reserve_kind kind;
    uint16_t tenant;
    uint16_t size;
};

static unsigned number(const uint8_t *bytes) { return bytes[0] + 256u * bytes[1]; }

static struct move move_at(const struct box *box, unsigned i) {
    const uint8_t *bytes = box->moves + RESERVE_MOVE_BYTES * i;
    struct move move = {number(bytes), number(bytes + 2), number(bytes + 4), number(bytes + 6)};
    return move;
}

static struct reserve_pages pages_of(const struct box *box, unsigned node) {
    return reserve_node_pages(box->height, (uint16_t)node);
}

/* ---- carrying out */

static void leave(struct box *box, unsigned node) {
    struct reserve_pages pages = pages_of(box, node);
    for (unsigned i = 0; i < pages.count; i++) {
        box->whose[pages.first + i] = NOBODY;
    }
}

static void set_down(struct box *box, unsigned tenant, unsigned node, const uint32_t *data) {
    struct reserve_pages pages = pages_of(box, node);
    for (unsigned i = 0; i < pages.count; i++) {
        box->covered += box->whose[pages.first + i] != NOBODY;
        box->whose[pages.first + i] = (uint16_t)tenant;
        box->page[pages.first + i] = data[i];
    }
    box->node[tenant] = (uint16_t)node;
}

static int is_lifted(const struct box *box, struct move move) { return move.staged && box->way != NOBODY_LIFTED; }

static void lift(struct box *box, unsigned node) {
    struct reserve_pages pages = pages_of(box, node);
    memcpy(box->room + pages.first, box->page + pages.first, pages.count * sizeof *box->page);
    leave(box, node);
}

static void carry(struct box *box, struct move move) {
    unsigned first = pages_of(box, move.from).first;
    if (is_lifted(box, move)) {
        set_down(box, move.tenant, move.to, box->room + first);
    } else {
        set_down(box, move.tenant, move.to, box->page + first);
        leave(box, move.from);
    }
}

static void work_list(struct box *box, unsigned count) {
    for (unsigned i = 0; i < count; i++) {
        if (is_lifted(box, move_at(box, i))) {
            lift(box, move_at(box, i).from);
        }
    }
    for (unsigned i = 0; i < count; i++) {
        carry(box, move_at(box, box->way == FROM_THE_END ? count - 1 - i : i));
    }
}

/* writes a tenant's pages from one on, as many as its node has */
static void fill_own(struct box *box, unsigned tenant, unsigned node, unsigned from) {
    for (unsigned i = from; i < pages_of(box, node).count; i++) {
        box->own[i] = box->mark[tenant] + i;
    }
}

/* a newcomer's pages get marks that no page had before */
static void arrive(struct box *box, unsigned tenant, unsigned node) {
    box->mark[tenant] = box->marks_given;
    box->marks_given += 1u << box->height;
    fill_own(box, tenant, node, 0);
    set_down(box, tenant, node, box->own);
}

/* its image as it came, which carries no marks, is written over what the tenant has made of it */
static void start_again(struct box *box, unsigned tenant, unsigned node) {
    memset(box->own, 0, sizeof box->own);
    set_down(box, tenant, node, box->own);
}

static void depart(struct box *box, unsigned tenant, unsigned node) {
    leave(box, node);
    box->node[tenant] = 0;
}

static void carry_out_grant(struct box *box, unsigned tenant, struct reserve_outcome got) {
    if (box->way == NEWCOMER_FIRST) {
        arrive(box, tenant, got.node);
        work_list(box, got.moves);
    } else {
        work_list(box, got.moves);
        arrive(box, tenant, got.node);
    }
}

static void carry_out_release(struct box *box, unsigned tenant, struct reserve_outcome got) {
    if (box->way == RELEASED_LAST) {
        work_list(box, got.moves);
        depart(box, tenant, got.node);
    } else {
        depart(box, tenant, got.node);
        work_list(box, got.moves);
    }
}

/* lifts a growing tenant; of its data as much is kept as goes into the new block, and what that has more is written afresh */
static void lift_own(struct box *box, unsigned tenant, unsigned node) {
    struct reserve_pages pages = pages_of(box, box->node[tenant]);
    memcpy(box->own, box->page + pages.first, pages.count * sizeof *box->page);
    leave(box, box->node[tenant]);
    fill_own(box, tenant, node, pages.count);
}

static void carry_out_growth(struct box *box, unsigned tenant, struct reserve_outcome got) {
    /* one that shrinks could lose no data by it, where others come to lie on what it gives up */
    int is_larger = pages_of(box, got.node).count > pages_of(box, box->node[tenant]).count;
    int lies = box->way == GROWN_LEFT_LYING && is_larger;
    if (!lies) {
        lift_own(box, tenant, got.node);
    }
    if (box->way == GROWN_FIRST) {
        set_down(box, tenant, got.node, box->own);
    }
    work_list(box, got.moves);
    if (lies) {
        lift_own(box, tenant, got.node);
    }
    if (box->way != GROWN_FIRST) {
        set_down(box, tenant, got.node, box->own);
    }
}

/* ---- judging */

/* the bytes that are lent for the moves of a call */
static size_t bytes_for(enum reserve_kind kind) {
    return kind == RESERVE_KIND_GROW ? RESERVE_GROW_MOVES_BYTES : RESERVE_MOVES_BYTES;
}

/* direct moves and then staged ones, of others than the call's own tenant, each from where the tenant's data lies, and behind
 * them the bytes as they were lent */
static int is_well_formed(const struct box *box, struct call call, unsigned count) {
    unsigned staged = 0;
    if (RESERVE_MOVE_BYTES * count > bytes_for(call.kind)) {
        return 0;
    }
    for (unsigned i = 0; i < count; i++) {
        struct move move = move_at(box, i);
        if (move.tenant >= RESERVE_TENANTS || move.from == 0 || move.from != box->node[move.tenant]) {
            return 0;
        }
        if (move.tenant == call.tenant) {
            return 0;
        }
        if (move.staged < staged || move.staged > 1) {
            return 0;
        }
        staged = move.staged;
    }
    for (unsigned i = RESERVE_MOVE_BYTES * count; i < sizeof box->moves; i++) {
        if (box->moves[i] != UNTOUCHED) {
            return 0;
        }
    }
    return 1;
}

/* whether a tenant stands in the line */
static int waits(const struct box *box, unsigned tenant) {
    for (unsigned place = 0; place < number(box->line) && place < RESERVE_LINE_PLACES; place++) {
        if (number(box->line + 2 + 6 * place) == tenant) {
            return 1;
        }
    }
    return 0;
}

/* whether a call that was answered 0 is a start that is repeated: the tenant had a node before it */
static int is_repeated(struct call call, struct reserve_entry had) {
    int grants = call.kind == RESERVE_KIND_GRANT_LEVEL || call.kind == RESERVE_KIND_GRANT_PAGES;
    return grants && had.node != 0;
}

/* whether an entry tells where the tenant's data lies */
static int is_true(const struct box *box, struct call call, struct reserve_entry had) {
    if (call.tenant >= RESERVE_TENANTS) {
        return had.answer == RESERVE_REFUSED_TENANT && had.node == 0;
    }
    return had.answer == RESERVE_DONE && had.node == box->node[call.tenant];
}

/* A repeated start tells where the data lies, and nobody moves. Whoever is admitted holds nothing before that, and waits no
 * longer; an admit that names nobody tells no node, and nobody moves. */
static int is_fitting(const struct box *box, struct call call, struct reserve_entry had, struct reserve_outcome got) {
    if (call.kind == RESERVE_KIND_ADMIT && call.tenant != RESERVE_NOBODY) {
        return call.tenant < RESERVE_TENANTS && box->node[call.tenant] == 0 && got.node != 0 && !waits(box, call.tenant);
    }
    if (call.kind == RESERVE_KIND_ADMIT) {
        return got.node == 0 && got.moves == 0;
    }
    return !is_repeated(call, had) || (got.node == box->node[call.tenant] && got.moves == 0);
}

static unsigned long spoilt_pages(const struct box *box) {
    unsigned long spoilt = 0;
    for (unsigned tenant = 0; tenant < RESERVE_TENANTS; tenant++) {
        unsigned node = reserve_look(box->table, sizeof box->table, (uint16_t)tenant).node;
        spoilt += node != box->node[tenant];
        if (node != 0) {
            struct reserve_pages pages = pages_of(box, node);
            for (unsigned i = 0; i < pages.count; i++) {
                spoilt += box->page[pages.first + i] != box->mark[tenant] + i;
            }
        }
    }
    return spoilt;
}

static unsigned larger(unsigned one, unsigned other) { return one > other ? one : other; }

static void add_up(const struct box *box, struct total *total, unsigned count) {
    unsigned staged = 0, pages = 0;
    for (unsigned i = 0; i < count; i++) {
        struct move move = move_at(box, i);
        staged += move.staged;
        pages += move.staged * pages_of(box, move.from).count;
    }
    total->calls++;
    total->moves += count;
    total->staged += staged;
    total->most_moves = larger(total->most_moves, count);
    total->most_staged = larger(total->most_staged, staged);
    total->most_pages = larger(total->most_pages, pages << (RESERVE_MAX_HEIGHT - box->height));
}

/* ---- histories */

static unsigned draw(struct box *box, unsigned below) {
    box->drawn ^= box->drawn << 13;
    box->drawn ^= box->drawn >> 17;
    box->drawn ^= box->drawn << 5;
    return (box->drawn >> 8) % below;
}

/* a join of any size, an admit, or a withdrawal, mostly of the oldest, who bars the others */
static struct call draw_call_of_line(struct box *box, unsigned tenants) {
    struct call call = {RESERVE_KIND_ADMIT, RESERVE_NOBODY, 0};
    unsigned drawn = draw(box, 8);
    if (drawn < 2) {
        call.kind = RESERVE_KIND_JOIN;
        call.tenant = (uint16_t)draw(box, tenants);
        call.size = (uint16_t)draw(box, box->height + 1u);
    } else if (drawn == 2) {
        call.kind = RESERVE_KIND_WITHDRAW;
        call.tenant = (uint16_t)(draw(box, 4) == 0 ? draw(box, tenants) : number(box->line + 2));
    }
    return call;
}

/* mostly small blocks; times of many grants and times of many releases; now and then a call that is refused */
static struct call draw_call(struct box *box) {
    unsigned tenants = box->height < RESERVE_MAX_HEIGHT ? 2u << box->height : RESERVE_TENANTS;
    unsigned level = draw(box, draw(box, box->height + 1u) + 1);
    struct call call = {RESERVE_KIND_RELEASE, (uint16_t)draw(box, tenants), 0};
    if (draw(box, 100) == 0) {
        box->filling = !box->filling;
    }
    if (draw(box, 3) == 0) {
        return draw_call_of_line(box, tenants);
    }
    if (draw(box, 4) == 0) {
        call.kind = RESERVE_KIND_GROW;
        call.tenant = box->whose[draw(box, 1u << box->height)];
        call.size = (uint16_t)level;
    } else if (draw(box, 4) >= (box->filling ? 3u : 1u)) {
        if (draw(box, 2) == 0) {
            call.tenant = box->whose[draw(box, 1u << box->height)];
        }
    } else if (draw(box, 2) == 0) {
        call.kind = RESERVE_KIND_GRANT_LEVEL;
        call.size = (uint16_t)level;
    } else {
        call.kind = RESERVE_KIND_GRANT_PAGES;
        call.size = (uint16_t)draw(box, (1u << level) + 1);
    }
    return call;
}

/* an admit that was made tells whom it granted as the call's tenant; a join and a withdrawal tell neither node nor moves */
static struct reserve_outcome make_call_of_line(struct box *box, struct call *call) {
    uint8_t *table = box->table, *line = box->line;
    const size_t table_length = sizeof box->table, line_length = sizeof box->line;
    struct reserve_outcome got = {0, 0, 0};
    struct reserve_admission admission;
    switch (call->kind) {
    case RESERVE_KIND_JOIN:
        got.answer = reserve_join(box->height, table, table_length, line, line_length, call->tenant, call->size);
        return got;
    case RESERVE_KIND_WITHDRAW:
        got.answer = reserve_withdraw(box->height, table, table_length, line, line_length, call->tenant);
        return got;
    default:
        admission = reserve_admit(box->height, table, table_length, line, line_length, box->moves, bytes_for(call->kind));
        call->tenant = admission.tenant;
        got.answer = admission.answer;
        got.node = admission.node;
        got.moves = admission.moves;
        return got;
    }
}

static struct reserve_outcome make_call(struct box *box, struct call *call) {
    uint8_t *table = box->table, *line = box->line, *moves = box->moves;
    const size_t table_length = sizeof box->table, line_length = sizeof box->line, moves_length = bytes_for(call->kind);
    memset(moves, UNTOUCHED, sizeof box->moves);
    switch (call->kind) {
    case RESERVE_KIND_GRANT_LEVEL:
        return reserve_grant_level(box->height, table, table_length, line, line_length, moves, moves_length, call->tenant,
                                   call->size);
    case RESERVE_KIND_GRANT_PAGES:
        return reserve_grant_pages(box->height, table, table_length, line, line_length, moves, moves_length, call->tenant,
                                   call->size);
    case RESERVE_KIND_GROW:
        return reserve_grow(box->height, table, table_length, moves, moves_length, call->tenant, call->size);
    case RESERVE_KIND_RELEASE:
        return reserve_release(box->height, table, table_length, moves, moves_length, call->tenant);
    default:
        return make_call_of_line(box, call);
    }
}

/* there is nothing to carry out of a start that is repeated, nor where nobody gets a block or gives one up */
static void carry_out(struct box *box, struct call call, struct reserve_entry had, struct reserve_outcome got) {
    struct total *total = &of_others;
    if (got.node == 0) {
        return;
    }
    if (is_repeated(call, had)) {
        total = &of_repeated;
        if (box->way == STARTED_AGAIN) {
            start_again(box, call.tenant, got.node);
        }
    } else if (call.kind == RESERVE_KIND_RELEASE) {
        carry_out_release(box, call.tenant, got);
    } else if (call.kind == RESERVE_KIND_GROW) {
        total = &of_growths;
        carry_out_growth(box, call.tenant, got);
    } else {
        total = call.kind == RESERVE_KIND_ADMIT ? &of_admits : &of_others;
        carry_out_grant(box, call.tenant, got);
    }
    if (box->way == AS_SAID) {
        add_up(box, total, got.moves);
    }
}

static void make_and_carry_out(struct box *box, struct call call) {
    struct reserve_entry had = reserve_look(box->table, sizeof box->table, call.tenant);
    box->misshapen = !is_true(box, call, had);
    struct reserve_outcome got = make_call(box, &call);
    if (got.answer == RESERVE_DONE) {
        box->misshapen |= !is_well_formed(box, call, got.moves) || !is_fitting(box, call, had, got);
        if (box->misshapen) {
            return;
        }
        carry_out(box, call, had, got);
    }
    box->spoilt = spoilt_pages(box);
}

static int has_found(const struct box *box) { return box->misshapen || box->covered || box->spoilt; }

/* a history that ends with its first finding; how many calls it had */
static unsigned run_history(struct box *box, unsigned height, uint32_t seed, enum way way) {
    unsigned calls = 0;
    memset(box, 0, sizeof *box);
    box->height = (uint16_t)height;
    box->way = way;
    box->drawn = (seed * 2654435761u + 2 * height) | 1;
    box->marks_given = 1;
    for (unsigned i = 0; i < PAGES; i++) {
        box->whose[i] = NOBODY;
    }
    box->misshapen = reserve_open(box->height, box->table, sizeof box->table, box->line, sizeof box->line) != RESERVE_DONE;
    while (calls < CALLS && !has_found(box)) {
        make_and_carry_out(box, draw_call(box));
        calls++;
    }
    return calls;
}

/* ---- checks */

static int passed, failed;

static void expect(int ok) {
    if (ok) {
        passed++;
    } else {
        failed++;
    }
}

static void check_height(struct box *box, unsigned height, uint32_t seed, uint32_t histories) {
    for (uint32_t i = 0; i < histories; i++) {
        unsigned calls = run_history(box, height, seed + i, AS_SAID);
        if (has_found(box)) {
            printf("height %u, seed %lu, call %u: %lu pages written that were not free, %lu spoilt%s\n", height,
                   (unsigned long)(seed + i), calls, box->covered, box->spoilt, box->misshapen ? ", a list out of form" : "");
            expect(0);
            return;
        }
    }
    expect(1);
}

/* a wrong way has to be found at every height that has staged tenants */
static void check_wrong_way(struct box *box, size_t which, uint32_t seed) {
    unsigned found = 0, heights = 0;
    for (unsigned height = 2; height <= RESERVE_MAX_HEIGHT; height++) {
        run_history(box, height, seed, wrong_ways[which].way);
        heights++;
        found += box->covered != 0 && (box->spoilt != 0) == wrong_ways[which].destroys;
    }
    printf("%s: found at %u of %u heights\n", wrong_ways[which].name, found, heights);
    expect(found == heights);
}

/* tells what calls of one kind came to, and whether some tenants were staged, but no more of one list than this and no larger
 * part of the reserve */
static void check_total(const char *calls, const struct total *total, unsigned staged, unsigned pages) {
    printf("%lu %s: %lu moves, %lu of them staged; a list has at most %u, and stages at most %u with %u / %u of the pages\n",
           total->calls, calls, total->moves, total->staged, total->most_moves, total->most_staged, total->most_pages, PAGES);
    expect(total->staged > 0 && total->most_staged <= staged && total->most_pages <= pages);
}

int main(int argc, char **argv) {
    static struct box box;
    uint32_t seed = argc > 1 ? (uint32_t)strtoul(argv[1], NULL, 10) : 1;
    uint32_t times = argc > 2 ? (uint32_t)strtoul(argv[2], NULL, 10) : 1;
    for (unsigned height = 0; height <= RESERVE_MAX_HEIGHT; height++) {
        check_height(&box, height, seed, HISTORIES * times);
    }
    check_total("grants and releases", &of_others, 1, PAGES / 4);
    check_total("admits", &of_admits, 1, PAGES / 4);
    check_total("growths", &of_growths, 2, PAGES / 32 * 5);
    printf("%lu starts that were repeated\n", of_repeated.calls);
    expect(of_repeated.calls > 0);
    for (size_t i = 0; i < sizeof wrong_ways / sizeof wrong_ways[0]; i++) {
        check_wrong_way(&box, i, seed);
    }
    printf("%d passed, %d failed\n", passed, failed);
    return failed == 0 ? 0 : 1;
}
