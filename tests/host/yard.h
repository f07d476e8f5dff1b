/*
 * yard.h: a plan, what the host is lent for it and the calls on it; what stands, told from the calls alone; and what
 * a call that reads must refuse with 7. For the tests of such calls, in tests/runs and tests/page.
 */
#include "zuntjev.h"
#include <stdio.h>
#include <stdlib.h>
#include <string.h>

/* Some numbers, and how many they are. */
#define SOME(...) (const int32_t[]){__VA_ARGS__}, (int)(sizeof((const int32_t[]){__VA_ARGS__}) / sizeof(int32_t))
#define EMPTY NULL, 0

static int passed, failed;

/* The plan, and the literals that stand, the oldest first. */
static struct {
    int pens, gates, size_lits, same_size, extra_walls;
    int32_t heads[64], sizes[64][32], size_lit[64][31];
    int size_count[64];
    int32_t ends[128][2], lit[128];
} plan;
static int32_t standing[4096];
static int standing_count;

/* What the host is lent, log and reason buffer as long as the plan needs them and no longer; what a call that reads
 * must not change; and a state of zeros, which no build gives. */
static uint8_t state[ZUNTJEV_STATE_LEN], cursor[ZUNTJEV_CURSOR_LEN], *records, *buffer;
static uint8_t state_before[ZUNTJEV_STATE_LEN], cursor_before[ZUNTJEV_CURSOR_LEN], *records_before;
static size_t records_len, buffer_len;
static uint8_t table[ZUNTJEV_TABLE_LEN], list[ZUNTJEV_LIST_LEN];
static const uint8_t zeros[ZUNTJEV_STATE_LEN];

static inline uint8_t *bytes(size_t n)
{
    uint8_t *at = calloc(n ? n : 1, 1);
    if (at == NULL) {
        fputs("no memory\n", stderr);
        exit(1);
    }
    return at;
}

/* Of failures the first are printed, with the plan in the lines of the program yard. */
static int shown;

static inline int show_plan(void)
{
    if (shown == 20)
        puts("further failures are counted and not printed");
    if (shown++ >= 20)
        return 0;
    if (plan.same_size || plan.extra_walls)
        printf("O %d %d | ", plan.same_size, plan.extra_walls);
    for (int v = 0; v < plan.pens; v++) {
        printf("P %d %d", (int)plan.heads[v], plan.size_count[v]);
        for (int j = 0; j < plan.size_count[v]; j++)
            printf(" %d", (int)plan.sizes[v][j]);
        for (int j = 0; j + 1 < plan.size_count[v]; j++)
            printf(" %d", (int)plan.size_lit[v][j]);
        printf(" | ");
    }
    for (int g = 0; g < plan.gates; g++)
        printf("G %d %d %d | ", (int)plan.ends[g][0], (int)plan.ends[g][1], (int)plan.lit[g]);
    printf("standing:");
    for (int i = 0; i < standing_count; i++)
        printf(" %d", (int)standing[i]);
    printf("\n");
    return 1;
}

static inline void check(const char *what, long got, long want)
{
    if (got == want) {
        passed++;
        return;
    }
    failed++;
    if (show_plan())
        printf("    %s: %ld, not %ld\n", what, got, want);
}

/* A plan of so many pens of one head, in any group. */
static inline void yard(int pens)
{
    memset(&plan, 0, sizeof plan);
    plan.pens = pens;
    for (int v = 0; v < pens; v++)
        plan.heads[v] = 1;
}

static inline void gate(int32_t u, int32_t v, int32_t lit)
{
    plan.ends[plan.gates][0] = u;
    plan.ends[plan.gates][1] = v;
    plan.lit[plan.gates++] = lit;
}

/* The sizes that a pen's group may have, and the literal of each but the first. */
static inline void sizes(int v, const int32_t *sizes, int count, const int32_t *lits, int lit_count)
{
    if (count < 1 || count > 32 || lit_count != count - 1) {
        fputs("a pen with other than a literal less than it has sizes\n", stderr);
        exit(1);
    }
    plan.size_count[v] = count;
    plan.size_lits += lit_count;
    for (int j = 0; j < count; j++)
        plan.sizes[v][j] = sizes[j];
    for (int j = 0; j < lit_count; j++)
        plan.size_lit[v][j] = lits[j];
}

/* Builds the plan's state, with nothing standing. */
static inline int32_t build(void)
{
    static uint8_t vertices[ZUNTJEV_VERTEX_LEN * 64], edges[ZUNTJEV_EDGE_LEN * 128];
    for (int v = 0; v < plan.pens; v++) {
        size_t k = (size_t)plan.size_count[v];
        zuntjev_put_vertex(vertices, (size_t)v, plan.heads[v], plan.sizes[v], k, plan.size_lit[v], k > 0 ? k - 1 : 0);
    }
    for (int g = 0; g < plan.gates; g++)
        zuntjev_put_edge(edges, (size_t)g, plan.ends[g][0], plan.ends[g][1], plan.lit[g]);
    free(records);
    free(records_before);
    free(buffer);
    records_len = ZUNTJEV_LOG_LEN_FOR(plan.gates, plan.size_lits);
    buffer_len = ZUNTJEV_REASON_LEN_FOR(plan.pens, plan.gates);
    records = bytes(records_len);
    records_before = bytes(records_len);
    buffer = bytes(buffer_len);
    memset(cursor, 0, sizeof cursor);
    memset(table, 0, sizeof table);
    standing_count = 0;
    return zuntjev_build(vertices, sizeof vertices, (size_t)plan.pens, edges, sizeof edges, (size_t)plan.gates,
                         plan.same_size, plan.extra_walls, state, ZUNTJEV_STATE_LEN);
}

/* Notifies a literal, which stands then unless it is refused. */
static inline int32_t notify(int32_t lit, int32_t pending)
{
    table[lit / 2] = (uint8_t)(3 + lit % 2);
    int32_t answer = zuntjev_propagate(state, ZUNTJEV_STATE_LEN, table, sizeof table, list, sizeof list, records,
                                       records_len, cursor, sizeof cursor, lit, pending);
    if (!zuntjev_is_refused(answer))
        standing[standing_count++] = lit;
    return answer;
}

/* Undoes the newest. */
static inline int32_t undo(void)
{
    int32_t lit = standing[--standing_count];
    table[lit / 2] = 0;
    return zuntjev_undo(state, ZUNTJEV_STATE_LEN, records, records_len, cursor, sizeof cursor, lit);
}

/* Initialises. Which literals it notified is for the caller to say: they stand then. */
static inline int32_t initialize(void)
{
    return zuntjev_initialize(state, ZUNTJEV_STATE_LEN, table, sizeof table, list, sizeof list, records, records_len,
                              cursor, sizeof cursor);
}

static inline int32_t reason(int32_t lit)
{
    return zuntjev_calc_reason(state, ZUNTJEV_STATE_LEN, records, records_len, cursor, sizeof cursor, lit, buffer,
                               buffer_len);
}

static inline int32_t last(void)
{
    return zuntjev_calc_last(state, ZUNTJEV_STATE_LEN, records, records_len, cursor, sizeof cursor, buffer,
                             buffer_len);
}

/* Before questions: what they must leave as it is. */
static inline void keep_log(void)
{
    memcpy(records_before, records, records_len);
    memcpy(cursor_before, cursor, sizeof cursor);
}

static inline void keep(void)
{
    memcpy(state_before, state, ZUNTJEV_STATE_LEN);
    keep_log();
}

static inline int log_kept(void)
{
    return memcmp(records, records_before, records_len) == 0 && memcmp(cursor, cursor_before, sizeof cursor) == 0;
}

static inline int state_kept(void)
{
    int same = memcmp(state, state_before, ZUNTJEV_STATE_LEN) == 0;
    if (!same && show_plan())
        puts("    the state changed");
    return same;
}

/* What a call that reads is lent: a state and its length, and how many bytes of the log and the cursor. */
struct lent {
    const uint8_t *state;
    size_t state_len, log_len, cursor_len;
};

static inline struct lent whole(void)
{
    return (struct lent){state, ZUNTJEV_STATE_LEN, records_len, sizeof cursor};
}

/* What must be refused with 7, and how a failure names it. */
enum damage {
    SHORT_LOG, SHORT_CURSOR, SHORT_STATE, NO_STATE, RECORD, RECORD_LITERAL, CURSOR_PAST_LOG, STANDING_COUNT,
    GATE_STATE, LOWER_BOUND, UPPER_BOUND, MARK, ZEROS, DAMAGES
};
static const char *const damage_names[DAMAGES] = {
    "a short log", "a short cursor", "a short state", "no state", "a damaged record", "a damaged literal in the log",
    "a cursor past the log", "a wrong number standing", "a gate other than noted", "a lower bound other than noted",
    "an upper bound other than noted", "a state without its mark", "a state of zeros"};

static uint8_t *damaged, damaged_bits;

/* Damages what is lent. `i` says which record, gate or pen. Answers 0 where the plan has nothing to damage so. The
 * log and the cursor are then to stay as damaged. */
static inline int damage_lent(enum damage damage, int i, struct lent *lent)
{
    int used = cursor[0] + 256 * cursor[1];
    damaged = NULL;
    damaged_bits = 1;
    switch (damage) {
    case SHORT_LOG:
        if (lent->log_len == 0)
            return 0;
        lent->log_len -= 1;
        break;
    case SHORT_CURSOR:
        lent->cursor_len -= 1;
        break;
    case SHORT_STATE:
        lent->state_len -= 1;
        break;
    case NO_STATE:
        lent->state_len = 0;
        break;
    case RECORD: /* another kind or index */
        if (used == 0)
            return 0;
        damaged = &records[8 * (i % used) + i % 2];
        break;
    case RECORD_LITERAL: /* of the first record, a notification's: the negation, or one past 8191 */
        if (used == 0)
            return 0;
        damaged = &records[2 + i % 2];
        damaged_bits = i % 2 == 0 ? 1 : 128;
        break;
    case CURSOR_PAST_LOG:
        damaged = &cursor[2];
        break;
    case STANDING_COUNT:
        damaged = &cursor[4];
        break;
    case GATE_STATE: /* the noted words begin with the gates */
        if (plan.gates == 0)
            return 0;
        damaged = &state[61220 + 4 * (i % plan.gates)];
        break;
    case LOWER_BOUND: /* the pens' lower bounds follow the words of 128 gates, the upper bounds those of 64 pens */
        if (plan.pens == 0)
            return 0;
        damaged = &state[61220 + 4 * (128 + i % plan.pens)];
        break;
    case UPPER_BOUND:
        if (plan.pens == 0)
            return 0;
        damaged = &state[61220 + 4 * (192 + i % plan.pens)];
        break;
    case MARK:
        damaged = &state[24];
        break;
    default:
        lent->state = zeros;
    }
    if (damaged)
        *damaged ^= damaged_bits;
    keep_log();
    return 1;
}

static inline void mend(void)
{
    if (damaged)
        *damaged ^= damaged_bits;
    damaged = NULL;
    keep_log();
}
