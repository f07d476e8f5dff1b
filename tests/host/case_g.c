/* Document 01's case G over the host's functions, each answer checked, other cases of initialising, crossed bounds, states that are
 * refused, and those that zuntjev_check refuses. */
#include "zuntjev.h"
#include <stdio.h>
#include <stdlib.h>
#include <string.h>

static int passed, failed;

static uint8_t state[ZUNTJEV_STATE_LEN + 4];
static uint8_t before[sizeof state];
static uint8_t cursor[ZUNTJEV_CURSOR_LEN];

/* A run of bytes that is as long as a plan needs it, so that a sanitizer sees a write past its end. */
struct run {
    uint8_t *at;
    size_t len;
};

static struct run table, list, records, buffer;
static uint8_t vertices[65 * 268], edges[128 * 12];

static void check(const char *what, long got, long want)
{
    if (got == want) {
        passed++;
    } else {
        failed++;
        printf("%s: %ld, not %ld\n", what, got, want);
    }
}

static int32_t notify(int32_t lit, int32_t pending)
{
    uint8_t *entry = &table.at[lit / 2];
    uint8_t old = *entry;
    if (old == 0)
        *entry = (uint8_t)(3 + lit % 2);
    int32_t r = zuntjev_propagate(state, sizeof state, table.at, table.len, list.at, list.len, records.at, records.len, cursor,
                                  sizeof cursor, lit, pending);
    if (r < 0 && r > ZUNTJEV_CONFLICT)
        *entry = old;
    return r;
}

static int32_t propagate(int32_t lit)
{
    return notify(lit, 0);
}

static int32_t undo(int32_t lit)
{
    int32_t r = zuntjev_undo(state, sizeof state, records.at, records.len, cursor, sizeof cursor, lit);
    if (r == 0)
        table.at[lit / 2] = 0;
    return r;
}

static int32_t reason(int32_t lit)
{
    return zuntjev_calc_reason(state, sizeof state, records.at, records.len, cursor, sizeof cursor, lit, buffer.at, buffer.len);
}

static int32_t last(void)
{
    return zuntjev_calc_last(state, sizeof state, records.at, records.len, cursor, sizeof cursor, buffer.at, buffer.len);
}

static long lit_at(const uint8_t *bytes, int i)
{
    return bytes[2 * i] + 256L * bytes[2 * i + 1];
}

static int32_t initialize(void)
{
    return zuntjev_initialize(state, sizeof state, table.at, table.len, list.at, list.len, records.at, records.len, cursor,
                              sizeof cursor);
}

static void put(uint8_t *at, int32_t x)
{
    uint32_t bits = (uint32_t)x;
    for (int i = 0; i < 4; i++)
        at[i] = (uint8_t)(bits >> 8 * i);
}

static void pen(int v, int32_t weight, int32_t sizes, int32_t smaller, int32_t larger, int32_t lit)
{
    uint8_t *numbers = vertices + 268 * v;
    put(numbers, weight);
    put(numbers + 4, sizes);
    put(numbers + 8, sizes > 1 ? sizes - 1 : 0);
    put(numbers + 12, smaller);
    put(numbers + 16, larger);
    put(numbers + 140, lit);
}

static void gate(int g, int32_t u, int32_t v, int32_t lit)
{
    put(edges + 12 * g, u);
    put(edges + 12 * g + 4, v);
    put(edges + 12 * g + 8, lit);
}

static void fit(struct run *r, size_t len)
{
    free(r->at);
    r->at = calloc(len ? len : 1, 1);
    r->len = len;
    if (r->at == NULL)
        exit(1);
}

/* A plan of that many pens, gates, size literals and variables, and buffers that just suffice for it. */
static int32_t build(size_t len, int pens, int gates, int size_lits, int variables)
{
    fit(&table, (size_t)variables);
    fit(&list, 4 * (size_t)variables);
    fit(&records, 16 * (size_t)(gates + size_lits));
    fit(&buffer, 2 * (size_t)(gates + 2 * pens + 4));
    memset(cursor, 0, sizeof cursor);
    return zuntjev_build(vertices, 268 * (size_t)pens, (size_t)pens, edges, 12 * (size_t)gates, (size_t)gates, 0, 0, state, len);
}

static int32_t build_g(size_t len)
{
    pen(0, 3, 2, 3, 7, 0);
    pen(1, 4, 2, 4, 7, 2);
    gate(0, 0, 1, 4);
    return build(len, 2, 1, 2, 3);
}

/* Whether all bytes are as they were: the state's, and those of the other buffers, which held 0 but for the table's. */
static int untouched(const uint8_t *codes)
{
    int same = memcmp(before, state, sizeof state) == 0 && memcmp(codes, table.at, table.len) == 0;
    for (size_t i = 0; i < list.len; i++)
        same = same && list.at[i] == 0;
    for (size_t i = 0; i < records.len; i++)
        same = same && records.at[i] == 0;
    for (size_t i = 0; i < sizeof cursor; i++)
        same = same && cursor[i] == 0;
    return same;
}

/* The plan of cases E and F: variable 0's false and variable 1's true were both set earlier, so that 14 applies. */
static void refused_initialize(void)
{
    static const uint8_t codes[] = {2, 1};
    pen(0, 1, 0, 0, 0, 0);
    pen(1, 1, 0, 0, 0, 0);
    gate(0, 0, 1, 0);
    gate(1, 0, 1, 2);
    check("build F", build(sizeof state, 2, 2, 0, 2), 0);
    memcpy(before, state, sizeof state);
    check("I, a short table", zuntjev_initialize(state, sizeof state, table.at, 1, list.at, list.len, records.at, records.len, cursor,
                                                 sizeof cursor), -7);
    check("I, a short list", zuntjev_initialize(state, sizeof state, table.at, table.len, list.at, 7, records.at, records.len,
                                                cursor, sizeof cursor), -7);
    memcpy(table.at, codes, sizeof codes);
    check("I is 14", initialize(), -14);
    check("all bytes after it", untouched(codes), 1);
}

/* The cases D2, B and H, and a conflict after a literal was handed on: its mark stays, and the list is as it was. */
static void initializes(void)
{
    pen(0, 1, 0, 0, 0, 0);
    gate(0, 0, 0, 0);
    check("build D2", build(sizeof state, 1, 1, 0, 1), 0);
    check("D2, I", initialize(), 0);
    check("D2, R 1", reason(1), 0);
    pen(0, 3, 1, 2, 0, 0);
    check("build B", build(sizeof state, 1, 0, 0, 0), 0);
    check("B, I", initialize(), ZUNTJEV_CONFLICT);
    check("B, R -", last(), 0);
    check("B, I again", initialize(), ZUNTJEV_CONFLICT);
    pen(0, 2, 1, 2, 0, 0);
    pen(1, 3, 1, 4, 0, 0);
    gate(0, 0, 1, 0);
    check("build H", build(sizeof state, 2, 1, 0, 1), 0);
    check("H, I", initialize(), ZUNTJEV_CONFLICT);
    check("H, R -", last(), 0);
    pen(0, 3, 2, 3, 7, 2);
    pen(1, 4, 2, 4, 7, 6);
    pen(2, 1, 0, 0, 0, 0);
    pen(3, 1, 0, 0, 0, 0);
    gate(0, 0, 1, 4);
    gate(1, 2, 3, 0);
    gate(2, 2, 3, 8);
    check("build a longer plan", build(sizeof state, 4, 3, 2, 5), 0);
    memset(table.at, 1, 3);
    check("a late conflict", initialize(), ZUNTJEV_CONFLICT);
    check("the mark of 8", table.at[4], 3);
    check("the list", lit_at(list.at, 0), 0);
    check("three literals stand", cursor[4], 3);
    check("its R -", last(), 2);
    check("its R -, first", lit_at(buffer.at, 0), 4);
    check("its R -, second", lit_at(buffer.at, 1), 2);
    check("R 8", reason(8), 1);
    check("R 8, first", lit_at(buffer.at, 0), 0);
    check("U 4", undo(4), 0);
    check("U 2", undo(2), 0);
    check("U 0", undo(0), 0);
}

/* Size literals that contradict each other, "6 or more" and "2 or less" of one pen, in a plan where another pen and a gate come after it:
 * by a notification, in an initialise (literals 1 and 2, and not 4), and in its last pass. */
static void crossed(void)
{
    pen(0, 1, 3, 2, 4, 0);
    put(vertices + 20, 6);
    put(vertices + 144, 2);
    pen(1, 9, 0, 0, 0, 0);
    gate(0, 0, 1, 4);
    check("build", build(sizeof state, 2, 1, 2, 3), 0);
    check("6 or more, noted", notify(2, 1), ZUNTJEV_NOTED);
    check("2 or less", propagate(1), ZUNTJEV_CONFLICT);
    check("its list", last(), 2);
    check("the lower literal", lit_at(buffer.at, 0), 2);
    check("the upper literal", lit_at(buffer.at, 1), 1);
    check("both stand", cursor[4], 2);
    check("the gate is unset", table.at[2], 0);
    check("no reason for it", reason(4), -15);
    table.at[0] = table.at[1] = 0;
    check("the last pass", initialize(), ZUNTJEV_CONFLICT);
    check("its list, too", last(), 2);
    check("both still stand", cursor[4], 2);
    check("undo", undo(1), 0);
    check("undo, too", undo(2), 0);
    table.at[0] = 2;
    table.at[1] = table.at[2] = 1;
    check("an initialise, all set earlier", initialize(), ZUNTJEV_CONFLICT);
    check("the list", last(), 2);
    check("its lower literal", lit_at(buffer.at, 0), 2);
    check("its upper literal", lit_at(buffer.at, 1), 1);
    check("1 and 2 stand", cursor[4], 2);
    check("the newest is 2", undo(2), 0);
}

static void refusals(void)
{
    memcpy(before, state, sizeof state);
    check("a short state", zuntjev_propagate(state, ZUNTJEV_STATE_LEN - 1, table.at, table.len, list.at, list.len, records.at,
                                             records.len, cursor, sizeof cursor, 0, 0), -7);
    check("I, a short state", zuntjev_initialize(state, ZUNTJEV_STATE_LEN - 1, table.at, table.len, list.at, list.len, records.at,
                                                 records.len, cursor, sizeof cursor), -7);
    check("a short cursor", zuntjev_undo(state, sizeof state, records.at, records.len, cursor, 7, 0), -7);
    check("a short log", zuntjev_undo(state, sizeof state, records.at, 5 * 8, cursor, sizeof cursor, 0), -7);
    check("a short buffer", zuntjev_calc_last(state, sizeof state, records.at, records.len, cursor, sizeof cursor, buffer.at, 2), -7);
    check("an unknown literal", zuntjev_propagate(state, sizeof state, table.at, table.len, list.at, list.len, records.at, records.len, cursor, sizeof cursor, 8, 0), -9);
    check("a negative literal", zuntjev_undo(state, sizeof state, records.at, records.len, cursor, sizeof cursor, -1), -9);
    check("no reason", reason(4), -15);
    check("nothing to undo", undo(0), -11);
    check("the state after refusals", memcmp(before, state, sizeof state), 0);
    for (size_t at = 0; at < ZUNTJEV_STATE_LEN; at += 61) {
        state[at] ^= 255;
        initialize();
        propagate(0);
        reason(0);
        last();
        undo(0);
        memcpy(state, before, sizeof state);
        memset(cursor, 0, sizeof cursor);
        memset(table.at, 0, table.len);
    }
    passed++;
}

/* Memory of zeros that was never built is refused by each call, and so is a state that has lost its mark. */
static void unbuilt(void)
{
    static const uint8_t codes[3];
    memset(state, 0, sizeof state);
    memset(before, 0, sizeof before);
    gate(0, 0, 2, 4);
    check("a refused build in zeros", build(sizeof state, 2, 1, 2, 3), -6);
    check("zeros, I", initialize(), -7);
    check("zeros, N 0", propagate(0), -7);
    check("zeros, U 0", undo(0), -7);
    check("zeros, R 0", reason(0), -7);
    check("zeros, R -", last(), -7);
    check("zeros, all bytes after it", untouched(codes), 1);
    check("build after zeros", build_g(sizeof state), 0);
    check("the mark", state[24] + 256L * state[25] + 65536L * state[26] + 16777216L * state[27], ZUNTJEV_LAYOUT_VERSION);
    memcpy(before, state, sizeof state);
    for (int mark = 0; mark < 3; mark += 2) {
        before[24] = state[24] = (uint8_t)mark;
        check("another mark, I", initialize(), -7);
        check("another mark, N 0", propagate(0), -7);
        check("another mark, U 0", undo(0), -7);
        check("another mark, R 0", reason(0), -7);
        check("another mark, R -", last(), -7);
        check("another mark, all bytes after it", untouched(codes), 1);
    }
}

/* Damage of case G's plan, a word each of the state's first 15241: what stands there, and a number that no build puts there. The last
 * column says whether the calls refuse it too: they test the counts, the options and the mark. */
static const struct {
    const char *what;
    size_t word;
    int32_t built, damaged;
    int counted;
} damages[] = {
    {"65 pens", 0, 2, 65, 1},
    {"129 gates", 1, 1, 129, 1},
    {"an option of 2", 2, 0, 2, 1},
    {"the other option", 3, 0, 2, 1},
    {"2177 variables", 4, 3, 2177, 1},
    {"2177 slots", 5, 3, 2177, 1},
    {"another mark", 6, ZUNTJEV_LAYOUT_VERSION, 2, 1},
    {"a variable less", 4, 3, 2, 0},
    {"a slot more", 5, 3, 4, 0},
    {"a heavy pen", 9, 4, 1000001, 0},
    {"33 sizes", 73, 2, 33, 0},
    {"a large size", 169, 7, 1000001, 0},
    {"a size that does not rise", 169, 7, 4, 0},
    {"another variable's literal", 2216, 2, 0, 0},
    {"another literal's place", 4392, 2, 3, 0},
    {"another position", 6568, 1, 0, 0},
    {"variables that do not rise", 8713, 1, 0, 0},
    {"a high variable", 8714, 2, 4096, 0},
    {"a start past the next", 10889, 1, 3, 0},
    {"an end before the last slot", 10891, 3, 2, 0},
    {"a slot that is not in use", 13066, 32, 33, 0},
};

static long word_at(size_t word)
{
    const uint8_t *at = state + 4 * word;
    return at[0] + 256L * at[1] + 65536L * at[2] + 16777216L * at[3];
}

/* zuntjev_check: 0 of what a build and calls leave, -7 of each damage, of zeros and of too few bytes; it writes nothing. */
static void checked(void)
{
    static const uint8_t codes[3];
    check("build", build_g(sizeof state), 0);
    check("a built state", zuntjev_check(state, sizeof state), 0);
    check("as long as its layout", zuntjev_check(state, ZUNTJEV_STATE_LEN), 0);
    check("a byte less", zuntjev_check(state, ZUNTJEV_STATE_LEN - 1), -7);
    check("no bytes", zuntjev_check(state, 0), -7);
    memcpy(before, state, sizeof state);
    for (size_t i = 0; i < sizeof damages / sizeof damages[0]; i++) {
        const char *what = damages[i].what;
        check(what, word_at(damages[i].word), damages[i].built);
        put(state + 4 * damages[i].word, damages[i].damaged);
        put(before + 4 * damages[i].word, damages[i].damaged);
        check(what, zuntjev_check(state, sizeof state), -7);
        check(what, (last() == -7) >= damages[i].counted, 1);
        check(what, untouched(codes), 1);
        put(state + 4 * damages[i].word, damages[i].built);
        put(before + 4 * damages[i].word, damages[i].built);
        check(what, zuntjev_check(state, sizeof state), 0);
    }
    for (size_t at = 60964; at < 60966; at++) {
        before[at] = state[at] = 2;
        check("an end that is no pen", zuntjev_check(state, sizeof state), -7);
        check("it is as it was", untouched(codes), 1);
        before[at] = state[at] = (uint8_t)(at - 60964);
    }
    check("mended", zuntjev_check(state, sizeof state), 0);
    put(state + 4 * 9, 1000001);
    check("a heavy pen's list last left", last(), 0);
    put(state + 4 * 9, 4);
    check("N 5", propagate(5), 2);
    check("after a notification", zuntjev_check(state, sizeof state), 0);
    check("U 5", undo(5), 0);
    check("after an undo", zuntjev_check(state, sizeof state), 0);
    memset(state, 0, sizeof state);
    check("zeros", zuntjev_check(state, sizeof state), -7);
}

/* Building: where it is refused all bytes are as they were, and what follows the layout stays. */
static void building(void)
{
    memset(state, 9, sizeof state);
    memset(before, 9, sizeof before);
    check("a short state to build in", build_g(ZUNTJEV_STATE_LEN - 1), -7);
    check("the state after it", memcmp(before, state, sizeof state), 0);
    gate(0, 0, 1, 8192);
    check("a literal of 8192", build(sizeof state, 2, 1, 2, 3), -5);
    gate(0, 0, 2, 4);
    check("an end that is no pen", build(sizeof state, 2, 1, 2, 3), -6);
    check("65 pens", zuntjev_build(vertices, sizeof vertices, 65, edges, 12, 1, 0, 0, state, sizeof state), -1);
    check("a refused build into a short state", zuntjev_build(vertices, sizeof vertices, 65, edges, 12, 1, 0, 0, state, 0), -1);
    pen(0, -1, 2, 3, 7, 0);
    gate(0, 0, 1, 4);
    check("a weight of -1", build(sizeof state, 2, 1, 2, 3), -2);
    pen(0, INT32_MIN, 2, 3, 7, 0);
    check("the least number", build(sizeof state, 2, 1, 2, 3), -2);
    check("the state after refused builds", memcmp(before, state, sizeof state), 0);
    check("build", build_g(sizeof state), 0);
    check("what follows the state", memcmp(before + ZUNTJEV_STATE_LEN, state + ZUNTJEV_STATE_LEN, sizeof state - ZUNTJEV_STATE_LEN), 0);
    memcpy(before, state, sizeof state);
    memset(state, 200, ZUNTJEV_STATE_LEN);
    check("build over other bytes", build_g(sizeof state), 0);
    check("bytes that are missing count as 0", zuntjev_build(vertices, 0, 2, edges, 0, 1, 0, 0, before + 4, 0), -7);
    check("the same state", memcmp(before, state, 63804), 0);
    check("and its reasons", memcmp(before + 63808, state + 63808, sizeof state - 63808), 0);
}

int main(void)
{
    unbuilt();
    checked();
    building();
    refusals();
    check("I", initialize(), 0);
    check("I again", initialize(), -8);
    check("N 0", propagate(0), 0);
    check("N 4", propagate(4), ZUNTJEV_CONFLICT);
    check("R -", last(), 2);
    check("R -, first", lit_at(buffer.at, 0), 4);
    check("R -, second", lit_at(buffer.at, 1), 0);
    check("N 5 while 4 stands", propagate(5), -10);
    check("U 0 before 4", undo(0), -11);
    check("U 4", undo(4), 0);
    check("U 0", undo(0), 0);
    check("N 5", propagate(5), 2);
    check("N 5, first", lit_at(list.at, 0), 0);
    check("N 5, second", lit_at(list.at, 1), 2);
    check("entry of 0", table.at[0], 3);
    check("entry of 2", table.at[1], 3);
    check("R 0", reason(0), 1);
    check("R 0, first", lit_at(buffer.at, 0), 5);
    refused_initialize();
    initializes();
    crossed();
    printf("%d passed, %d failed\n", passed, failed);
    return failed != 0;
}
