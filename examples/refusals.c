/*
 * refusals.c: each refusal of the C host, one line each, as docs/REFUSALS.md explains them. To build it, after
 * `./build-c target/c`:
 *
 *     cc -Itarget/c examples/refusals.c target/c/libzuntjev.a -o target/c/refusals
 */
#include "zuntjev.h"
#include <stdio.h>
#include <string.h>

static uint8_t vertices[ZUNTJEV_VERTEX_LEN * 64], edges[ZUNTJEV_EDGE_LEN * 128], state[ZUNTJEV_STATE_LEN];
static uint8_t table[ZUNTJEV_TABLE_LEN], list[ZUNTJEV_LIST_LEN], undo_log[ZUNTJEV_LOG_LEN];
static uint8_t cursor[ZUNTJEV_CURSOR_LEN], buffer[ZUNTJEV_REASON_LEN];

/* Some numbers, and how many they are. */
#define SOME(...) (const int32_t[]){__VA_ARGS__}, sizeof((const int32_t[]){__VA_ARGS__}) / sizeof(int32_t)
#define NONE NULL, 0

static void vertex(size_t v, int32_t weight, const int32_t *sizes, size_t size_count, const int32_t *lits,
                   size_t lit_count)
{
    zuntjev_put_vertex(vertices, v, weight, sizes, size_count, lits, lit_count);
}

static void edge(size_t g, int32_t u, int32_t v, int32_t lit)
{
    zuntjev_put_edge(edges, g, u, v, lit);
}

static int32_t build_with(size_t n, size_t m, int32_t same_size, size_t state_len)
{
    return zuntjev_build(vertices, sizeof vertices, n, edges, sizeof edges, m, same_size, 0, state, state_len);
}

static int32_t build(size_t n, size_t m)
{
    return build_with(n, m, 0, sizeof state);
}

static int32_t initialize(void)
{
    return zuntjev_initialize(state, sizeof state, table, sizeof table, list, sizeof list, undo_log, sizeof undo_log,
                              cursor, sizeof cursor);
}

static int32_t propagate(int32_t lit, int32_t pending)
{
    return zuntjev_propagate(state, sizeof state, table, sizeof table, list, sizeof list, undo_log, sizeof undo_log,
                             cursor, sizeof cursor, lit, pending);
}

static int32_t undo(int32_t lit)
{
    return zuntjev_undo(state, sizeof state, undo_log, sizeof undo_log, cursor, sizeof cursor, lit);
}

static int32_t reason(int32_t lit)
{
    return zuntjev_calc_reason(state, sizeof state, undo_log, sizeof undo_log, cursor, sizeof cursor, lit, buffer,
                               sizeof buffer);
}

static int32_t last(size_t buffer_len)
{
    return zuntjev_calc_last(state, sizeof state, undo_log, sizeof undo_log, cursor, sizeof cursor, buffer,
                             buffer_len);
}

static int32_t run(int32_t from, int32_t to, size_t buffer_len)
{
    return zuntjev_run(state, sizeof state, undo_log, sizeof undo_log, cursor, sizeof cursor, from, to, buffer,
                       buffer_len);
}

static int32_t page(size_t page_len)
{
    return zuntjev_page(state, sizeof state, undo_log, sizeof undo_log, cursor, sizeof cursor, buffer, page_len);
}

static int32_t check(void)
{
    return zuntjev_check(state, sizeof state);
}

/* Two pens of one head and two gates between them, literals 0 and 2. */
static void two_gates(void)
{
    vertex(0, 1, NONE, NONE);
    vertex(1, 1, NONE, NONE);
    edge(0, 0, 1, 0);
    edge(1, 0, 1, 2);
    build(2, 2);
}

/* Pens of 0, 0 and 1 heads, the first two to stay at 0, a gate from the third to each; neighbours differ in size. */
static void two_empty_pens(void)
{
    vertex(0, 0, SOME(0), NONE);
    vertex(1, 0, SOME(0), NONE);
    vertex(2, 1, NONE, NONE);
    edge(0, 2, 0, 0);
    edge(1, 2, 1, 2);
    build_with(3, 2, 1, sizeof state);
}

/* Prints an answer, and starts afresh. */
static void show(int32_t answer)
{
    printf("%d\n", (int)answer);
    memset(vertices, 0, sizeof vertices);
    memset(edges, 0, sizeof edges);
    memset(state, 0, sizeof state);
    memset(table, 0, sizeof table);
    memset(undo_log, 0, sizeof undo_log);
    memset(cursor, 0, sizeof cursor);
}

int main(void)
{
    show(build(65, 0)); /* -1 */
    vertex(0, 1000001, NONE, NONE); show(build(1, 0)); /* -2 */
    vertex(0, 1, SOME(3, 3), SOME(0)); show(build(1, 0)); /* -3 */
    vertex(0, 1, SOME(3, 7), NONE); show(build(1, 0)); /* -4 */
    vertex(0, 1, NONE, NONE); edge(0, 0, 0, 8192); show(build(1, 1)); /* -5 */
    edge(0, 0, 2, 0); show(build(2, 1)); /* -6 */
    show(build_with(2, 0, 0, ZUNTJEV_STATE_LEN - 1)); /* -7 */
    show(build_with(65, 0, 0, ZUNTJEV_STATE_LEN - 1)); /* -1 */
    two_gates(); table[1] = 5; show(propagate(0, 0)); /* -7 */
    two_gates(); propagate(0, 0); cursor[0] = 0; show(undo(0)); /* -7 */
    two_gates(); show(last(ZUNTJEV_REASON_LEN_FOR(2, 2) - 1)); /* -7 */
    two_gates(); state[16928] = 2; show(check()); /* -7 */
    build(0, 0); initialize(); show(initialize()); /* -8 */
    two_gates(); show(propagate(4, 0)); /* -9 */
    two_gates(); propagate(0, 1); show(propagate(1, 0)); /* -10 */
    two_gates(); propagate(0, 1); propagate(2, 1); show(undo(0)); /* -11 */
    two_empty_pens(); show(initialize()); /* -13 */
    two_gates(); table[0] = 2; table[1] = 1; show(initialize()); /* -14 */
    two_gates(); table[1] = 1; show(propagate(1, 0)); /* -14 */
    two_gates(); table[1] = 1; table[0] = 4; show(propagate(1, 0)); /* -100 */
    two_gates(); initialize(); show(reason(2)); /* -15 */
    two_gates(); propagate(1, 0); undo(1); show(reason(3)); /* -16 */
    two_gates(); propagate(0, 1); propagate(2, 1); show(run(0, 1, sizeof buffer)); /* -18 */
    two_gates(); show(run(0, 2, sizeof buffer)); /* -18 */
    two_gates(); show(run(0, 2, ZUNTJEV_REASON_LEN_FOR(2, 2) - 1)); /* -7 */
    two_gates(); show(page(2 * ZUNTJEV_LINE_LEN - 1)); /* -19 */
    two_gates(); propagate(1, 1); show(page(ZUNTJEV_LINE_LEN - 1)); /* -19 */
    two_gates(); cursor[4] = 1; show(page(0)); /* -7 */
    two_gates(); show(propagate(0, 1)); /* -101 */
    return 0;
}
