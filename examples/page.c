/*
 * page.c: a page for the shed wall. It builds the yard of the picture in README.md, notes the literals that it is
 * given, and prints a line for each region: its lowest pen, how many pens and heads it has, and the greatest lower
 * and the least upper bound of its pens. docs/HOST.md explains it. To build it, after `./build-c target/c`, and to
 * print the page of the division in the picture:
 *
 *     cc -Itarget/c examples/page.c target/c/libzuntjev.a -o target/c/page
 *     target/c/page 1 5 7 9 13 17 33 35 37 39 40 42
 */
#include "zuntjev.h"
#include <stdio.h>
#include <stdlib.h>

enum { PENS = 12, GATES = 17, SIZE_LITS = 5, VARIABLES = 22 };

/* A pen's heads, how many sizes its group may have, the sizes, and for each but the first the literal that says "this
 * size or more". No sizes: any. */
static const struct { int32_t heads, count, sizes[3], lits[2]; } pens[PENS] = {
    {6, 2, {10, 18}, {34}}, {4, 0, {0}, {0}}, {5, 0, {0}, {0}}, {3, 2, {8, 16}, {36}},
    {7, 0, {0}, {0}}, {2, 2, {15, 22}, {38}}, {6, 0, {0}, {0}}, {4, 0, {0}, {0}},
    {5, 0, {0}, {0}}, {5, 0, {0}, {0}}, {3, 0, {0}, {0}}, {6, 3, {9, 11, 13}, {40, 42}}};

/* Gate g joins these two pens; literal 2g says that it is shut, 2g + 1 that it is open. */
static const int32_t gates[GATES][2] = {{0, 1}, {1, 2}, {2, 3}, {4, 5}, {5, 6}, {6, 7}, {8, 9}, {9, 10}, {10, 11},
                                        {0, 4}, {1, 5}, {2, 6}, {3, 7}, {4, 8}, {5, 9}, {6, 10}, {7, 11}};

/* What the host lends: buffers that just suffice for this plan; a page has no more lines than there are pens. */
static uint8_t state[ZUNTJEV_STATE_LEN], cursor[ZUNTJEV_CURSOR_LEN], undo_log[ZUNTJEV_LOG_LEN_FOR(GATES, SIZE_LITS)];
static uint8_t table[ZUNTJEV_TABLE_LEN_FOR(VARIABLES - 1)], list[ZUNTJEV_LIST_LEN_FOR(VARIABLES)];
static uint8_t page[ZUNTJEV_PAGE_LEN_FOR(PENS)];

static void stop(const char *call, int32_t answer)
{
    fprintf(stderr, "%s is refused with %d\n", call, (int)-answer);
    exit(1);
}

static void build(void)
{
    static uint8_t vertices[ZUNTJEV_VERTEX_LEN * PENS], edges[ZUNTJEV_EDGE_LEN * GATES];
    for (int v = 0; v < PENS; v++) {
        size_t k = (size_t)pens[v].count;
        zuntjev_put_vertex(vertices, (size_t)v, pens[v].heads, pens[v].sizes, k, pens[v].lits, k > 0 ? k - 1 : 0);
    }
    for (int g = 0; g < GATES; g++)
        zuntjev_put_edge(edges, (size_t)g, gates[g][0], gates[g][1], 2 * g);
    int32_t answer = zuntjev_build(vertices, sizeof vertices, PENS, edges, sizeof edges, GATES, 0, 0, state,
                                   sizeof state);
    if (answer < 0)
        stop("building", answer);
}

/* A pending number other than 0: the literal is noted, and nothing is looked for that follows. */
static void note(int32_t lit)
{
    table[lit / 2] = (uint8_t)(3 + lit % 2);
    int32_t answer = zuntjev_propagate(state, sizeof state, table, sizeof table, list, sizeof list, undo_log,
                                       sizeof undo_log, cursor, sizeof cursor, lit, 1);
    if (answer != ZUNTJEV_NOTED)
        stop("noting", answer);
}

static void print_page(void)
{
    int32_t n = zuntjev_page(state, sizeof state, undo_log, sizeof undo_log, cursor, sizeof cursor, page,
                             sizeof page);
    if (n < 0)
        stop("the page", n);
    fwrite(page, 1, (size_t)n, stdout);
}

/* A literal of the plan; anything else ends the program with its usage. */
static int32_t literal(const char *text)
{
    char *end;
    long number = strtol(text, &end, 10);
    if (end == text || *end != 0 || number < 0 || number >= 2 * VARIABLES) {
        fprintf(stderr, "usage: page LITERAL.., each 0 to %d\n", 2 * VARIABLES - 1);
        exit(2);
    }
    return (int32_t)number;
}

int main(int argc, char **argv)
{
    build();
    for (int i = 1; i < argc; i++)
        note(literal(argv[i]));
    print_page();
    return 0;
}
