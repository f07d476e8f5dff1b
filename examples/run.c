/*
 * run.c: which gates to open for a bull. It builds the yard of the picture in README.md, with pens that may stand in
 * any group, notes that some gates are open and some are shut, and asks for the run between two pens. docs/HOST.md
 * explains it. To build it, after `./build-c target/c`, and to ask how a bull gets from pen 0 to pen 11:
 *
 *     cc -Itarget/c examples/run.c target/c/libzuntjev.a -o target/c/run
 *     target/c/run 0 11
 */
#include "zuntjev.h"
#include <stdio.h>
#include <stdlib.h>

enum { PENS = 12, GATES = 17 };

/* A pen's heads. Gate g joins two pens; literal 2g says that it is shut, 2g + 1 that it is open. */
static const int32_t heads[PENS] = {6, 4, 5, 3, 7, 2, 6, 4, 5, 5, 3, 6};
static const int32_t gates[GATES][2] = {{0, 1}, {1, 2}, {2, 3}, {4, 5}, {5, 6}, {6, 7}, {8, 9}, {9, 10}, {10, 11},
                                        {0, 4}, {1, 5}, {2, 6}, {3, 7}, {4, 8}, {5, 9}, {6, 10}, {7, 11}};

/* Gates 0, 3, 4, 8 and 16 are open, gates 2, 10 and 12 are shut, the others are undecided. */
static const int32_t known[] = {2 * 0 + 1, 2 * 3 + 1, 2 * 4 + 1, 2 * 8 + 1, 2 * 16 + 1, 2 * 2, 2 * 10, 2 * 12};
enum { KNOWN = sizeof known / sizeof known[0] };

/* What the host lends: buffers that just suffice for this plan. */
static uint8_t state[ZUNTJEV_STATE_LEN], cursor[ZUNTJEV_CURSOR_LEN], undo_log[ZUNTJEV_LOG_LEN_FOR(GATES, 0)];
static uint8_t table[ZUNTJEV_TABLE_LEN_FOR(GATES - 1)], list[ZUNTJEV_LIST_LEN_FOR(GATES)];
static uint8_t buffer[ZUNTJEV_REASON_LEN_FOR(PENS, GATES)];

static void stop(const char *call, int32_t answer)
{
    fprintf(stderr, "%s is refused with %d\n", call, (int)-answer);
    exit(1);
}

static void build(void)
{
    static uint8_t vertices[ZUNTJEV_VERTEX_LEN * PENS], edges[ZUNTJEV_EDGE_LEN * GATES];
    for (int v = 0; v < PENS; v++)
        zuntjev_put_vertex(vertices, (size_t)v, heads[v], NULL, 0, NULL, 0);
    for (int g = 0; g < GATES; g++)
        zuntjev_put_edge(edges, (size_t)g, gates[g][0], gates[g][1], 2 * g);
    int32_t answer = zuntjev_build(vertices, sizeof vertices, PENS, edges, sizeof edges, GATES, 0, 0, state,
                                   sizeof state);
    if (answer < 0)
        stop("building", answer);
}

/* A pending number other than 0: the literal is noted, and nothing is looked for that follows. */
static void note(int32_t lit)
{
    table[lit / 2] = (uint8_t)(3 + lit % 2);
    int32_t answer = zuntjev_propagate(state, sizeof state, table, sizeof table, list, sizeof list, undo_log,
                                       sizeof undo_log, cursor, sizeof cursor, lit, 1);
    if (answer != ZUNTJEV_NOTED)
        stop("noting", answer);
}

static int is_open(int32_t gate)
{
    for (int i = 0; i < KNOWN; i++)
        if (known[i] == 2 * gate + 1)
            return 1;
    return 0;
}

static void ask(int32_t from, int32_t to)
{
    int32_t n = zuntjev_run(state, sizeof state, undo_log, sizeof undo_log, cursor, sizeof cursor, from, to, buffer,
                            sizeof buffer);
    printf("from pen %d to pen %d:", (int)from, (int)to);
    if (n == ZUNTJEV_REFUSED_NO_RUN)
        printf(" no run without a shut gate, or no such pen");
    else if (n < 0)
        stop("the run", n);
    else if (n == 0)
        printf(" stay there");
    for (int32_t i = 0; i < n; i++) {
        int32_t gate = zuntjev_gate_at(buffer, (size_t)i);
        printf("%s %s gate %d", i > 0 ? "," : "", is_open(gate) ? "pass" : "open", (int)gate);
    }
    printf("\n");
}

/* A pen's number; anything else ends the program with its usage. */
static int32_t pen(const char *text)
{
    char *end;
    long number = strtol(text, &end, 10);
    if (end == text || *end != 0 || number < INT32_MIN || number > INT32_MAX) {
        fprintf(stderr, "usage: run FROM TO, two pens of 0 to %d\n", PENS - 1);
        exit(2);
    }
    return (int32_t)number;
}

int main(int argc, char **argv)
{
    int32_t from = pen(argc == 3 ? argv[1] : ""), to = pen(argc == 3 ? argv[2] : "");
    build();
    for (int i = 0; i < KNOWN; i++)
        note(known[i]);
    ask(from, to);
    return 0;
}
