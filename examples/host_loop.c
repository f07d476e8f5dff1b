/*
 * host_loop.c: a search over the C host, as a controller would run it. It lays the twelve pens of
 * examples/dozen_pens.txt into groups of permitted sizes, prints them, and checks them by itself. It learns a clause
 * from each conflict, and has no clauses of its own: that "13 or more" goes with "11 or more", of a pen with three
 * sizes, it learns too. docs/HOST.md explains it. To build it, after `./build-c target/c`:
 *
 *     cc -Itarget/c examples/host_loop.c target/c/libzuntjev.a -o target/c/host_loop
 */
#include "zuntjev.h"
#include <stdio.h>
#include <stdlib.h>

enum { PENS = 12, GATES = 17, SIZE_LITS = 5, VARIABLES = 22, CLAUSES = 64, LONGEST = GATES + 2 * PENS + 4 };

/* A pen's heads, how many sizes its group may have, the sizes, and for each but the first the literal that says "this
 * size or more". No sizes: any. */
static const struct { int32_t heads, count, sizes[3], lits[2]; } pens[PENS] = {
    {6, 2, {10, 18}, {34}}, {4, 0, {0}, {0}}, {5, 0, {0}, {0}}, {3, 2, {8, 16}, {36}},
    {7, 0, {0}, {0}}, {2, 2, {15, 22}, {38}}, {6, 0, {0}, {0}}, {4, 0, {0}, {0}},
    {5, 0, {0}, {0}}, {5, 0, {0}, {0}}, {3, 0, {0}, {0}}, {6, 3, {9, 11, 13}, {40, 42}}};

/* Gate g joins these two pens; literal 2g says that it is shut, 2g + 1 that it is open. */
static const int32_t gates[GATES][2] = {{0, 1}, {1, 2}, {2, 3}, {4, 5}, {5, 6}, {6, 7}, {8, 9}, {9, 10}, {10, 11},
                                        {0, 4}, {1, 5}, {2, 6}, {3, 7}, {4, 8}, {5, 9}, {6, 10}, {7, 11}};

/* What the host lends: buffers that just suffice for this plan. */
static uint8_t state[ZUNTJEV_STATE_LEN], cursor[ZUNTJEV_CURSOR_LEN];
static uint8_t table[ZUNTJEV_TABLE_LEN_FOR(VARIABLES - 1)], list[ZUNTJEV_LIST_LEN_FOR(VARIABLES)];
static uint8_t undo_log[ZUNTJEV_LOG_LEN_FOR(GATES, SIZE_LITS)], buffer[ZUNTJEV_REASON_LEN_FOR(PENS, GATES)];

/* The search: each variable's value (-1 unset) and level, the literals notified, and for each level where it began
 * and its decision. */
static int value[VARIABLES], level_of[VARIABLES], level;
static int32_t notified[VARIABLES], waiting[VARIABLES];
static int count, queued, begins[VARIABLES + 1];
static int32_t decision[VARIABLES + 1];

/* The newest clauses learned, as the lists that they come from: the literals of a list cannot hold together. */
static struct { int32_t n, lits[LONGEST]; } learned[CLAUSES];
static int conflicts;

static void stop(const char *call, int32_t answer)
{
    fprintf(stderr, "%s is refused with %d\n", call, (int)-answer);
    exit(1);
}

static void build(void)
{
    static uint8_t vertices[ZUNTJEV_VERTEX_LEN * PENS], edges[ZUNTJEV_EDGE_LEN * GATES];
    for (int v = 0; v < PENS; v++) {
        size_t k = (size_t)pens[v].count;
        zuntjev_put_vertex(vertices, (size_t)v, pens[v].heads, pens[v].sizes, k, pens[v].lits, k > 0 ? k - 1 : 0);
    }
    for (int g = 0; g < GATES; g++)
        zuntjev_put_edge(edges, (size_t)g, gates[g][0], gates[g][1], 2 * g);
    int32_t answer = zuntjev_build(vertices, sizeof vertices, PENS, edges, sizeof edges, GATES, 0, 0, state,
                                   sizeof state);
    if (answer < 0)
        stop("building", answer);
}

/* The table's codes: 0 unset, 1 true and 2 false at an earlier level, 3 true and 4 false at this one. */
static void fill_table(void)
{
    for (int v = 0; v < VARIABLES; v++)
        table[v] = value[v] < 0 ? 0 : (uint8_t)((level_of[v] == level ? 3 : 1) + !value[v]);
}

static void set(int32_t lit)
{
    value[lit / 2] = lit % 2 == 0;
    level_of[lit / 2] = level;
    waiting[queued++] = lit;
}

/* The literals that a call handed on are set, and wait to be notified. */
static void take_handed_on(int32_t n)
{
    for (int32_t i = 0; i < n; i++)
        set(zuntjev_lit_at(list, (size_t)i));
}

/* Notifies what waits; only the last is analyzed, the others are noted. Answers 0 for a conflict. */
static int notify_all(void)
{
    while (queued > 0) {
        int32_t lit = waiting[--queued];
        fill_table();
        int32_t answer = zuntjev_propagate(state, sizeof state, table, sizeof table, list, sizeof list, undo_log,
                                           sizeof undo_log, cursor, sizeof cursor, lit, queued);
        if (zuntjev_is_refused(answer))
            stop("notifying", answer);
        notified[count++] = lit;
        if (answer == ZUNTJEV_CONFLICT)
            return 0;
        if (answer != ZUNTJEV_NOTED)
            take_handed_on(answer);
    }
    return 1;
}

/* Takes this level's notifications back, the newest first, and unsets what the level set. */
static void undo_level(void)
{
    queued = 0;
    while (count > begins[level]) {
        int32_t answer = zuntjev_undo(state, sizeof state, undo_log, sizeof undo_log, cursor, sizeof cursor,
                                      notified[--count]);
        if (answer < 0)
            stop("undoing", answer);
    }
    for (int v = 0; v < VARIABLES; v++)
        if (level_of[v] == level)
            value[v] = -1;
    level--;
}

static void decide(int32_t lit)
{
    level++;
    begins[level] = count;
    decision[level] = lit;
    set(lit);
}

/* Learns from a conflict, straight after it. Once there is no room the oldest clause is given up. */
static void learn(void)
{
    int32_t n = zuntjev_calc_last(state, sizeof state, undo_log, sizeof undo_log, cursor, sizeof cursor, buffer,
                                  sizeof buffer);
    if (n < 0)
        stop("fetching", n);
    int c = conflicts++ % CLAUSES;
    learned[c].n = n;
    for (int32_t i = 0; i < n; i++)
        learned[c].lits[i] = zuntjev_lit_at(buffer, (size_t)i);
}

/* The one literal of a clause's list that is not true; -1 where all are true or several are not. */
static int32_t left_over(int c)
{
    int32_t left = -1;
    for (int32_t i = 0; i < learned[c].n; i++) {
        int32_t lit = learned[c].lits[i];
        if (value[lit / 2] == (lit % 2 == 0))
            continue;
        if (left >= 0 && left != lit)
            return -1;
        left = lit;
    }
    return left;
}

/* Sets what follows from the clauses: where all of a list is true but one literal, that one is false. Answers whether
 * something was set. */
static int follow_clauses(void)
{
    int before = queued;
    for (int c = 0; c < CLAUSES && c < conflicts; c++) {
        int32_t lit = left_over(c);
        if (lit >= 0 && value[lit / 2] < 0)
            set(lit ^ 1);
    }
    return queued > before;
}

/* After a conflict the newest decision that was the first of its two, an odd literal, is taken back for the other. Where
 * that one follows from the clause just learned it is no decision, and belongs to the level before. Answers 0 where no
 * such decision is left. */
static int turn_back(void)
{
    while (level > 0) {
        int32_t lit = decision[level];
        undo_level();
        if (lit % 2 == 1) {
            if (left_over((conflicts - 1) % CLAUSES) == lit)
                set(lit - 1);
            else
                decide(lit - 1);
            return 1;
        }
    }
    return 0;
}

static int first_unset(void)
{
    for (int v = 0; v < VARIABLES; v++)
        if (value[v] < 0)
            return v;
    return -1;
}

/* Sets every variable, or answers 0: there is no such division. */
static int search(void)
{
    for (int v = 0; v < VARIABLES; v++)
        value[v] = level_of[v] = -1;
    fill_table();
    int32_t answer = zuntjev_initialize(state, sizeof state, table, sizeof table, list, sizeof list, undo_log,
                                        sizeof undo_log, cursor, sizeof cursor);
    if (answer == ZUNTJEV_CONFLICT)
        return 0;
    if (answer < 0)
        stop("initialising", answer);
    take_handed_on(answer);
    for (;;) {
        if (!notify_all()) {
            learn();
            if (!turn_back())
                return 0;
            continue;
        }
        if (follow_clauses())
            continue;
        int v = first_unset();
        if (v < 0)
            return 1;
        decide(2 * v + 1);
    }
}

/* A valid division, tested with no help of the host: groups by open gates, shut gates only between groups, sizes
 * permitted, each size literal true exactly when its meaning is. */
static int print_and_check(void)
{
    int group[PENS], heads[PENS] = {0}, good = 1;
    for (int v = 0; v < PENS; v++)
        group[v] = v;
    for (int round = 0; round < PENS; round++)
        for (int g = 0; g < GATES; g++)
            if (!value[g]) {
                int a = group[gates[g][0]], b = group[gates[g][1]];
                group[gates[g][0]] = group[gates[g][1]] = a < b ? a : b;
            }
    for (int v = 0; v < PENS; v++)
        heads[group[v]] += pens[v].heads;
    for (int g = 0; g < GATES; g++)
        good &= !value[g] || group[gates[g][0]] != group[gates[g][1]];
    for (int v = 0; v < PENS; v++) {
        int permitted = pens[v].count == 0;
        for (int j = 0; j < pens[v].count; j++)
            permitted |= heads[group[v]] == pens[v].sizes[j];
        for (int j = 0; j + 1 < pens[v].count; j++)
            good &= value[pens[v].lits[j] / 2] == (heads[group[v]] >= pens[v].sizes[j + 1]);
        good &= permitted;
    }
    for (int a = 0; a < PENS; a++)
        if (group[a] == a) {
            printf("%d heads: pens", heads[a]);
            for (int v = 0; v < PENS; v++)
                if (group[v] == a)
                    printf(" %d", v);
            printf("\n");
        }
    puts(good ? "a valid division" : "NOT a valid division");
    return good;
}

/* The clause itself: one of these holds. */
static void print_last_clause(void)
{
    int c = (conflicts - 1) % CLAUSES;
    printf("learned last:");
    for (int32_t i = 0; i < learned[c].n; i++)
        printf("%s %d", i > 0 ? " or" : "", (int)(learned[c].lits[i] ^ 1));
    printf("\n");
}

int main(void)
{
    build();
    if (!search()) {
        puts("no valid division");
        return 1;
    }
    if (conflicts > 0)
        print_last_clause();
    return print_and_check() ? 0 : 1;
}
