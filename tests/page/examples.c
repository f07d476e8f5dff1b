/*
 * examples.c: zuntjev_page, a line for each region, by examples that are written by hand: document 02's request 3,
 * sentence by sentence, and its readings in docs/DECISIONS.md. The last line is 'N passed, M failed'.
 */
#include "asking.h"

static void count(const char *what, size_t room, int good)
{
    passed += good;
    failed += !good;
    if (!good)
        printf("    in the example: %s, a buffer of %zu bytes\n", what, room);
}

/* The page of an example: with a buffer that just suffices, with longer ones and with ones that are too short.
 * Nothing but the page's bytes may change. */
static void page(const char *what, const char *text)
{
    static const size_t more[] = {0, 1, 38, 39, 100, LONGEST};
    size_t n = strlen(text), less[] = {n - 1, n - 2, n - 39, n / 2, 38, 1, 0};
    keep();
    for (size_t i = 0; i < sizeof more / sizeof more[0]; i++)
        count(what, n + more[i], answered(whole(), n + more[i], text, (int)n));
    for (size_t i = 0; n > 0 && i < sizeof less / sizeof less[0]; i++)
        count(what, less[i], answered(whole(), less[i], NULL, -19));
    check("the state after it", state_kept(), 1);
}

/* Two pens of 3 and 4 heads, in groups of 3 or 7 and of 4 or 7, and a gate. */
static void two_pens(void)
{
    yard(2), plan.heads[0] = 3, plan.heads[1] = 4, gate(0, 1, 4);
    sizes(0, SOME(3, 7), SOME(0)), sizes(1, SOME(4, 7), SOME(2));
    check("build", build(), 0);
    page("nothing is decided",
         "   0   1         3         3         7\n"
         "   1   1         4         4         7\n");
    check("the gate is open", notify(5, 1), ZUNTJEV_NOTED);
    page("the gate is open", "   0   2         7         4         7\n");
    check("undone", undo(), 0);
    page("undone",
         "   0   1         3         3         7\n"
         "   1   1         4         4         7\n");
    check("the gate is shut", notify(4, 0), 2);
    page("the gate is shut, and what follows is not notified",
         "   0   1         3         3         7\n"
         "   1   1         4         4         7\n");
    check("3 or less", notify(1, 1), ZUNTJEV_NOTED);
    page("pen 0's group has 3 heads",
         "   0   1         3         3         3\n"
         "   1   1         4         4         7\n");
    check("7 or more", notify(2, 0), ZUNTJEV_CONFLICT);
    page("a conflict stands",
         "   0   1         3         3         3\n"
         "   1   1         4         7         7\n");
    check("its list can be fetched after the page", last(), 2);
    check("its first literal", zuntjev_lit_at(buffer, 0), 4);
    check("its second literal", zuntjev_lit_at(buffer, 1), 2);
}

/* The dozen pens of README.md. */
static void dozen_pens(void)
{
    static const int32_t heads[] = {6, 4, 5, 3, 7, 2, 6, 4, 5, 5, 3, 6};
    static const int32_t ends[][2] = {{0, 1}, {1, 2}, {2, 3}, {4, 5}, {5, 6}, {6, 7}, {8, 9}, {9, 10}, {10, 11},
                                      {0, 4}, {1, 5}, {2, 6}, {3, 7}, {4, 8}, {5, 9}, {6, 10}, {7, 11}};
    static const int32_t picture[] = {1, 2, 5, 7, 9, 10, 13, 14, 17, 18, 20, 22, 24, 26, 28, 30, 33, 35, 37, 39, 40};
    yard(12);
    for (int v = 0; v < 12; v++)
        plan.heads[v] = heads[v];
    for (int32_t g = 0; g < 17; g++)
        gate(ends[g][0], ends[g][1], 2 * g);
    sizes(0, SOME(10, 18), SOME(34)), sizes(3, SOME(8, 16), SOME(36)), sizes(5, SOME(15, 22), SOME(38));
    sizes(11, SOME(9, 11, 13), SOME(40, 42));
    check("build", build(), 0);
    page("nothing is decided",
         "   0   1         6        10        18\n"
         "   1   1         4         0         -\n"
         "   2   1         5         0         -\n"
         "   3   1         3         8        16\n"
         "   4   1         7         0         -\n"
         "   5   1         2        15        22\n"
         "   6   1         6         0         -\n"
         "   7   1         4         0         -\n"
         "   8   1         5         0         -\n"
         "   9   1         5         0         -\n"
         "  10   1         3         0         -\n"
         "  11   1         6         9        13\n");
    for (size_t i = 0; i < sizeof picture / sizeof picture[0]; i++)
        notify(picture[i], 1);
    check("the last literal, analyzed", notify(42, 0), 0);
    page("the picture after the search",
         "   0   2        10        10        10\n"
         "   2   2         8         8         8\n"
         "   4   3        15        15        15\n"
         "   7   3        13        13        13\n"
         "   8   2        10         0         -\n");
    check("13 or more, undone", undo(), 0);
    page("11 heads or 13",
         "   0   2        10        10        10\n"
         "   2   2         8         8         8\n"
         "   4   3        15        15        15\n"
         "   7   3        13        11        13\n"
         "   8   2        10         0         -\n");
}

/* "0 bytes, accepted with any buffer" */
static void no_pens(void)
{
    static const size_t rooms[] = {0, 1, 38, 39, LONGEST};
    yard(0);
    check("build", build(), 0);
    keep();
    for (size_t i = 0; i < sizeof rooms / sizeof rooms[0]; i++)
        count("no pens", rooms[i], answered(whole(), rooms[i], "", 0));
    check("the state after it", state_kept(), 1);
    check("initialise", initialize(), 0);
    page("no pens, after an initialise", "");
}

/* "in order of its lowest pen": whatever the order of the gates and the way to a pen. */
static void order(void)
{
    yard(6), gate(5, 1, 0), gate(4, 2, 2), gate(3, 0, 4), gate(1, 3, 6);
    for (int v = 0; v < 6; v++)
        plan.heads[v] = 10 * (v + 1);
    check("build", build(), 0);
    notify(1, 1), notify(3, 1);
    page("0, 1 with 5, 2 with 4, 3",
         "   0   1        10         0         -\n"
         "   1   2        80         0         -\n"
         "   2   2        80         0         -\n"
         "   3   1        40         0         -\n");
    notify(5, 1);
    page("0 with 3",
         "   0   2        50         0         -\n"
         "   1   2        80         0         -\n"
         "   2   2        80         0         -\n");
    notify(7, 1);
    page("0 with 3, and by it with 1 and 5",
         "   0   4       130         0         -\n"
         "   2   2        80         0         -\n");
    undo(), undo();
    page("1 with 5, 2 with 4, undone",
         "   0   1        10         0         -\n"
         "   1   2        80         0         -\n"
         "   2   2        80         0         -\n"
         "   3   1        40         0         -\n");
    notify(6, 1), notify(5, 1);
    page("a shut gate joins nothing",
         "   0   2        50         0         -\n"
         "   1   2        80         0         -\n"
         "   2   2        80         0         -\n");
}

/* A gate from a pen to itself, parallel gates, literals that are shared. */
static void odd_gates(void)
{
    yard(1), plan.heads[0] = 0, gate(0, 0, 0);
    check("build", build(), 0);
    page("a gate from a pen to itself, undecided", "   0   1         0         0         -\n");
    notify(1, 1);
    page("open", "   0   1         0         0         -\n");
    undo(), notify(0, 1);
    page("shut", "   0   1         0         0         -\n");
    yard(2), gate(0, 1, 0), gate(1, 0, 2), gate(0, 1, 4);
    check("build", build(), 0);
    notify(0, 1), notify(5, 1);
    page("parallel gates: shut, undecided and open", "   0   2         2         0         -\n");
    notify(3, 1);
    page("two of them open", "   0   2         2         0         -\n");
    yard(4), gate(0, 1, 0), gate(2, 3, 0), gate(1, 2, 1);
    check("build", build(), 0);
    notify(1, 1);
    page("1 opens gates 0 and 1, and shuts gate 2",
         "   0   2         2         0         -\n"
         "   2   2         2         0         -\n");
    undo(), notify(0, 1);
    page("0 shuts gates 0 and 1, and opens gate 2",
         "   0   1         1         0         -\n"
         "   1   2         2         0         -\n"
         "   3   1         1         0         -\n");
    yard(2), sizes(0, SOME(1, 2), SOME(1)), gate(0, 1, 0);
    check("build", build(), 0);
    notify(1, 1);
    page("1 opens the gate and says 2 or more", "   0   2         2         2         2\n");
    undo(), notify(0, 1);
    page("0 shuts it and says 1 or less",
         "   0   1         1         1         1\n"
         "   1   1         1         0         -\n");
}

/* "greatest lower bound, least upper bound", over the pens of the region. */
static void bounds(void)
{
    yard(3), gate(0, 1, 0), gate(1, 2, 2);
    sizes(0, SOME(2, 5, 9), SOME(4, 6)), sizes(2, SOME(1, 3, 7, 8), SOME(8, 10, 12));
    check("build", build(), 0);
    page("a pen without a domain between two with one",
         "   0   1         1         2         9\n"
         "   1   1         1         0         -\n"
         "   2   1         1         1         8\n");
    notify(1, 1);
    page("0 and 1 together",
         "   0   2         2         2         9\n"
         "   2   1         1         1         8\n");
    notify(3, 1);
    page("all together", "   0   3         3         2         8\n");
    notify(8, 1);
    page("3 or more, of pen 2", "   0   3         3         3         8\n");
    notify(7, 1);
    page("5 or less, of pen 0", "   0   3         3         3         5\n");
    undo(), undo();
    page("both undone", "   0   3         3         2         8\n");
    notify(4, 1);
    page("5 or more, of pen 0", "   0   3         3         5         8\n");
    notify(6, 1);
    page("9 or more: over the least upper bound, which is pen 2's", "   0   3         3         9         8\n");
    notify(9, 1);
    page("1 or less, of pen 2", "   0   3         3         9         1\n");
    undo(), undo(), notify(11, 1);
    page("3 or less, of pen 2", "   0   3         3         5         3\n");
    notify(13, 1);
    page("7 or less says nothing new", "   0   3         3         5         3\n");
    yard(2), sizes(0, SOME(0), EMPTY), sizes(1, SOME(0, 1000000), SOME(0)), plan.heads[0] = plan.heads[1] = 0;
    check("build", build(), 0);
    page("bounds of 0, and no heads",
         "   0   1         0         0         0\n"
         "   1   1         0         0   1000000\n");
}

/* "Crossed bounds print as they are", of one pen and of two in a region. */
static void crossed(void)
{
    yard(2), plan.heads[0] = 4, sizes(0, SOME(2, 4, 6), SOME(0, 2)), gate(0, 1, 4);
    check("build", build(), 0);
    notify(2, 1);
    check("6 or more, 2 or less", notify(1, 0), ZUNTJEV_CONFLICT);
    page("crossed bounds of a pen",
         "   0   1         4         6         2\n"
         "   1   1         1         0         -\n");
    check("the conflict's list after the page", last(), 2);
    check("its lower literal", zuntjev_lit_at(buffer, 0), 2);
    check("its upper literal", zuntjev_lit_at(buffer, 1), 1);
    notify(5, 1);
    page("crossed bounds in a region", "   0   2         5         6         2\n");
    undo(), undo();
    page("undone",
         "   0   1         4         6         6\n"
         "   1   1         1         0         -\n");
    yard(1), sizes(0, SOME(2, 4, 6), SOME(0, 1));
    check("build", build(), 0);
    notify(1, 1);
    page("one literal for both bounds", "   0   1         1         6         2\n");
}

/* "An unlimited upper bound prints as `-`": exactly that, and no large one; and the widest figures. */
static void widest(void)
{
    yard(64);
    for (int v = 0; v < 64; v++)
        plan.heads[v] = 1000000;
    for (int32_t g = 0; g < 63; g++)
        gate(g + 1, g, 2 * g);
    check("build", build(), 0);
    for (int32_t g = 0; g < 63; g++)
        notify(2 * g + 1, 1);
    page("64 pens in one region", "   0  64  64000000         0         -\n");
    undo();
    page("63 and the last",
         "   0  63  63000000         0         -\n"
         "  63   1   1000000         0         -\n");
    sizes(63, SOME(1000000), EMPTY);
    check("build", build(), 0);
    for (int32_t g = 0; g < 63; g++)
        notify(2 * g + 1, 1);
    page("bounds of 1,000,000", "   0  64  64000000   1000000   1000000\n");
    undo();
    page("without the pen that has them",
         "   0  63  63000000         0         -\n"
         "  63   1   1000000   1000000   1000000\n");
}

/* 64 lines: pen v has 900,000 heads and 100 v more, and one more where v is odd. */
static void all_apart(void)
{
    static char text[LONGEST + 1];
    yard(64);
    for (int v = 0; v < 64; v++) {
        char *line = strcpy(text + 39 * v, "   0   1    900000         0         -\n");
        line[2] = v < 10 ? ' ' : (char)('0' + v / 10);
        line[3] = (char)('0' + v % 10);
        line[14] = (char)('0' + v / 10);
        line[15] = (char)('0' + v % 10);
        line[17] = v % 2 ? '1' : '0';
        plan.heads[v] = 900000 + 100 * v + v % 2;
    }
    check("build", build(), 0);
    page("64 regions", text);
    check("the longest page", (long)strlen(text), 2496);
}

/* What stands is read, not the table, nor what was handed on; an initialise notifies, up to its conflict. */
static void what_is_noted(void)
{
    yard(3), gate(0, 1, 0), gate(1, 2, 2), gate(0, 2, 4), sizes(2, SOME(1, 3), SOME(6));
    check("build", build(), 0);
    check("gate 0 is open", notify(1, 0), 0);
    check("gate 1 too: 5 and 6 follow", notify(3, 0), 2);
    page("they are not notified yet", "   0   3         3         1         3\n");
    check("6 notified", notify(6, 0), 0);
    page("now it is", "   0   3         3         3         3\n");
    table[0] = table[1] = table[3] = 0;
    page("whatever the table says", "   0   3         3         3         3\n");
    check("the reason of 5 after the page", reason(5), 2);
    check("build", build(), 0);
    table[0] = table[1] = 2;
    check("initialise hands on 5 and 6", initialize(), 2);
    page("gates opened by an initialise", "   0   3         3         1         3\n");
    /* two pens of 3 and 4 heads: 7 or more with the gate shut is a conflict, and what is behind it is not notified */
    yard(4), plan.heads[0] = 3, plan.heads[1] = 4, gate(0, 1, 4), gate(2, 3, 6);
    sizes(0, SOME(3, 7), SOME(0)), sizes(1, SOME(4, 7), SOME(2));
    check("build", build(), 0);
    table[0] = table[2] = 1, table[3] = 2;
    check("initialise ends in a conflict", initialize(), ZUNTJEV_CONFLICT);
    check("two literals stand", cursor[4], 2);
    page("0 and 4 stand, 7 does not",
         "   0   1         3         7         7\n"
         "   1   1         4         4         7\n"
         "   2   1         1         0         -\n"
         "   3   1         1         0         -\n");
}

/* "It works under every option": no option changes a page. */
static void options(void)
{
    for (int i = 0; i < 4; i++) {
        yard(3), gate(0, 1, 0), gate(0, 1, 2), gate(1, 2, 4), sizes(0, SOME(2, 3), SOME(6));
        plan.same_size = i % 2, plan.extra_walls = i / 2;
        check("build", build(), 0);
        notify(1, 1), notify(2, 1);
        page("a gate shut inside a region",
             "   0   2         2         2         3\n"
             "   2   1         1         0         -\n");
        notify(7, 1), notify(5, 1);
        page("3 heads, and 2 or less", "   0   3         3         2         2\n");
    }
}

/* 7 comes first, also where the page buffer is too short. */
static void seven(void)
{
    static const size_t rooms[] = {0, 1, 39, 77, 78, 79, 117, LONGEST};
    yard(3), gate(0, 1, 0), gate(1, 2, 2), sizes(2, SOME(1, 3), SOME(4));
    check("build", build(), 0);
    notify(1, 1), notify(4, 1);
    keep();
    for (int damage = 0; damage < DAMAGES; damage++)
        for (size_t i = 0; i < sizeof rooms / sizeof rooms[0]; i++)
            for (int which = 0; which < 4; which++)
                check(damage_names[damage], refused((enum damage)damage, which, rooms[i]) & state_kept(), 1);
    page("mended, it is answered",
         "   0   2         2         0         -\n"
         "   2   1         1         3         3\n");
    yard(0);
    check("build", build(), 0);
    keep();
    check("without pens, a short state", refused(SHORT_STATE, 0, 0) & state_kept(), 1);
    check("without pens, a short cursor", refused(SHORT_CURSOR, 0, 0) & state_kept(), 1);
    check("without pens, a wrong number standing", refused(STANDING_COUNT, 0, 39) & state_kept(), 1);
    check("without pens, a state of zeros", refused(ZEROS, 0, 0) & state_kept(), 1);
}

int main(void)
{
    two_pens();
    dozen_pens();
    no_pens();
    order();
    odd_gates();
    bounds();
    crossed();
    widest();
    all_apart();
    what_is_noted();
    options();
    seven();
    printf("examples: %ld questions: %ld pages given, 19 %ld times, 7 %ld times\n", questions, pages_given,
           refused_19, refused_7);
    printf("%d passed, %d failed\n", passed, failed);
    return failed != 0;
}
