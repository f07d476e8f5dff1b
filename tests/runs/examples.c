/*
 * examples.c: zuntjev_run, the run of gates between two pens, by examples that are written by hand: document 02's
 * request 1, sentence by sentence, and its readings in docs/DECISIONS.md. The last line is 'N passed, M failed'.
 */
#include "asking.h"

/* One question of an example. */
static void run(const char *what, int32_t from, int32_t to, const int32_t *gates, int want)
{
    keep();
    int good = asked(from, to, gates, want) & state_kept();
    passed += good;
    failed += !good;
    if (!good)
        printf("    in the example: %s\n", what);
}

/* "the run of gates, open or undecided, that joins them with the fewest undecided ones" */
static void fewest_undecided(void)
{
    yard(4), gate(0, 3, 0), gate(0, 1, 2), gate(1, 2, 4), gate(2, 3, 6);
    check("build", build(), 0);
    run("all undecided: the one gate", 0, 3, SOME(0));
    notify(3, 1), notify(5, 1);
    run("one undecided gate each way: the shorter way", 0, 3, SOME(0));
    notify(7, 1);
    run("three open gates before one undecided", 0, 3, SOME(1, 2, 3));
    run("and back", 3, 0, SOME(3, 2, 1));
    undo();
    run("undone, the gate is undecided again", 0, 3, SOME(0));
    notify(6, 1);
    run("a shut gate is not passed", 0, 3, SOME(0));
    notify(0, 1);
    run("both ways have a shut gate", 0, 3, REFUSED(18));
    run("up to the shut gate all is open", 0, 2, SOME(1, 2));
    run("and from behind it nothing leads out", 3, 2, REFUSED(18));
}

/* "Among equals the run with fewer gates wins" */
static void fewer_gates(void)
{
    yard(3), gate(0, 1, 0), gate(1, 2, 2), gate(0, 2, 4);
    check("build", build(), 0);
    notify(1, 1);
    run("one undecided gate, with an open one before it or alone", 0, 2, SOME(2));
    notify(3, 1), notify(5, 1);
    run("all open", 0, 2, SOME(2));
    run("all open, and back", 2, 0, SOME(2));
}

/* "then the one whose gate numbers, compared from the first pen on, come first" */
static void lowest_numbers(void)
{
    yard(4), gate(0, 2, 0), gate(0, 1, 2), gate(1, 3, 4), gate(2, 3, 6);
    check("build", build(), 0);
    run("0 3 before 1 2", 0, 3, SOME(0, 3));
    run("from the other pen on 2 1 comes before 3 0", 3, 0, SOME(2, 1));
    yard(4), gate(0, 1, 0), gate(2, 3, 2), gate(1, 3, 4), gate(1, 2, 6), gate(0, 2, 8);
    check("build", build(), 0);
    run("the first number counts, whatever the second is", 0, 3, SOME(0, 2));
    run("and from the other pen on", 3, 0, SOME(1, 4));
    /* twelve gates, so that 9 and 10 are compared as numbers and not by their digits */
    yard(4);
    for (int32_t g = 0; g < 9; g++)
        gate(0, 0, 2 * g);
    gate(0, 1, 18), gate(0, 2, 20), gate(2, 3, 22), gate(1, 3, 24);
    check("build", build(), 0);
    run("9 before 10", 0, 3, SOME(9, 12));
}

/* "Two equal pens give an empty run" */
static void equal_pens(void)
{
    yard(2), gate(0, 0, 0), gate(0, 1, 2);
    check("build", build(), 0);
    run("pen 0 to itself, with a gate to itself", 0, 0, EMPTY);
    run("pen 1 to itself", 1, 1, EMPTY);
    notify(0, 1), notify(2, 1);
    run("with all gates shut", 0, 0, EMPTY);
    run("with all gates shut, pen 1", 1, 1, EMPTY);
    undo(), undo(), notify(1, 1), notify(3, 1);
    run("with all gates open", 0, 0, EMPTY);
    yard(1);
    check("build", build(), 0);
    run("a yard of one pen", 0, 0, EMPTY);
}

/* "18 when every run between the pens has a shut gate, or one pen is unknown" */
static void no_run(void)
{
    yard(3), gate(0, 1, 0);
    check("build", build(), 0);
    run("no gate leads to pen 2", 0, 2, REFUSED(18));
    run("nor from it", 2, 1, REFUSED(18));
    run("pen 3 of three pens", 0, 3, REFUSED(18));
    run("from pen 3", 3, 0, REFUSED(18));
    run("pen 3 to itself", 3, 3, REFUSED(18));
    run("pen -1", -1, 0, REFUSED(18));
    run("to pen -1", 0, -1, REFUSED(18));
    run("pen -1 to itself", -1, -1, REFUSED(18));
    run("pen 256 is not pen 0", 256, 1, REFUSED(18));
    run("pen 65537 is not pen 1", 0, 65537, REFUSED(18));
    run("the largest number", INT32_MAX, INT32_MAX, REFUSED(18));
    run("the least number", 0, INT32_MIN, REFUSED(18));
    notify(0, 1);
    run("the one gate is shut", 0, 1, REFUSED(18));
    yard(0);
    check("build", build(), 0);
    run("a yard without pens", 0, 0, REFUSED(18));
}

/* Gates are counted, and not variables. */
static void shared_literals(void)
{
    yard(3), gate(0, 1, 0), gate(1, 2, 0);
    check("build", build(), 0);
    run("two gates of one literal", 0, 2, SOME(0, 1));
    notify(1, 1);
    run("opened both", 0, 2, SOME(0, 1));
    undo(), notify(0, 1);
    run("shut both", 0, 2, REFUSED(18));
    yard(5), gate(0, 1, 0), gate(1, 2, 0), gate(0, 3, 2), gate(3, 4, 4), gate(4, 2, 6);
    check("build", build(), 0);
    notify(3, 1), notify(5, 1);
    run("two undecided gates of one literal are two", 0, 2, SOME(2, 3, 4));
    yard(3), gate(0, 1, 0), gate(1, 2, 1);
    check("build", build(), 0);
    run("literals that exclude each other", 0, 2, SOME(0, 1));
    notify(0, 1);
    run("0 shuts gate 0", 0, 1, REFUSED(18));
    run("and opens gate 1", 1, 2, SOME(1));
    yard(2), sizes(0, SOME(1, 2), SOME(0)), gate(0, 1, 0);
    check("build", build(), 0);
    notify(1, 1);
    run("a literal of a size and of a gate", 0, 1, SOME(0));
    undo(), notify(0, 1);
    run("and its negation", 0, 1, REFUSED(18));
}

/* Of parallel gates the open one, then the lower number. A gate from a pen to itself is in no best run. */
static void parallel_gates(void)
{
    yard(2), gate(0, 0, 0), gate(0, 1, 2), gate(1, 0, 4), gate(0, 1, 6);
    check("build", build(), 0);
    notify(1, 1);
    run("the lowest, the open gate to itself left out", 0, 1, SOME(1));
    notify(7, 1);
    run("the open one", 0, 1, SOME(3));
    notify(5, 1);
    run("the lower of two open ones", 1, 0, SOME(2));
    undo(), undo(), notify(2, 1);
    run("the lowest is shut", 0, 1, SOME(2));
    notify(5, 1);
    run("the lowest is shut and the next one open", 0, 1, SOME(2));
}

/* What stands is read, not the table, nor what was handed on. */
static void what_is_noted(void)
{
    yard(3), gate(0, 1, 0), gate(1, 2, 2), gate(0, 2, 4);
    check("build", build(), 0);
    notify(1, 0);
    check("3 hands on 5: gate 2 is to be open", notify(3, 0), 1);
    check("the literal handed on", zuntjev_lit_at(list, 0), 5);
    run("but it is not notified yet", 0, 2, SOME(0, 1));
    check("5 notified", notify(5, 0), 0);
    run("now it is", 0, 2, SOME(2));
    table[2] = 3;
    run("whatever the table says", 0, 2, SOME(2));
    /* initialise notifies what is true in the table */
    check("build", build(), 0);
    table[0] = 2, table[1] = 2;
    check("initialise hands on 5", initialize(), 1);
    run("gates opened by an initialise", 0, 2, SOME(0, 1));
}

/* "so conflicts and handed-on literals are untouched" */
static void read_only(void)
{
    yard(3), gate(0, 1, 0), gate(0, 1, 2), gate(1, 2, 4);
    check("build", build(), 0);
    check("1 hands on 3", notify(1, 0), 1);
    run("after what was handed on", 0, 2, SOME(0, 2));
    run("refused after it", 0, 7, REFUSED(18));
    check("the reason of 3", reason(3), 1);
    check("the literal of it", zuntjev_lit_at(buffer, 0), 1);
    check("2 is a conflict", notify(2, 0), ZUNTJEV_CONFLICT);
    run("after a conflict, which stands", 0, 2, SOME(0, 2));
    check("the conflict's list", last(), 2);
    check("its first literal", zuntjev_lit_at(buffer, 0), 1);
    check("its second literal", zuntjev_lit_at(buffer, 1), 2);
    check("undo", undo(), 0);
    run("after undoing it", 0, 1, SOME(0));
}

/* The longest run, in a yard of 64 pens and 128 gates: two rows of 63 gates each, a gate from pen 0 to itself, one
 * from pen 0 to pen 63. */
static void full_yard(void)
{
    int32_t first[63], second[63], back[63];
    yard(64);
    for (int32_t i = 0; i < 126; i++)
        gate(i % 63, i % 63 + 1, 2 * i);
    gate(0, 0, 252), gate(0, 63, 254);
    for (int32_t i = 0; i < 63; i++) {
        first[i] = i;
        second[i] = 63 + i;
        back[i] = 125 - i;
    }
    check("build", build(), 0);
    run("the gate from pen 0 to pen 63", 0, 63, SOME(127));
    run("pen 63 to itself", 63, 63, EMPTY);
    run("pen 64 of 64 pens", 0, 64, REFUSED(18));
    run("from pen 64", 64, 63, REFUSED(18));
    run("pen -1 of 64 pens", -1, 63, REFUSED(18));
    run("to pen -1", 63, -1, REFUSED(18));
    run("the largest number of 64 pens", INT32_MAX, 63, REFUSED(18));
    notify(254, 1);
    run("it is shut: the first row", 0, 63, first, 63);
    for (int32_t i = 63; i < 126; i++)
        notify(2 * i + 1, 1);
    run("the second row is open", 0, 63, second, 63);
    run("and back", 63, 0, back, 63);
    check("build", build(), 0);
    for (int32_t i = 63; i < 126; i++)
        notify(2 * i + 1, 1);
    run("63 open gates before one undecided", 0, 63, second, 63);
    undo();
    run("one undecided gate each way: the shorter way", 0, 63, SOME(127));
}

/* 7 comes first, also where a pen is unknown or the two are equal. */
static void seven(void)
{
    static const int32_t pens[][2] = {{0, 2}, {2, 2}, {0, 3}, {-1, 0}, {70000, 70000}, {1, 2}};
    yard(3), gate(0, 1, 0), gate(1, 2, 2);
    check("build", build(), 0);
    notify(1, 1), notify(2, 1);
    keep();
    for (int damage = 0; damage < REFUSED_WITH_7; damage++)
        for (size_t i = 0; i < sizeof pens / sizeof pens[0]; i++)
            for (int which = 0; which < 4; which++)
                check(name_of(damage), refused(damage, which, pens[i][0], pens[i][1]) & state_kept(), 1);
    run("mended, it is answered", 0, 1, SOME(0));
    run("mended, there is no run", 0, 2, REFUSED(18));
    /* a longer buffer is allowed, and what follows the run stays */
    free(buffer);
    buffer_len += 301;
    buffer = bytes(buffer_len);
    run("a longer buffer", 0, 1, SOME(0));
    yard(0);
    check("build", build(), 0);
    keep();
    check("without pens, a buffer short by a byte", refused(BY_A_BYTE, 0, 0, 0), 1);
    check("a buffer that just suffices then", (long)buffer_len, 8);
}

int main(void)
{
    fewest_undecided();
    fewer_gates();
    lowest_numbers();
    equal_pens();
    no_run();
    shared_literals();
    parallel_gates();
    what_is_noted();
    read_only();
    full_yard();
    seven();
    printf("examples: %ld questions: %ld runs given, 18 %ld times, 7 %ld times\n", questions, runs_given, refused_18,
           refused_7);
    printf("%d passed, %d failed\n", passed, failed);
    return failed != 0;
}
