/*
 * random.c: zuntjev_run, the run of gates between two pens, on random plans, small ones and a few large ones with few
 * ways. Every answer is compared with a plain search, which lists all runs and picks the best by the words of document
 * 02's request 1, one after the other. It reads a record of its own of the gates, made from the literals that were
 * notified and undone, and never the host's state.
 *   random PLANS SEED
 * The last line is 'N passed, M failed', one for each plan.
 */
#include "asking.h"
#include "../host/random.h"

enum gate_is { UNDECIDED, OPEN, SHUT };

static long by_undecided, by_length, by_numbers, longest;

struct run {
    int32_t gates[64];
    int length, undecided;
};

static enum gate_is gates_are[128];
static struct run found[10000];
static int found_count;

static void look_at_gates(void)
{
    for (int g = 0; g < plan.gates; g++) {
        gates_are[g] = UNDECIDED;
        for (int i = 0; i < standing_count; i++) {
            if (standing[i] == plan.lit[g])
                gates_are[g] = SHUT;
            if (standing[i] == (plan.lit[g] ^ 1))
                gates_are[g] = OPEN;
        }
    }
}

/* Lists every run from `at` to `to` that begins with `begun` and comes to no pen twice: `been` has a bit for each pen.
 * A run that comes to a pen twice is never the best: without what lies between it has fewer gates, and no more of them
 * undecided. */
static void list_runs(const struct run *begun, int at, int to, uint64_t been)
{
    if (at == to) {
        if (found_count == (int)(sizeof found / sizeof found[0])) {
            fputs("too many runs in a plan\n", stderr);
            exit(1);
        }
        found[found_count++] = *begun;
        return;
    }
    for (int g = 0; g < plan.gates; g++) {
        int u = plan.ends[g][0], v = plan.ends[g][1];
        if (gates_are[g] == SHUT || (u != at && v != at))
            continue;
        int next = u == at ? v : u;
        if (been >> next & 1)
            continue;
        struct run longer = *begun;
        longer.gates[longer.length++] = g;
        longer.undecided += gates_are[g] == UNDECIDED;
        list_runs(&longer, next, to, been | (uint64_t)1 << next);
    }
}

/* Keeps the runs of those found that have the least of the number that `of` gives; how many it drops. */
static int keep_least(int (*of)(const struct run *))
{
    int least = of(&found[0]), kept = 0, all = found_count;
    for (int i = 1; i < found_count; i++)
        if (of(&found[i]) < least)
            least = of(&found[i]);
    for (int i = 0; i < found_count; i++)
        if (of(&found[i]) == least)
            found[kept++] = found[i];
    found_count = kept;
    return all - kept;
}

static int undecided_of(const struct run *r)
{
    return r->undecided;
}

static int length_of(const struct run *r)
{
    return r->length;
}

static int place;

static int number_of(const struct run *r)
{
    return r->gates[place];
}

/* The best run, or none. Those with the fewest undecided gates; of these those with the fewest gates; of these those
 * whose first gate's number is lowest, then the second gate's, and so on. */
static const struct run *best_run(int from, int to)
{
    static const struct run none;
    found_count = 0;
    list_runs(&none, from, to, (uint64_t)1 << from);
    if (found_count == 0)
        return NULL;
    by_undecided += keep_least(undecided_of) > 0;
    by_length += keep_least(length_of) > 0;
    int dropped = 0;
    for (place = 0; place < found[0].length; place++)
        dropped += keep_least(number_of);
    by_numbers += dropped > 0;
    longest = found[0].length > longest ? found[0].length : longest;
    return &found[0];
}

/* Up to 64 pens and 128 gates, with so few ways that all can be listed: each pen but the first is joined to an earlier
 * one, mostly to the one before it, in random order of the gates; three gates more join any two pens, and the others
 * lead from a pen to itself. */
static void random_large_plan(void)
{
    int32_t order[128];
    yard(7 + below(58));
    int gates = plan.pens + 2 + below(128 - plan.pens - 1);
    for (int g = 0; g < gates; g++) {
        int other = below(g + 1);
        order[g] = order[other];
        order[other] = g;
    }
    plan.gates = gates;
    for (int i = 0; i < gates; i++) {
        int g = order[i], v = i + 1 < plan.pens ? i + 1 : below(plan.pens);
        int u = i + 1 >= plan.pens + 3 ? v : i + 1 >= plan.pens ? below(plan.pens) : below(12) == 0 ? below(v) : v - 1;
        int turned = below(2);
        plan.ends[g][turned] = u;
        plan.ends[g][1 - turned] = v;
        plan.lit[g] = 2 * g + below(2);
    }
}

static void random_plan(void)
{
    if (below(200) == 0) {
        random_large_plan();
        return;
    }
    yard(below(50) == 0 ? 0 : 1 + below(6));
    plan.same_size = below(8) == 0;
    plan.extra_walls = below(8) == 0;
    random_gates(plan.pens == 0 ? 0 : below(4) == 0 ? below(9) : 4 + below(5));
    if (below(4) == 0)
        for (int v = 0; v < plan.pens; v++)
            if (below(2) == 0)
                sizes(v, SOME(1 + below(3), 4 + below(3)), SOME(2 * below(10) + below(2)));
}

/* No pens of any plan, or of one with so few. */
static int32_t unknown_pen(void)
{
    static const int32_t far[] = {-1, -2, 64, 65, 127, 128, 255, 256, 257, 65535, 65536, 65537, 16777216, INT32_MAX,
                                  INT32_MIN, INT32_MIN + 1, -256, -65536};
    int i = below(4 + (int)(sizeof far / sizeof far[0]));
    return i < 4 ? plan.pens + i / 2 : far[i - 4];
}

static int32_t any_pen(void)
{
    return plan.pens > 0 && below(2) == 0 ? below(plan.pens) : unknown_pen();
}

static int asked_for_the_best(int from, int to)
{
    const struct run *best = best_run(from, to);
    return asked(from, to, best ? best->gates : NULL, best ? best->length : -18);
}

/* All pairs of pens, of a large plan some, then unknown pens, then what 7 is for. */
static int random_questions(void)
{
    int good = 1;
    look_at_gates();
    keep();
    for (int from = 0; plan.pens <= 6 && from < plan.pens; from++)
        for (int to = 0; to < plan.pens; to++)
            good &= asked_for_the_best(from, to);
    for (int i = 0; plan.pens > 6 && i < 40; i++)
        good &= asked_for_the_best(below(plan.pens), below(plan.pens));
    for (int i = 0; i < 4; i++) {
        int32_t unknown = i == 0 ? -1 : i == 1 ? plan.pens : unknown_pen();
        good &= asked(unknown, unknown, REFUSED(18));
        good &= asked(unknown, plan.pens > 0 ? below(plan.pens) : unknown_pen(), REFUSED(18));
        good &= asked(plan.pens > 0 ? below(plan.pens) : unknown_pen(), unknown, REFUSED(18));
    }
    for (int i = 0; i < 2; i++)
        good &= refused(below(REFUSED_WITH_7), below(1000), any_pen(), any_pen());
    good &= refused(DAMAGES + below(3), 0, unknown_pen(), any_pen());
    return good & state_kept();
}

static void random_plans(int many)
{
    for (int i = 0; i < many; i++) {
        random_plan();
        int good = built() && random_calls(below(plan.pens > 6 ? 100 : 12)) && random_questions();
        passed += good;
        failed += !good;
    }
}

int main(int argc, char **argv)
{
    if (argc != 3) {
        fputs("usage: random PLANS SEED\n", stderr);
        return 2;
    }
    int many = atoi(argv[1]);
    seed = strtoull(argv[2], NULL, 10);
    random_plans(many);
    printf("random plans: %d (SEED=%s), %ld questions: %ld runs given, 18 %ld times, 7 %ld times\n", many, argv[2],
           questions, runs_given, refused_18, refused_7);
    printf("other runs were passed over for more undecided gates %ld times, for more gates %ld, by numbers %ld\n",
           by_undecided, by_length, by_numbers);
    printf("the longest run has %ld gates\n", longest);
    /* the plans must not come to be such that a rule is never asked */
    check("each rule decides some answers",
          by_undecided > many / 10 && by_length > many / 10 && by_numbers > many / 10 && refused_18 > many, 1);
    printf("%d passed, %d failed\n", passed, failed);
    return failed != 0;
}
