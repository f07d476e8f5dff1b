/*
 * random.h: random gates of a plan, and random lists of calls on it. What stands is told from the calls alone, by
 * document 01's words. For tests/runs/random.c and tests/page/random.c, after yard.h.
 */
static uint64_t seed;
static int initialized; /* whether an initialise was consistent */
static long initializes, undos;

static inline int below(int n)
{
    seed = seed * 6364136223846793005u + 1442695040888963407u;
    return (int)(seed >> 33) % n;
}

/* Builds the plan that was drawn. */
static inline int built(void)
{
    int32_t answer = build();
    initialized = 0;
    if (answer != 0 && show_plan())
        printf("    building: %d\n", (int)answer);
    return answer == 0;
}

/* A literal that mostly has the variable `own`, else shares one of the first eight; some are negations. */
static inline int32_t random_plan_lit(int own)
{
    return 2 * (below(3) == 0 ? below(8) : own) + (below(4) == 0);
}

/* So many gates more, between any two pens. */
static inline void random_gates(int more)
{
    for (; more > 0; more--)
        gate(below(plan.pens), below(plan.pens), random_plan_lit(plan.gates));
}

/* A literal of a gate or of a size, of either sign; -1 where the plan has none at the place that was drawn. Few gates
 * of a large plan are shut, for the sake of long runs and large regions. */
static inline int32_t random_lit(void)
{
    int i = plan.pens > 0 ? below(plan.gates + plan.pens) : 0, v = i - plan.gates;
    if (i < plan.gates)
        return plan.lit[i] ^ (plan.pens > 6 ? below(32) != 0 : below(2));
    return plan.pens > 0 && plan.size_count[v] > 1 ? plan.size_lit[v][below(plan.size_count[v] - 1)] ^ below(2) : -1;
}

static inline int stands(int32_t lit)
{
    for (int i = 0; i < standing_count; i++)
        if (standing[i] / 2 == lit / 2)
            return 1;
    return 0;
}

/* Which variables the plan has. */
static inline void look_at_variables(uint8_t *has)
{
    memset(has, 0, ZUNTJEV_TABLE_LEN);
    for (int g = 0; g < plan.gates; g++)
        has[plan.lit[g] / 2] = 1;
    for (int v = 0; v < plan.pens; v++)
        for (int j = 0; j + 1 < plan.size_count[v]; j++)
            has[plan.size_lit[v][j] / 2] = 1;
}

/*
 * Initialises with some variables set in the table. What stands then are, besides, "in rising order, the plan's
 * literals true in the table on entry, up to and with the first, if any, whose own analysis is a conflict": to find
 * that one, each is notified on a copy of all that the host is lent. A literal that stands already is now and then
 * set too, which is refused.
 */
static inline int random_initialize(void)
{
    static uint8_t has[ZUNTJEV_TABLE_LEN], tried[ZUNTJEV_STATE_LEN], tried_table[ZUNTJEV_TABLE_LEN];
    uint8_t tried_cursor[ZUNTJEV_CURSOR_LEN], *tried_records = bytes(records_len);
    int32_t notified[4096], answer = 0;
    int count = 0, any = below(8) == 0, set = 1 + below(8);
    look_at_variables(has);
    memset(table, 0, sizeof table);
    for (int v = 0; v < ZUNTJEV_TABLE_LEN; v++)
        if (has[v] && below(set) == 0 && (any || !stands(2 * v)))
            table[v] = (uint8_t)(1 + below(4));
    memcpy(tried, state, sizeof tried);
    memcpy(tried_table, table, sizeof table);
    memcpy(tried_records, records, records_len);
    memcpy(tried_cursor, cursor, sizeof cursor);
    for (int32_t lit = 0; lit <= ZUNTJEV_MAX_LITERAL && answer >= 0; lit++) {
        int code = table[lit / 2]; /* 1 and 3 are true, 2 and 4 false */
        if (!has[lit / 2] || code == 0 || (code - 1) % 2 != lit % 2)
            continue;
        answer = zuntjev_propagate(tried, sizeof tried, tried_table, sizeof tried_table, list, sizeof list,
                                   tried_records, records_len, tried_cursor, sizeof tried_cursor, lit, 0);
        notified[count++] = lit;
    }
    free(tried_records);
    int32_t got = initialize();
    int good = initialized ? got == ZUNTJEV_REFUSED_INITIALIZED
        : answer < 0 ? got == answer /* a refusal, or a conflict */
        : count == 0 || got >= 0;
    for (int i = 0; i < count && !zuntjev_is_refused(got); i++)
        standing[standing_count++] = notified[i];
    initialized |= got >= 0;
    initializes += count > 0 && !zuntjev_is_refused(got);
    return good;
}

/* Notifies a literal, with what stands set at an earlier level. Most literals are only noted; the others are
 * analyzed, may be a conflict and stand all the same, or be refused. */
static inline int random_notify(int32_t lit)
{
    memset(table, 0, sizeof table);
    for (int i = 0; i < standing_count; i++)
        table[standing[i] / 2] = (uint8_t)(1 + standing[i] % 2);
    if (below(4) != 0)
        return notify(lit, below(2) == 0 ? 1 : -3) == ZUNTJEV_NOTED;
    notify(lit, 0);
    return 1;
}

/* Notifies, undoes and now and then initialises, as often as is said. The cursor must say how many literals stand. */
static inline int random_calls(int many)
{
    int good = 1;
    for (; many > 0; many--) {
        int32_t lit = random_lit();
        if (standing_count > 0 && below(4) == 0) {
            good &= undo() == 0;
            undos++;
        } else if (below(12) == 0) {
            good &= random_initialize();
        } else if (lit >= 0 && !stands(lit)) {
            good &= random_notify(lit);
        }
        good &= cursor[4] + 256 * cursor[5] == standing_count;
    }
    if (!good && show_plan())
        puts("    a literal was not noted, not undone or not initialised as it should");
    return good;
}
