/*
 * asking.h: questions to zuntjev_run, each with all that must hold of its answer, and what must be refused with 7.
 * For examples.c and random.c.
 */
#include "../host/yard.h"

#define REFUSED(number) NULL, -(number)

static long questions, runs_given, refused_7, refused_18;

/* The bytes that a buffer has before a question, others in each: never 0, nor a gate's number. */
static inline uint8_t pattern(size_t i)
{
    return (uint8_t)(129 + (7 * i + (size_t)questions) % 127);
}

/*
 * Asks with what is lent and the first `room` bytes of the buffer. Whether the answer is the one wanted (below 0:
 * minus the refusal's number), the gates wanted are at the buffer's start, and every other byte, of the log and the
 * cursor too, is as it was. The state's are compared by `state_kept`.
 */
static inline int answered(struct lent lent, size_t room, int32_t from, int32_t to, const int32_t *gates, int want)
{
    size_t written = want > 0 ? 2 * (size_t)want : 0;
    questions++;
    for (size_t i = 0; i < buffer_len; i++)
        buffer[i] = pattern(i);
    int32_t answer = zuntjev_run(lent.state, lent.state_len, records, lent.log_len, cursor, lent.cursor_len, from, to,
                                 buffer, room);
    runs_given += answer >= 0;
    refused_7 += answer == ZUNTJEV_REFUSED_BUFFER;
    refused_18 += answer == ZUNTJEV_REFUSED_NO_RUN;
    int good = answer == want;
    for (int i = 0; good && i < want; i++)
        good = zuntjev_gate_at(buffer, (size_t)i) == gates[i];
    const char *wrong = good ? NULL : "another answer";
    for (size_t i = good ? written : buffer_len; i < buffer_len; i++)
        if (buffer[i] != pattern(i))
            wrong = "the buffer's other bytes changed";
    if (!log_kept())
        wrong = "the log or the cursor changed";
    if (wrong == NULL)
        return 1;
    if (show_plan()) {
        printf("    from %d to %d: %s: answered %d", (int)from, (int)to, wrong, (int)answer);
        for (int32_t i = 0; i < answer && 2 * (size_t)i + 1 < buffer_len; i++)
            printf("%s %d", i == 0 ? ", gates" : "", (int)zuntjev_gate_at(buffer, (size_t)i));
        printf("; wanted %d", want);
        for (int i = 0; i < want; i++)
            printf("%s %d", i == 0 ? ", gates" : "", (int)gates[i]);
        printf("\n");
    }
    return 0;
}

static inline int asked(int32_t from, int32_t to, const int32_t *gates, int want)
{
    return answered(whole(), buffer_len, from, to, gates, want);
}

/* What must be refused with 7, also where a pen is unknown: damage of what is lent, or a buffer that is too short. */
enum short_buffer { BY_A_BYTE = DAMAGES, BY_AN_ENTRY, NO_BUFFER, REFUSED_WITH_7 };

static inline const char *name_of(int damage)
{
    static const char *const short_names[] = {"a buffer short by a byte", "a buffer short by an entry", "no buffer"};
    return damage < DAMAGES ? damage_names[damage] : short_names[damage - DAMAGES];
}

/* Whether the question is refused with 7; 1, too, where the plan has nothing to damage so. `i` says which record,
 * gate or pen. All is mended afterwards. */
static inline int refused(int damage, int i, int32_t from, int32_t to)
{
    struct lent lent = whole();
    size_t room = damage == BY_A_BYTE ? buffer_len - 1 : damage == BY_AN_ENTRY ? buffer_len - 2
        : damage == NO_BUFFER ? 0 : buffer_len;
    if (damage < DAMAGES && !damage_lent((enum damage)damage, i, &lent))
        return 1;
    int good = answered(lent, room, from, to, NULL, -7);
    mend();
    if (!good)
        printf("    what was lent: %s, %d\n", name_of(damage), i);
    return good;
}
