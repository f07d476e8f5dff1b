/*
 * asking.h: questions to zuntjev_page, each with all that must hold of its answer. For examples.c and random.c.
 */
#include "../host/yard.h"

/* The longest page, and the bytes on either side of a page buffer, which no call is lent. */
enum { LONGEST = 39 * 64, AROUND = 256 };

static long questions, pages_given, refused_7, refused_19;

/* The bytes that a buffer and what is around it have before a question, others in each: never one that a page has. */
static inline uint8_t pattern(size_t i)
{
    return (uint8_t)(129 + (7 * i + (size_t)questions) % 127);
}

static inline void show_text(const char *what, const uint8_t *text, int32_t n)
{
    printf("    %s %d%s\n", what, (int)n, n > 0 ? ":" : "");
    for (int32_t i = 0; i < n && i < LONGEST; i++) {
        int line = text[i] == '\n' || i == n - 1;
        if (text[i] == ' ' || text[i] == '-' || (text[i] >= '0' && text[i] <= '9'))
            putchar(text[i]);
        else if (text[i] != '\n')
            printf("<%d>", text[i]);
        if (line)
            putchar('\n');
    }
}

/*
 * Asks with what is lent and a buffer of `room` bytes. Whether the answer is the one wanted (below 0: minus the
 * refusal's number), the text wanted is at the buffer's start, and every other byte, around the buffer and of the log
 * and the cursor too, is as it was. The state's are compared by `state_kept`.
 */
static inline int answered(struct lent lent, size_t room, const char *text, int want)
{
    static uint8_t area[AROUND + 4 * LONGEST + AROUND];
    uint8_t *page = area + AROUND;
    size_t all = AROUND + room + AROUND, written = want > 0 ? (size_t)want : 0;
    if (room > 4 * LONGEST) {
        fputs("a buffer that is too long for this test\n", stderr);
        exit(1);
    }
    questions++;
    for (size_t i = 0; i < all; i++)
        area[i] = pattern(i);
    int32_t answer = zuntjev_page(lent.state, lent.state_len, records, lent.log_len, cursor, lent.cursor_len, page,
                                  room);
    pages_given += answer >= 0;
    refused_7 += answer == ZUNTJEV_REFUSED_BUFFER;
    refused_19 += answer == ZUNTJEV_REFUSED_SHORT_PAGE;
    const char *wrong = NULL;
    if (answer != want || (want > 0 && memcmp(page, text, written) != 0))
        wrong = "another answer";
    for (size_t i = 0; wrong == NULL && i < all; i++)
        if ((i < AROUND || i >= AROUND + written) && area[i] != pattern(i))
            wrong = i < AROUND || i >= AROUND + room ? "bytes around the buffer changed" : "bytes past it changed";
    if (!log_kept())
        wrong = "the log or the cursor changed";
    if (wrong == NULL)
        return 1;
    if (show_plan()) {
        printf("    a buffer of %zu bytes: %s\n", room, wrong);
        show_text("wanted", (const uint8_t *)text, want);
        show_text("answered", page, answer);
    }
    return 0;
}

/* Whether the question is refused with 7 once what is lent is damaged, whatever the buffer's length; 1, too, where
 * the plan has nothing to damage so. `i` says which record, gate or pen. All is mended afterwards. */
static inline int refused(enum damage damage, int i, size_t room)
{
    struct lent lent = whole();
    if (!damage_lent(damage, i, &lent))
        return 1;
    int good = answered(lent, room, NULL, -7);
    mend();
    if (!good)
        printf("    what was lent: %s, %d\n", damage_names[damage], i);
    return good;
}
