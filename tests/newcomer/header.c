/*
 * header.c: what include/zuntjev.h says and no other test tries: its helpers' bytes, the least lengths for a plan, the
 * order of the tests, a literal that is notified and not set in the table, buffers of any alignment.
 */
#include "zuntjev.h"
#include <stdio.h>
#include <stdlib.h>
#include <string.h>

static int passed, failed;

static void check(const char *what, long got, long want)
{
    if (got == want) {
        passed++;
    } else {
        failed++;
        printf("%s: %ld, not %ld\n", what, got, want);
    }
}

/* Two pens of 3 and 4 heads, sizes 3 or 7 and 4 or 7 with literals 0 and 2, and a gate between them with literal 4:
 * two vertices, one edge, two size literals, three variables of which 2 is the largest. The lengths that just suffice,
 * from an odd address on. */
enum { TABLE = 3, LIST = 12, LOG = 48, REASON = 18 };
static uint8_t vertices[2 * 268], edges[12], state_bytes[133440 + 1], *state = state_bytes + 1;
static uint8_t table[TABLE], list[LIST], records[LOG + 1], *undo_log = records + 1, cursor[8], buffer[REASON];
static uint8_t page_bytes[2 * 39 + 2], *page = page_bytes + 1;

static int32_t build(void)
{
    static const int32_t first[] = {3, 7}, second[] = {4, 7}, lits[] = {0, 2};
    zuntjev_put_vertex(vertices, 0, 3, first, 2, lits, 1);
    zuntjev_put_vertex(vertices, 1, 4, second, 2, lits + 1, 1);
    zuntjev_put_edge(edges, 0, 0, 1, 4);
    memset(table, 0, sizeof table);
    memset(cursor, 0, sizeof cursor);
    return zuntjev_build(vertices, sizeof vertices, 2, edges, sizeof edges, 1, 0, 0, state, 133440);
}

static int32_t propagate_in(size_t table_len, size_t list_len, size_t log_len, int32_t lit, int32_t pending)
{
    return zuntjev_propagate(state, 133440, table, table_len, list, list_len, undo_log, log_len, cursor, 8, lit,
                             pending);
}

static int32_t propagate(int32_t lit, int32_t pending)
{
    return propagate_in(TABLE, LIST, LOG, lit, pending);
}

static int32_t reason_in(size_t buffer_len, int32_t lit)
{
    return zuntjev_calc_reason(state, 133440, undo_log, LOG, cursor, 8, lit, buffer, buffer_len);
}

static int32_t undo(int32_t lit)
{
    return zuntjev_undo(state, 133440, undo_log, LOG, cursor, 8, lit);
}

static int32_t run_in(size_t buffer_len, int32_t from, int32_t to)
{
    return zuntjev_run(state, 133440, undo_log, LOG, cursor, 8, from, to, buffer, buffer_len);
}

static int32_t page_in(size_t page_len)
{
    return zuntjev_page(state, 133440, undo_log, LOG, cursor, 8, page, page_len);
}

/* Number i of 4 bytes each, the lowest first, in two's complement. */
static long number_at(const uint8_t *bytes, int i)
{
    long x = bytes[4 * i] + 256L * bytes[4 * i + 1] + 65536L * bytes[4 * i + 2];
    return x + 16777216L * (bytes[4 * i + 3] < 128 ? bytes[4 * i + 3] : bytes[4 * i + 3] - 256L);
}

static void helpers(void)
{
    static const int32_t sizes[] = {10, 1000000}, lits[] = {8191};
    static uint8_t bytes[2 * 268 + 1], two[] = {1, 2, 255, 31};
    int others = 0;
    memset(bytes, 77, sizeof bytes);
    zuntjev_put_vertex(bytes, 1, -2, sizes, 2, lits, 1);
    check("the bytes before vertex 1", bytes[267], 77);
    check("its weight", number_at(bytes + 268, 0), -2);
    check("how many sizes", number_at(bytes + 268, 1), 2);
    check("how many literals", number_at(bytes + 268, 2), 1);
    check("size 0", number_at(bytes + 268, 3), 10);
    check("size 1", number_at(bytes + 268, 4), 1000000);
    check("literal 0", number_at(bytes + 268, 35), 8191);
    for (int i = 5; i < 67; i++)
        others += i != 35 && number_at(bytes + 268, i) != 0;
    check("the other numbers", others, 0);
    check("the byte after vertex 1", bytes[536], 77);
    zuntjev_put_vertex(bytes, 0, 5, NULL, 0, NULL, 0);
    check("no sizes", number_at(bytes, 1), 0);
    zuntjev_put_edge(bytes, 1, 3, 63, 8190);
    check("an end", number_at(bytes + 12, 0), 3);
    check("the other end", number_at(bytes + 12, 1), 63);
    check("the literal", number_at(bytes + 12, 2), 8190);
    check("literal 0 of a list", zuntjev_lit_at(two, 0), 513);
    check("literal 1 of a list", zuntjev_lit_at(two, 1), 8191);
    check("gate 0 of a run", zuntjev_gate_at(two, 0), 513);
    check("gate 1 of a run", zuntjev_gate_at(two, 1), 8191);
    check("0 is no refusal", zuntjev_is_refused(0), 0);
    check("3 is no refusal", zuntjev_is_refused(3), 0);
    check("-1 is one", zuntjev_is_refused(ZUNTJEV_REFUSED_COUNT), 1);
    check("-16 is one", zuntjev_is_refused(ZUNTJEV_REFUSED_PATH_GONE), 1);
    check("-18 is one", zuntjev_is_refused(ZUNTJEV_REFUSED_NO_RUN), 1);
    check("-19 is one", zuntjev_is_refused(ZUNTJEV_REFUSED_SHORT_PAGE), 1);
    check("a conflict is none", zuntjev_is_refused(ZUNTJEV_CONFLICT), 0);
    check("a noted literal is none", zuntjev_is_refused(ZUNTJEV_NOTED), 0);
}

/* 33 sizes are put as a count that is refused. */
static void too_many(void)
{
    int32_t sizes[33], lits[32];
    for (int i = 0; i < 33; i++)
        sizes[i] = i;
    for (int i = 0; i < 32; i++)
        lits[i] = 2 * i;
    zuntjev_put_vertex(vertices, 0, 1, sizes, 33, lits, 32);
    check("33 sizes", zuntjev_build(vertices, 268, 1, edges, 0, 0, 0, 0, state, 133440), -1);
    zuntjev_put_vertex(vertices, 0, 1, sizes, 32, lits, 31);
    check("32 sizes", zuntjev_build(vertices, 268, 1, edges, 0, 0, 0, 0, state, 133440), 0);
    zuntjev_put_vertex(vertices, 0, 1, sizes, 32, lits, 32);
    check("32 sizes, 32 literals", zuntjev_build(vertices, 268, 1, edges, 0, 0, 0, 0, state, 133440), -4);
}

static void lengths(void)
{
    check("table", (long)ZUNTJEV_TABLE_LEN_FOR(2), TABLE);
    check("list", (long)ZUNTJEV_LIST_LEN_FOR(3), LIST);
    check("log", (long)ZUNTJEV_LOG_LEN_FOR(1, 2), LOG);
    check("reason buffer", (long)ZUNTJEV_REASON_LEN_FOR(2, 1), REASON);
    check("the largest table", (long)ZUNTJEV_TABLE_LEN_FOR(4095), ZUNTJEV_TABLE_LEN);
    check("the largest list", (long)ZUNTJEV_LIST_LEN_FOR(128 + 64 * 31), ZUNTJEV_LIST_LEN);
    check("the largest log", (long)ZUNTJEV_LOG_LEN_FOR(128, 64 * 31), ZUNTJEV_LOG_LEN);
    check("the largest reason", (long)ZUNTJEV_REASON_LEN_FOR(64, 128), ZUNTJEV_REASON_LEN);
    check("page", (long)ZUNTJEV_PAGE_LEN_FOR(2), 78);
    check("the largest page", (long)ZUNTJEV_PAGE_LEN_FOR(64), ZUNTJEV_PAGE_LEN);
    check("a line of a page", ZUNTJEV_LINE_LEN, 39);
    check("build", build(), 0);
    memset(page_bytes, 77, sizeof page_bytes);
    check("a page in a buffer one byte short", page_in(77), -19);
    check("it is as it was", page[0] == 77 && page[76] == 77, 1);
    check("a page in one just long enough", page_in(78), 78);
    check("its text", memcmp(page, "   0   1         3         3         7\n"
                                   "   1   1         4         4         7\n", 78), 0);
    check("the bytes around it", page_bytes[0] == 77 && page_bytes[79] == 77, 1);
    check("a table one byte short", propagate_in(TABLE - 1, LIST, LOG, 5, 0), -7);
    check("a list one byte short", propagate_in(TABLE, LIST - 1, LOG, 5, 0), -7);
    check("a log one byte short", propagate_in(TABLE, LIST, LOG - 1, 5, 0), -7);
    check("a buffer one byte short", reason_in(REASON - 1, 0), -7);
    check("all just long enough", propagate(5, 0), 2);
    check("its first literal", zuntjev_lit_at(list, 0), 0);
    check("its second literal", zuntjev_lit_at(list, 1), 2);
    check("a buffer just long enough", reason_in(REASON, 2), 1);
    check("its literal", zuntjev_lit_at(buffer, 0), 5);
    check("a run in a buffer one byte short", run_in(REASON - 1, 0, 1), -7);
    check("a run in one just long enough", run_in(REASON, 0, 1), 1);
    check("its gate", zuntjev_gate_at(buffer, 0), 0);
    memset(page_bytes, 77, sizeof page_bytes);
    check("a page of one region, a byte short", page_in(38), -19);
    check("a page of one region", page_in(39), 39);
    check("its text", memcmp(page, "   0   2         7         4         7\n", 39), 0);
    check("no 0 after it", page[39], 77);
}

/* 7 comes before 9, 10, 11, 15, 18 and 19 where both apply; 9 before 10, 11 and 15. */
static void order(void)
{
    check("build", build(), 0);
    check("a short table and an unknown literal", propagate_in(TABLE - 1, LIST, LOG, 6, 0), -7);
    check("a short log and an undo of nothing", zuntjev_undo(state, 133440, undo_log, LOG - 1, cursor, 8, 0), -7);
    check("a short buffer and an unknown literal", reason_in(REASON - 1, 6), -7);
    check("a short buffer and an unknown pen", run_in(REASON - 1, 0, 2), -7);
    check("a run to an unknown pen", run_in(REASON, 0, 2), -18);
    check("no room for a page", page_in(0), -19);
    check("nor a whole log", zuntjev_page(state, 133440, undo_log, LOG - 1, cursor, 8, page, 0), -7);
    check("an undo of an unknown literal", undo(6), -9);
    check("the reason of an unknown literal", reason_in(REASON, 6), -9);
    check("an undo of nothing", undo(0), -11);
    check("no reason", reason_in(REASON, 0), -15);
    check("a literal of -1", propagate(-1, 0), -9);
    check("a pending number below 0 only notes", propagate(4, -1), ZUNTJEV_NOTED);
    check("a short table and a literal that stands", propagate_in(TABLE - 1, LIST, LOG, 4, 0), -7);
    check("a literal that stands", propagate(5, 0), -10);
}

/* A notified literal need not be set in the table, and the gate is what was notified, whatever the table says. */
static void not_set(void)
{
    check("build", build(), 0);
    check("5 with its variable unset", propagate(5, 0), 2);
    check("its entry stays unset", table[2], 0);
    check("undo", undo(5), 0);
    check("build", build(), 0);
    table[2] = 1;
    check("5 with 4 true in the table", propagate(5, 0), 2);
    check("its entry stays", table[2], 1);
}

int main(void)
{
    helpers();
    too_many();
    lengths();
    order();
    not_set();
    printf("%d passed, %d failed\n", passed, failed);
    return failed != 0;
}
