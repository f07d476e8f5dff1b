/*
 * zuntjev.h: the yard divider over byte buffers, for a C or C++ host. docs/HOST.md explains a whole host,
 * docs/REFUSALS.md has an example of each refusal.
 *
 * A plan is a graph. Its vertices are pens, each with a weight (heads) and a domain, the sizes that its group may
 * have; its edges are gates between two pens. A group, or region, is the pens that are joined by open gates, and its
 * size is the sum of their heads.
 *
 * A literal says one thing: variable v, 0 to 4095, has literal 2v and its negation 2v + 1. An edge's literal says
 * that the gate is shut, its negation that it is open. A vertex with k sizes, k at least 1, has k - 1 size literals:
 * literal j (from 0 on) says that its group's size is at least size j + 1, its negation that it is at most size j. A
 * vertex with no sizes bounds nothing.
 *
 * THE BUFFERS are the host's, and each is a pointer and a length in bytes. A pointer is never null, also where the
 * length is 0. Buffers of one call must not overlap. No alignment is asked for. All integers are little-endian.
 *   state   what zuntjev_build makes and the calls change; keep it whole
 *   log     8 bytes a record: what is undone is read here. Its bytes up to the cursor are kept from call to call
 *   cursor  8 bytes, set to zeros by the host after a build: records used, 4 bytes; notifications standing, 4 bytes.
 *           A longer one is allowed
 *   table   a byte a variable, filled by the host: 0 unset; 1 true, 2 false, set at an earlier level of its search;
 *           3 true, 4 false, set at the current level
 *   list    2 bytes a literal: here a call puts the literals that follow ("handed on")
 *   buffer  2 bytes a literal: here a fetch puts a reason, and zuntjev_run the numbers of gates, 2 bytes each
 *   page    39 bytes a region: here zuntjev_page puts its text
 *
 * ANY BYTES may be lent: every function ends, with an answer. A call that is refused leaves all bytes as they were.
 * What is tested, in this order, the first that applies being the answer:
 *   zuntjev_build        1, 2, 3, 4, 5, 6, then 7 (a state that is too short): where -1 and -7 both apply, it is -1
 *   zuntjev_initialize   7, 8; then for each literal in turn 10 and, as it works, 13, 14
 *   zuntjev_propagate    7, 9, 10; then, where nothing is pending, 13, 14 as it works
 *   zuntjev_undo         7, 9, 11
 *   zuntjev_calc_reason  7, 9, 15, 16
 *   zuntjev_calc_last    7
 *   zuntjev_run          7, 18
 *   zuntjev_page         7, 19
 *   zuntjev_check        7, of the state alone
 * 7 is tested in each call, and only of what that call is lent: the lengths; that the state's counts are within their
 * limits, its options 0 or 1, and that it has the mark of a state that was built; that the log, the cursor and the
 * noted words belong together (the log's literals, noted afresh from the oldest on, give those words); that the whole
 * table has no code over 4; in zuntjev_initialize also that no variable of the plan is over 4095.
 *
 * NOT TESTED by the calls is the rest of the plan in a state: its weights, sizes, literals, ends and index. Nothing but
 * zuntjev_build writes them, so a state that is kept whole has them as they were built. zuntjev_check tests them all:
 * make it when a state comes from elsewhere (a file, another process) before the first call, and as often as you like.
 * On a state that it would refuse the other calls are safe all the same: they end, read and write within what they are
 * lent, and leave all bytes where they refuse; but what they answer then is about no plan. Nor tested, by any function,
 * are the recorded reasons, whether an initialise was consistent, and the list last left, but for its length: one that
 * is longer than a reason buffer must hold is refused, so that no fetch answers more literals than its buffer has
 * entries. Nor does 7 ask anything of a page buffer: its length is tested by 19, right after 7.
 *
 * MUST A NOTIFIED LITERAL BE SET IN THE TABLE? No call tests it, and what stands is read from the log, not from the
 * table. But set it, with code 3 or 4, before zuntjev_propagate: a proposal that the table says is false makes a
 * conflict only where some literal of its list is coded 3 or 4, and is refused with 14 elsewhere.
 *
 * THREADS. No function keeps anything, or reads anything, but what it is lent: calls on different buffers may run at
 * the same time, and so may fetches, zuntjev_run, zuntjev_page and zuntjev_check of one state. A call that changes a
 * state must have it for itself.
 *
 * STACK that a call needs, as measured on x86-64; nothing is taken from the heap: zuntjev_build about 140 KB,
 * zuntjev_initialize about 255 KB, zuntjev_propagate about 146 KB, zuntjev_undo about 44 KB, a fetch, zuntjev_run
 * and zuntjev_page about 44 KB each. Give a thread that makes calls 512 KB.
 *
 * THE STATE'S BYTES:
 *        0  the plan's words, 15241 of 4 bytes. Bytes 24 to 27 of them hold the mark 1, ZUNTJEV_LAYOUT_VERSION, in a
 *           state that was built, and 0 in memory that was never built, which every call refuses with 7
 *    60964  the edges' ends, 2 bytes for each of 128 edges
 *    61220  the noted words, 384 of 4 bytes
 *    62756  the length of the list last left, 4 bytes
 *    62760  initialized, 4 bytes: 0 or 1; any other number counts as 1
 *    62764  the list last left, 260 words of 4 bytes
 *    63804  4 bytes unused
 *    63808  the recorded reasons, 16 bytes for each of 4352 places
 *   133440  the end; a longer state is allowed, what follows stays as it is
 */
#ifndef ZUNTJEV_H
#define ZUNTJEV_H

#include <stddef.h>
#include <stdint.h>

#ifdef __cplusplus
extern "C" {
#endif

/* The version of this layout of state, log and cursor. It is raised when bytes that one version left would be read
 * otherwise by the next: a host that keeps them past its own life keeps this number beside them. */
#define ZUNTJEV_LAYOUT_VERSION 1

/* The limits of a plan. A weight and a size are 0 to ZUNTJEV_MAX_WEIGHT, a literal 0 to ZUNTJEV_MAX_LITERAL. */
#define ZUNTJEV_MAX_VERTICES 64
#define ZUNTJEV_MAX_EDGES 128
#define ZUNTJEV_MAX_SIZES 32
#define ZUNTJEV_MAX_WEIGHT 1000000
#define ZUNTJEV_MAX_LITERAL 8191

/* The lengths of the layout, in bytes: those of a state and a cursor, and what zuntjev_build reads for a vertex and
 * for an edge. */
#define ZUNTJEV_STATE_LEN 133440
#define ZUNTJEV_CURSOR_LEN 8
#define ZUNTJEV_VERTEX_LEN 268
#define ZUNTJEV_EDGE_LEN 12

/* A line of a page has so many bytes, its newline included. */
#define ZUNTJEV_LINE_LEN 39

/* Lengths in bytes that are enough for any plan: a byte for each of 4096 variables; both literals of each of 2112
 * variables; 128 + 2 * 64 + 4 literals of a reason; 2 * 2112 records; a line of a page for each of 64 vertices. */
#define ZUNTJEV_TABLE_LEN 4096
#define ZUNTJEV_LIST_LEN 8448
#define ZUNTJEV_REASON_LEN 520
#define ZUNTJEV_LOG_LEN 33792
#define ZUNTJEV_PAGE_LEN 2496

/* The least lengths in bytes for the plan at hand. `largest` is its largest variable (a plan with no variable: 0
 * bytes), `variables` how many different variables its literals have, `size_lits` how many size literals its vertices
 * with a domain have in sum. A page of the plan has a line for each region, and fits where there is one for each
 * vertex. */
#define ZUNTJEV_TABLE_LEN_FOR(largest) ((size_t)(largest) + 1)
#define ZUNTJEV_LIST_LEN_FOR(variables) ((size_t)4 * (size_t)(variables))
#define ZUNTJEV_REASON_LEN_FOR(vertices, edges) ((size_t)2 * ((size_t)(edges) + (size_t)2 * (size_t)(vertices) + 4))
#define ZUNTJEV_LOG_LEN_FOR(edges, size_lits) ((size_t)16 * ((size_t)(edges) + (size_t)(size_lits)))
#define ZUNTJEV_PAGE_LEN_FOR(vertices) ((size_t)ZUNTJEV_LINE_LEN * (size_t)(vertices))

/* Answers below 0. The first two are no refusals: a conflict, and a literal that was only noted. The others are minus
 * the refusal's number; 17, a malformed line of text, comes only from the program yard. 12 is not given any more: size
 * literals of a vertex that contradict each other are a conflict. */
#define ZUNTJEV_CONFLICT (-100)
#define ZUNTJEV_NOTED (-101)
#define ZUNTJEV_REFUSED_COUNT (-1)         /* too many vertices, edges or sizes, or a count of sizes below 0 */
#define ZUNTJEV_REFUSED_WEIGHT (-2)        /* a weight outside 0 to 1,000,000 */
#define ZUNTJEV_REFUSED_SIZE (-3)          /* a size outside 0 to 1,000,000, or sizes that do not rise strictly */
#define ZUNTJEV_REFUSED_SIZE_LITERALS (-4) /* k sizes, k at least 1, and other than k - 1 size literals */
#define ZUNTJEV_REFUSED_LITERAL (-5)       /* a literal outside 0 to 8191 */
#define ZUNTJEV_REFUSED_END (-6)           /* an end of an edge is no vertex */
#define ZUNTJEV_REFUSED_BUFFER (-7)        /* a buffer is too short, or what is in it cannot be: see above */
#define ZUNTJEV_REFUSED_INITIALIZED (-8)   /* initialised after one that was consistent */
#define ZUNTJEV_REFUSED_UNKNOWN (-9)       /* a literal whose variable the plan does not have */
#define ZUNTJEV_REFUSED_STANDS (-10)       /* the literal to be notified, or its negation, stands */
#define ZUNTJEV_REFUSED_NOT_NEWEST (-11)   /* the literal to be undone is not the newest that stands */
#define ZUNTJEV_REFUSED_SIZE_ZERO (-13)    /* the same-size option would propose from a fixed size of 0 */
#define ZUNTJEV_REFUSED_LEVEL (-14)        /* a proposal is false, and no literal of its list has code 3 or 4 */
#define ZUNTJEV_REFUSED_NO_REASON (-15)    /* no reason was recorded for the literal */
#define ZUNTJEV_REFUSED_PATH_GONE (-16)    /* the open gates that the reason goes by are not open any more */
#define ZUNTJEV_REFUSED_NO_RUN (-18)       /* every run between the two vertices has a shut gate, or one is unknown */
#define ZUNTJEV_REFUSED_SHORT_PAGE (-19)   /* the page buffer is under 39 bytes a region */

/* Whether an answer is a refusal: minus its number then. */
static inline int zuntjev_is_refused(int32_t answer)
{
    return answer < 0 && answer > ZUNTJEV_CONFLICT;
}

/* A signed number in 4 bytes, the lowest first. */
static inline void zuntjev_put_number(uint8_t *at, int32_t x)
{
    uint32_t bits = (uint32_t)x;
    at[0] = (uint8_t)(bits & 255);
    at[1] = (uint8_t)(bits >> 8 & 255);
    at[2] = (uint8_t)(bits >> 16 & 255);
    at[3] = (uint8_t)(bits >> 24 & 255);
}

/* A count as the builder reads it; one that does not fit is as good as any that is too large. */
static inline void zuntjev_put_count(uint8_t *at, size_t n)
{
    zuntjev_put_number(at, n > 2147483647u ? 2147483647 : (int32_t)n);
}

/*
 * Puts vertex v into the bytes that zuntjev_build reads, of which there must be ZUNTJEV_VERTEX_LEN * (v + 1) or more:
 * its weight, its sizes, and the literal of each size but the first. Of more than 32 sizes or literals the first 32
 * are put and the true count, which zuntjev_build refuses. A pointer may be null where its count is 0.
 */
static inline void zuntjev_put_vertex(uint8_t *vertices, size_t v, int32_t weight, const int32_t *sizes,
                                      size_t size_count, const int32_t *lits, size_t lit_count)
{
    uint8_t *at = vertices + ZUNTJEV_VERTEX_LEN * v;
    size_t i;
    zuntjev_put_number(at, weight);
    zuntjev_put_count(at + 4, size_count);
    zuntjev_put_count(at + 8, lit_count);
    for (i = 0; i < ZUNTJEV_MAX_SIZES; i++) {
        zuntjev_put_number(at + 12 + 4 * i, i < size_count ? sizes[i] : 0);
        zuntjev_put_number(at + 140 + 4 * i, i < lit_count ? lits[i] : 0);
    }
}

/* Puts edge g, between vertices u and v, into the bytes that zuntjev_build reads: ZUNTJEV_EDGE_LEN * (g + 1) or more.
 * */
static inline void zuntjev_put_edge(uint8_t *edges, size_t g, int32_t u, int32_t v, int32_t lit)
{
    uint8_t *at = edges + ZUNTJEV_EDGE_LEN * g;
    zuntjev_put_number(at, u);
    zuntjev_put_number(at + 4, v);
    zuntjev_put_number(at + 8, lit);
}

/* Literal number i, from 0 on, of a list or of a reason buffer. */
static inline int32_t zuntjev_lit_at(const uint8_t *list, size_t i)
{
    return (int32_t)list[2 * i] + 256 * (int32_t)list[2 * i + 1];
}

/* Gate number i, from 0 on, of the run that zuntjev_run put into a buffer. */
static inline int32_t zuntjev_gate_at(const uint8_t *buffer, size_t i)
{
    return (int32_t)buffer[2 * i] + 256 * (int32_t)buffer[2 * i + 1];
}

/*
 * Builds the state of a plan of n vertices and m edges. Its numbers are signed, 4 bytes each. Vertex v has 67 of
 * them, from byte 268 * v of vertices on: its weight, how many sizes it has, how many size literals, room for 32
 * sizes and for 32 literals. Edge g has three, from byte 12 * g of edges on: its two ends and its literal.
 * zuntjev_put_vertex and zuntjev_put_edge put them there. Bytes that are missing count as 0, and those past vertex 63
 * and edge 127 are not read. Each option is off at 0 and on at any other number: same_size, that neighbouring groups
 * have different sizes; extra_walls, that a shut gate may join pens of one group. The cursor is to be set to zeros by
 * the host. Answers 0, minus the number of the refusal (1 to 6), or -7 where none of these applies and the state is
 * shorter than the layout; a refused build leaves the state's bytes as they were.
 */
int32_t zuntjev_build(const uint8_t *vertices, size_t vertices_len, size_t n, const uint8_t *edges, size_t edges_len,
                      size_t m, int32_t same_size, int32_t extra_walls, uint8_t *state, size_t state_len);

/*
 * Notifies, in rising order, the plan's literals that are true in the table; stops at a conflict, else analyses once
 * more. Answers how many literals were handed on: they are at the start of the list, in the order in which they were
 * handed on, and marked in the table. Or ZUNTJEV_CONFLICT: the notified literals stand, what was handed on before it
 * stays marked in the table, and the list is as it was. Or minus the number of a refusal: 8 after one that was
 * consistent.
 */
int32_t zuntjev_initialize(uint8_t *state, size_t state_len, uint8_t *table, size_t table_len, uint8_t *list,
                           size_t list_len, uint8_t *log, size_t log_len, uint8_t *cursor, size_t cursor_len);

/*
 * Notifies a literal; with a pending number other than 0 it is only noted. Answers how many literals were handed on:
 * they are at the start of the list, rising, and marked in the table. Or ZUNTJEV_CONFLICT, ZUNTJEV_NOTED, or minus
 * the number of a refusal. A conflict leaves the literal standing, and a list that zuntjev_calc_last fetches. Where
 * size literals of a vertex contradict each other (size 2 or more, size 1 or less), that list has two entries: the
 * literal of the lower bound, then that of the upper bound, of the lowest such vertex. One literal may be both.
 */
int32_t zuntjev_propagate(uint8_t *state, size_t state_len, uint8_t *table, size_t table_len, uint8_t *list,
                          size_t list_len, uint8_t *log, size_t log_len, uint8_t *cursor, size_t cursor_len,
                          int32_t lit, int32_t num_pending_propagations);

/* Takes back the newest notification, which must be the literal's. Answers 0, or minus the number of a refusal. */
int32_t zuntjev_undo(uint8_t *state, size_t state_len, const uint8_t *log, size_t log_len, uint8_t *cursor,
                     size_t cursor_len, int32_t lit);

/* Fetches the reason of a literal. Answers how many literals are at the buffer's start, or minus the number of a
 * refusal. */
int32_t zuntjev_calc_reason(const uint8_t *state, size_t state_len, const uint8_t *log, size_t log_len,
                            const uint8_t *cursor, size_t cursor_len, int32_t lit, uint8_t *buffer,
                            size_t buffer_len);

/* Fetches the list last left: of a conflict straight after it. Answers as zuntjev_calc_reason does. */
int32_t zuntjev_calc_last(const uint8_t *state, size_t state_len, const uint8_t *log, size_t log_len,
                          const uint8_t *cursor, size_t cursor_len, uint8_t *buffer, size_t buffer_len);

/*
 * Which gates to open for a bull: the run of gates, open or undecided, that joins vertex `from` with vertex `to` and
 * has the fewest undecided ones; among equals the run with fewer gates, then the one whose edge numbers, compared from
 * `from` on, come first. Answers how many gates it has: their numbers are at the buffer's start, in order from `from`
 * on (zuntjev_gate_at). 0 for two equal vertices. Or minus the number of a refusal: 18 where every run between the two
 * has a shut gate, or one of them is no vertex of the plan. A gate is open or shut by the literals that stand, those
 * only noted included; the table is not asked. The buffer is as long as for a reason.
 */
int32_t zuntjev_run(const uint8_t *state, size_t state_len, const uint8_t *log, size_t log_len, const uint8_t *cursor,
                    size_t cursor_len, int32_t from, int32_t to, uint8_t *buffer, size_t buffer_len);

/*
 * A page for the shed wall: a line for each region, in order of its lowest vertex. A line has five numbers,
 * right-aligned with spaces, and a newline, 39 bytes in sum: the lowest vertex and how many vertices the region has,
 * 4 bytes wide each; its weight, the greatest lower bound and the least upper bound of its vertices, 10 bytes wide
 * each. An upper bound that is unlimited is printed as `-`. Answers how many bytes the page has: they are at the
 * buffer's start, with no 0 after them. 0 for a plan without vertices, whatever the buffer. Or minus the number of a
 * refusal: 19 where the buffer is under 39 bytes a region. A region is the vertices that are joined by open gates,
 * and the bounds are what is left of a vertex's domain, both by the literals that stand, those only noted included; a
 * vertex with no sizes has 0 and unlimited. Bounds that contradict each other are printed as they are. The table is
 * not asked.
 */
int32_t zuntjev_page(const uint8_t *state, size_t state_len, const uint8_t *log, size_t log_len,
                     const uint8_t *cursor, size_t cursor_len, uint8_t *page, size_t page_len);

/*
 * Whether the state's plan is one that zuntjev_build gives: all of its words and its edges' ends are tested, which no
 * other call does. Answers 0, or -7 where they are not, or where the state is shorter than its layout. It changes
 * nothing. 0 after zuntjev_build answered 0 and after any calls since, whether they were refused or not.
 */
int32_t zuntjev_check(const uint8_t *state, size_t state_len);

#ifdef __cplusplus
}
#endif

#endif
