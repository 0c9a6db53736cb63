/* An edit session from C. It opens a session on a read's SEQ, MM and ML, masks, drops and cuts, and prints the read after each step. Then a drop on a
 * tag without ML is refused and changes nothing. At the end it lists the remaining calls.
 *
 * The exit status is 1 if any answer is not the expected one. `tools/build archive` makes the library, and `examples/run c` compiles
 * this program with it and runs it. */
#include <stdio.h>
#include <string.h>

#include "aquiledru.h"

/* More than the longest tag of this example: a session's rows may be longer than their contents. */
#define ROOM 32

struct tagged_read {
    uint8_t seq[ROOM];
    uint8_t mm[ROOM];
    uint8_t ml[ROOM];
    size_t lengths[AQL_SESSION_LENGTHS];
};

static int unexpected = 0;

static void expect(const char *call, uint8_t answer, uint8_t wanted)
{
    printf("%s: %u\n", call, (unsigned)answer);
    if (answer != wanted) {
        printf("  but %u was expected\n", (unsigned)wanted);
        unexpected = 1;
    }
}

static void expect_same(const char *what, int same)
{
    if (!same) {
        printf("  %s is not as expected\n", what);
        unexpected = 1;
    }
}

/* Copies a text to the front of a row and returns its length. */
static size_t lay(uint8_t row[ROOM], const char *text)
{
    size_t n = strlen(text);
    memcpy(row, text, n);
    return n;
}

static void print_text(const char *name, const uint8_t *row, size_t n)
{
    printf("  %s %.*s\n", name, (int)n, (const char *)row);
}

static void print_read(const struct tagged_read *r)
{
    size_t i;
    print_text("SEQ", r->seq, r->lengths[AQL_SESSION_SEQ]);
    print_text("MM", r->mm, r->lengths[AQL_SESSION_MM]);
    printf("  ML");
    for (i = 0; i < r->lengths[AQL_SESSION_ML]; i++)
        printf(" %u", (unsigned)r->ml[i]);
    printf("\n");
}

/* The first arguments of every call of the session: the three rows, each with its room, then has_ml (1) and the lengths. */
#define ROWS(r) (r)->seq, ROOM, (r)->mm, ROOM, (r)->ml, ROOM, 1, (r)->lengths

static void mask_drop_and_cut(struct tagged_read *r)
{
    static const uint8_t values[] = { 200, 90, 30 };
    static const uint32_t low_quality[] = { 1 };
    static const uint32_t blacklisted[] = { 5 };
    size_t groups = 0, calls = 0;

    r->lengths[AQL_SESSION_SEQ] = lay(r->seq, "ACCGTCC");
    r->lengths[AQL_SESSION_MM] = lay(r->mm, "C+m?,0,1,0;");
    memcpy(r->ml, values, sizeof values);
    r->lengths[AQL_SESSION_ML] = sizeof values;

    expect("open", aql_session_open(ROWS(r), &groups, &calls), AQL_DONE);
    printf("  %u group, %u calls\n", (unsigned)groups, (unsigned)calls);
    expect_same("the number of calls", groups == 1 && calls == 3);
    print_read(r);

    /* The base at 1 becomes N: its call is removed, and the base counts in no later skip. */
    expect("mask 1", aql_session_mask(ROWS(r), low_quality, 1), AQL_DONE);
    print_read(r);

    /* The call at 5 is removed, but its base stays: the base still counts in the next skip. */
    expect("drop 5", aql_session_drop_calls(ROWS(r), blacklisted, 1), AQL_DONE);
    print_read(r);

    expect("cut 3 off the front", aql_session_cut(ROWS(r), 3, 0), AQL_DONE);
    print_read(r);

    expect("cut 3 off the front and 2 off the back", aql_session_cut(ROWS(r), 3, 2), AQL_NO_WINDOW);
    expect("cut nothing", aql_session_cut(ROWS(r), 0, 0), AQL_UNCHANGED);
    print_read(r);
}

/* With the mark '.' an unlisted C means unmodified, so no call can be dropped. This tag has no ML: has_ml is 0, and the row is empty. */
static void refused_drop(void)
{
    static const uint32_t places[] = { 1 };
    struct tagged_read r, before;

    memset(&r, 0, sizeof r);
    r.lengths[AQL_SESSION_SEQ] = lay(r.seq, "ACCGT");
    r.lengths[AQL_SESSION_MM] = lay(r.mm, "C+m.,0,0;");
    memcpy(&before, &r, sizeof r);

    expect("drop 1 under '.'", aql_session_drop_calls(r.seq, ROOM, r.mm, ROOM, NULL, 0, 0, r.lengths, places, 1), AQL_DROP_WITHOUT_MARK);
    expect_same("the refused session", memcmp(&before, &r, sizeof r) == 0);
    print_text("SEQ", r.seq, r.lengths[AQL_SESSION_SEQ]);
    print_text("MM", r.mm, r.lengths[AQL_SESSION_MM]);
}

static void list_calls(const struct tagged_read *r)
{
    uint32_t group[4], place[4], start[4];
    size_t groups = 0, calls = 0, i;

    expect("read the calls",
           aql_read_calls(r->seq, r->lengths[AQL_SESSION_SEQ], r->mm, r->lengths[AQL_SESSION_MM], r->ml, r->lengths[AQL_SESSION_ML], 1,
                          group, 4, place, 4, start, 4, &groups, &calls),
           AQL_DONE);
    expect_same("the list", calls == 1);
    for (i = 0; i < calls; i++)
        printf("  group %u, place %u, value %u\n", (unsigned)group[i], (unsigned)place[i], (unsigned)r->ml[start[i]]);
}

int main(void)
{
    struct tagged_read r;

    memset(&r, 0, sizeof r);
    mask_drop_and_cut(&r);
    refused_drop();
    list_calls(&r);
    return unexpected;
}
