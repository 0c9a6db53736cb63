/* Reading and rewriting a tag: rows that are NULL, an ML row that the call may not look at, each output by itself one entry too short, starts and
 * places above every bound. */
#include "exports.h"

/* A tag on CAC with a call on each C, and its ML; and one without ML. */
struct tag {
    struct row *seq, *mm, *ml, *in_page, *none;
};

static struct tag tag(void)
{
    struct tag t;
    t.seq = row_text("CAC");
    t.mm = row_text("C+m?,0,0;");
    t.ml = row_bytes(2, 128);
    t.in_page = row_in_page(1);
    t.none = row_of(1, 0);
    return t;
}

static void try_check(struct tag t, struct row *groups, struct row *calls)
{
    REFUSES(AQL_MM_NOT_CLOSED, aql_check_tag(U8(t.none), U8(t.none), U8(t.none), some_yes(), as_size(groups), as_size(calls)));
    REFUSES(AQL_MM_NOT_CLOSED, aql_check_tag(U8(t.none), U8(t.none), U8(t.in_page), 0, as_size(groups), as_size(calls)));
    REFUSES(AQL_SKIP_TOO_FAR, aql_check_tag(U8(t.none), U8(t.mm), U8(t.in_page), 0, as_size(groups), as_size(calls)));
    REFUSES(AQL_ML_TOO_SHORT, aql_check_tag(U8(t.seq), U8(t.mm), U8(t.none), some_yes(), as_size(groups), as_size(calls)));
    ACCEPTS(aql_check_tag(U8(t.seq), U8(t.mm), U8(t.in_page), 0, as_size(groups), as_size(calls)));
    expect("groups", said(groups, 0), 1);
    expect("calls", said(calls, 0), 2);
    KEPT("aql_check_tag");
    ACCEPTS(aql_check_tag(U8(t.seq), U8(t.mm), U8(t.ml), some_yes(), as_size(groups), as_size(calls)));
    expect("calls", said(calls, 0), 2);
}

/* Columns of two entries, except column `which`, which has one. */
static uint8_t listed(struct tag t, struct row *ml, uint8_t has_ml, size_t which, struct row **columns, struct row *groups, struct row *calls)
{
    size_t i;
    for (i = 0; i < 3; i++)
        columns[i] = row_of(sizeof(uint32_t), 2 - (i == which));
    rows_lend();
    return aql_read_calls(U8(t.seq), U8(t.mm), U8(ml), has_ml, U32(columns[0]), U32(columns[1]), U32(columns[2]), as_size(groups), as_size(calls));
}

static void try_list(struct tag t, struct row *groups, struct row *calls)
{
    struct row *columns[3], *none = row_of(sizeof(uint32_t), 0);
    size_t i;
    for (i = 0; i < 3; i++) {
        expect("aql_read_calls with a column one short", listed(t, t.ml, some_yes(), i, columns, groups, calls), AQL_NO_ROOM);
        KEPT("aql_read_calls with a column one short");
    }
    REFUSES(AQL_NO_ROOM, aql_read_calls(U8(t.seq), U8(t.mm), U8(t.in_page), 0, U32(none), U32(none), U32(none), as_size(groups), as_size(calls)));
    REFUSES(AQL_MM_NOT_CLOSED,
            aql_read_calls(U8(t.none), U8(t.none), U8(t.none), some_yes(), U32(none), U32(none), U32(none), as_size(groups), as_size(calls)));
    expect("aql_read_calls", listed(t, t.ml, some_yes(), 3, columns, groups, calls), AQL_DONE);
    for (i = 0; i < 3; i++)
        expect("calls", row_fill(columns[i], said(calls, 0)), 2);
    expect("groups", said(groups, 0), 1);
    expect("the second call", as_u32(columns[0])[1] == 1 && as_u32(columns[1])[1] == 2 && as_u32(columns[2])[1] == 1, 1);
    KEPT("aql_read_calls");
    expect("aql_read_calls", listed(t, t.in_page, 0, 3, columns, groups, calls), AQL_DONE);
    for (i = 0; i < 3; i++)
        row_fill(columns[i], said(calls, 0));
    expect("groups", said(groups, 0), 1);
    expect("the second call without ML", as_u32(columns[1])[1] == 2 && as_u32(columns[2])[1] == 0, 1);
    KEPT("aql_read_calls without ML");
}

static void try_tally(struct tag t, struct row *above, struct row *below)
{
    REFUSES(AQL_MM_NOT_CLOSED, aql_tally(U8(t.none), U8(t.none), U8(t.none), as_size(above), as_size(below)));
    REFUSES(AQL_ML_TOO_SHORT, aql_tally(U8(t.seq), U8(t.mm), U8(t.none), as_size(above), as_size(below)));
    ACCEPTS(aql_tally(U8(t.seq), U8(t.mm), U8(t.ml), as_size(above), as_size(below)));
    expect("above", said(above, 0), 2);
    expect("below", said(below, 0), 0);
    KEPT("aql_tally");
}

void try_reading(void)
{
    struct tag t = tag();
    struct row *first = row_of(sizeof(size_t), 1), *second = row_of(sizeof(size_t), 1);
    try_check(t, first, second);
    try_list(t, first, second);
    try_tally(t, first, second);
}

/* ---- Rewriting */

static void try_mask(struct tag t, struct edited e, struct edited short_mm, struct edited short_ml)
{
    struct row *after = row_text("CAN");
    REFUSES(AQL_NO_ROOM, aql_drop_masked_modifications(U8(t.seq), U8(after), TAG(t), OUT(short_mm)));
    REFUSES(AQL_NO_ROOM, aql_drop_masked_modifications(U8(t.seq), U8(after), TAG(t), OUT(short_ml)));
    REFUSES(AQL_LENGTHS_DISAGREE, aql_drop_masked_modifications(U8(t.seq), U8(t.none), TAG(t), OUT(e)));
    REFUSES(AQL_MM_NOT_CLOSED, aql_drop_masked_modifications(U8(t.none), U8(t.none), U8(t.none), U8(t.none), some_yes(), U8(t.none), U8(t.none),
                                                             as_size(e.mm_len), as_size(e.ml_len)));
    ACCEPTS(aql_drop_masked_modifications(U8(t.seq), U8(after), NO_ML(t), U8(e.mm), U8(t.in_page), as_size(e.mm_len), as_size(e.ml_len)));
    edited_as("a mask without ML", e, "C+m?,0;", "");
    ACCEPTS(aql_drop_masked_modifications(U8(t.seq), U8(after), TAG(t), OUT(e)));
    edited_as("a mask", e, "C+m?,0;", "\x80");
}

static void try_drop(struct tag t, struct edited e, struct edited short_mm, struct edited short_ml)
{
    struct row *places = row_u32(3, UINT32_MAX), *none = row_of(sizeof(uint32_t), 0);
    as_u32(places)[1] = 2;
    REFUSES(AQL_NO_ROOM, aql_drop_modifications_at(U8(t.seq), U32(places), TAG(t), OUT(short_mm)));
    REFUSES(AQL_NO_ROOM, aql_drop_modifications_at(U8(t.seq), U32(places), TAG(t), OUT(short_ml)));
    REFUSES(AQL_NO_ROOM, aql_drop_modifications_at(U8(t.seq), U32(none), TAG(t), OUT(e)));
    REFUSES(AQL_MM_NOT_CLOSED, aql_drop_modifications_at(U8(t.none), U32(none), U8(t.none), U8(t.none), some_yes(), U8(t.none), U8(t.none),
                                                         as_size(e.mm_len), as_size(e.ml_len)));
    ACCEPTS(aql_drop_modifications_at(U8(t.seq), U32(places), NO_ML(t), U8(e.mm), U8(t.in_page), as_size(e.mm_len), as_size(e.ml_len)));
    edited_as("a drop without ML", e, "C+m?,0;", "");
    ACCEPTS(aql_drop_modifications_at(U8(t.seq), U32(places), TAG(t), OUT(e)));
    edited_as("a drop", e, "C+m?,0;", "\x80");
}

static void try_cut(struct tag t, struct edited e, struct edited short_mm, struct edited short_ml)
{
    struct row *after = row_text("AC");
    REFUSES(AQL_NO_ROOM, aql_trim_clipped_modifications(U8(t.seq), U8(after), some_yes(), 1, TAG(t), OUT(short_mm)));
    REFUSES(AQL_NO_ROOM, aql_trim_clipped_modifications(U8(t.seq), U8(after), some_yes(), 1, TAG(t), OUT(short_ml)));
    REFUSES(AQL_NO_WINDOW, aql_trim_clipped_modifications(U8(t.seq), U8(after), some_yes(), SIZE_MAX, TAG(t), OUT(e)));
    REFUSES(AQL_NO_WINDOW, aql_trim_clipped_modifications(U8(t.seq), U8(after), some_yes(), SIZE_MAX - 1, TAG(t), OUT(e)));
    REFUSES(AQL_NO_WINDOW, aql_trim_clipped_modifications(U8(t.seq), U8(after), 0, 1, TAG(t), OUT(e)));
    REFUSES(AQL_UNCHANGED, aql_trim_clipped_modifications(U8(t.seq), U8(t.seq), some_yes(), SIZE_MAX, U8(t.none), U8(t.in_page), 0, OUT(e)));
    REFUSES(AQL_UNCHANGED, aql_trim_clipped_modifications(U8(t.none), U8(t.none), 0, 0, U8(t.none), U8(t.none), some_yes(), OUT(e)));
    ACCEPTS(
        aql_trim_clipped_modifications(U8(t.seq), U8(after), some_yes(), 1, NO_ML(t), U8(e.mm), U8(t.in_page), as_size(e.mm_len), as_size(e.ml_len)));
    edited_as("a cut without ML", e, "C+m?,0;", "");
    ACCEPTS(aql_trim_clipped_modifications(U8(t.seq), U8(after), some_yes(), 1, TAG(t), OUT(e)));
    edited_as("a cut", e, "C+m?,0;", "\x80");
}

void try_rewriting(void)
{
    struct tag t = tag();
    struct edited e, short_mm, short_ml;
    edited_rooms(&e, &short_mm, &short_ml);
    try_mask(t, e, short_mm, short_ml);
    try_drop(t, e, short_mm, short_ml);
    try_cut(t, e, short_mm, short_ml);
}
