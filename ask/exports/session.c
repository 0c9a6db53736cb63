/* The edit session and the transcript: lengths above every bound, rows that are NULL, cuts whose sum needs more than 32 bits. */
#include "exports.h"

/* A session on CAC, with its lengths. The rows are longer by one byte, which no step may look at. */
struct session {
    struct row *seq, *mm, *ml, *lengths;
};

static struct session session_of(size_t seq, size_t mm, size_t ml)
{
    struct session s;
    const size_t lengths[AQL_SESSION_LENGTHS] = {seq, mm, ml};
    s.seq = row_text("CACx");
    s.mm = row_text("C+m?,0,0;x");
    s.ml = row_text("abx");
    s.lengths = row_sizes(AQL_SESSION_LENGTHS, lengths);
    return s;
}

#define ROWS(s) U8((s).seq), U8((s).mm), U8((s).ml), some_yes(), as_size((s).lengths)
#define ROWS_NO_ML(s, page) U8((s).seq), U8((s).mm), U8(page), 0, as_size((s).lengths)

/* Every call of a session refuses these lengths with this number, except a cut of an empty SEQ. */
static void refuse_lengths(uint8_t number, size_t seq, size_t mm, size_t ml)
{
    struct session s;
    struct row *groups, *calls, *places;
    rows_begin(rows_turn());
    s = session_of(seq, mm, ml);
    groups = row_of(sizeof(size_t), 1);
    calls = row_of(sizeof(size_t), 1);
    places = row_u32(1, 0);
    REFUSES(number, aql_session_open(ROWS(s), as_size(groups), as_size(calls)));
    REFUSES(number, aql_session_mask(ROWS(s), U32(places)));
    REFUSES(number, aql_session_drop_calls(ROWS(s), U32(places)));
    /* A cut of a base from an empty SEQ is refused before the text is read. */
    REFUSES(seq == 0 ? AQL_NO_WINDOW : number, aql_session_cut(ROWS(s), 1, 0));
}

static void try_lengths(void)
{
    refuse_lengths(AQL_TOO_LONG, SIZE_MAX, 9, 2);
    refuse_lengths(AQL_TOO_LONG, 3, SIZE_MAX, 2);
    refuse_lengths(AQL_TOO_LONG, 3, 9, SIZE_MAX);
    refuse_lengths(AQL_TOO_LONG, AQL_MAX_SEQ + 1, 9, 2);
    refuse_lengths(AQL_LENGTHS_DISAGREE, 5, 9, 2);
    refuse_lengths(AQL_LENGTHS_DISAGREE, 3, 11, 2);
    refuse_lengths(AQL_LENGTHS_DISAGREE, 3, 9, 4);
    refuse_lengths(AQL_MM_NOT_CLOSED, 3, 10, 2);
    refuse_lengths(AQL_MM_NOT_CLOSED, 0, 0, 0);
    refuse_lengths(AQL_ML_LEFT_OVER, 3, 9, 3);
}

/* An empty session: its text lacks the final ';', and there is no base to cut. */
static void try_nothing(void)
{
    static const size_t nothing[AQL_SESSION_LENGTHS] = {0, 0, 0};
    struct session s;
    struct row *groups, *calls, *places;
    rows_begin(rows_turn());
    s.seq = row_of(1, 0);
    s.mm = row_of(1, 0);
    s.ml = row_of(1, 0);
    s.lengths = row_sizes(AQL_SESSION_LENGTHS, nothing);
    groups = row_of(sizeof(size_t), 1);
    calls = row_of(sizeof(size_t), 1);
    places = row_of(sizeof(uint32_t), 0);
    REFUSES(AQL_MM_NOT_CLOSED, aql_session_open(ROWS(s), as_size(groups), as_size(calls)));
    REFUSES(AQL_MM_NOT_CLOSED, aql_session_mask(ROWS(s), U32(places)));
    REFUSES(AQL_MM_NOT_CLOSED, aql_session_drop_calls(ROWS(s), U32(places)));
    REFUSES(AQL_NO_WINDOW, aql_session_cut(ROWS(s), 0, 1));
    REFUSES(AQL_UNCHANGED, aql_session_cut(ROWS(s), 0, 0));
}

static void try_open(void)
{
    struct session s, bare;
    struct row *none, *page, *groups, *calls;
    rows_begin(rows_turn());
    s = session_of(3, 9, 2);
    bare = session_of(3, 9, SIZE_MAX);
    none = row_of(1, 0);
    page = row_in_page(1);
    groups = row_of(sizeof(size_t), 1);
    calls = row_of(sizeof(size_t), 1);
    REFUSES(AQL_LENGTHS_DISAGREE, aql_session_open(U8(none), U8(s.mm), U8(s.ml), some_yes(), as_size(s.lengths), as_size(groups), as_size(calls)));
    REFUSES(AQL_LENGTHS_DISAGREE, aql_session_open(U8(s.seq), U8(none), U8(s.ml), some_yes(), as_size(s.lengths), as_size(groups), as_size(calls)));
    REFUSES(AQL_LENGTHS_DISAGREE, aql_session_open(U8(s.seq), U8(s.mm), U8(none), some_yes(), as_size(s.lengths), as_size(groups), as_size(calls)));
    ACCEPTS(aql_session_open(ROWS_NO_ML(bare, page), as_size(groups), as_size(calls)));
    expect("groups", said(groups, 0), 1);
    expect("calls", said(calls, 0), 2);
    KEPT("aql_session_open without ML");
    ACCEPTS(aql_session_open(ROWS(s), as_size(groups), as_size(calls)));
    expect("calls", said(calls, 0), 2);
    expect("groups", said(groups, 0), 1);
    KEPT("aql_session_open");
}

/* Checks what a step left, and that it changed nothing past the new lengths. */
static void left(const char *step, struct session s, const char *seq, const char *mm, const char *ml)
{
    expect_text(step, s.seq, said(s.lengths, AQL_SESSION_SEQ), seq);
    stepped_as(step, s.mm, s.ml, s.lengths, mm, ml);
}

static void try_steps(void)
{
    struct session s;
    struct row *places, *none;
    rows_begin(rows_turn());
    s = session_of(3, 9, 2);
    places = row_u32(2, UINT32_MAX);
    none = row_of(sizeof(uint32_t), 0);
    REFUSES(AQL_NO_WINDOW, aql_session_cut(ROWS(s), UINT32_MAX, UINT32_MAX));
    REFUSES(AQL_NO_WINDOW, aql_session_cut(ROWS(s), 1, UINT32_MAX));
    REFUSES(AQL_UNCHANGED, aql_session_cut(ROWS(s), 0, 0));
    ACCEPTS(aql_session_mask(ROWS(s), U32(none)));
    left("a mask of nothing", s, "CAC", "C+m?,0,0;", "ab");
    ACCEPTS(aql_session_drop_calls(ROWS(s), U32(places)));
    left("a drop past the end", s, "CAC", "C+m?,0,0;", "ab");
    as_u32(places)[0] = 0;
    ACCEPTS(aql_session_drop_calls(ROWS(s), U32(places)));
    left("a drop", s, "CAC", "C+m?,1;", "b");
    ACCEPTS(aql_session_mask(ROWS(s), U32(places)));
    left("a mask", s, "NAC", "C+m?,0;", "b");
    ACCEPTS(aql_session_cut(ROWS(s), 1, 1));
    left("a cut", s, "A", "C+m?;", "");
    ACCEPTS(aql_session_cut(ROWS(s), 1, 0));
    left("a cut of all", s, "", "C+m?;", "");
}

static void try_steps_without_ml(void)
{
    struct session s;
    struct row *page, *places;
    rows_begin(rows_turn());
    s = session_of(3, 9, SIZE_MAX);
    page = row_in_page(1);
    places = row_u32(1, 2);
    ACCEPTS(aql_session_drop_calls(ROWS_NO_ML(s, page), U32(places)));
    left("a drop without ML", s, "CAC", "C+m?,0;", NULL);
    ACCEPTS(aql_session_mask(ROWS_NO_ML(s, page), U32(places)));
    left("a mask without ML", s, "CAN", "C+m?,0;", NULL);
    ACCEPTS(aql_session_cut(ROWS_NO_ML(s, page), 0, 2));
    left("a cut without ML", s, "C", "C+m?,0;", NULL);
    expect("ML's length without ML", said(s.lengths, AQL_SESSION_ML), SIZE_MAX);
}

void try_session(void)
{
    try_lengths();
    try_nothing();
    try_open();
    try_steps();
    try_steps_without_ml();
}

/* The work rows may hold anything afterwards. The front of the output is filled, and the rest is unchanged. */
static void transcribed(struct row *input, const char *wanted)
{
    struct row *seq = row_of(1, 16000), *mm = row_of(1, 65536), *ml = row_of(1, 32768), *out = row_of(1, AQL_TRANSCRIPT_OUT);
    size_t n;
    rows_lend();
    n = aql_transcript(U8(input), as_u8(seq), as_u8(mm), as_u8(ml), as_u8(out));
    row_fill(seq, seq->n);
    row_fill(mm, mm->n);
    row_fill(ml, ml->n);
    expect_text("a transcript", out, n, wanted);
    KEPT("aql_transcript");
}

void try_transcript(void)
{
    transcribed(row_of(1, 0), "AN13\n");
    transcribed(row_text("SQACCGTCC\nMMC+m?,0,1,0;\nML200,90,30\nMK1\nDR5\nCU3,0\n"), "AN0\nAN0\nAN0\nAN0\nSQGTCC\nMMC+m?,1;\nML30\n");
}
