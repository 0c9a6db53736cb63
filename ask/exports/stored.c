/* Reads as a BAM record stores them: numbers of bases above every bound, rows that are NULL, each output by itself one entry too short, every pair of
 * bases, and as many bases as the domain allows. */
#include "exports.h"

/* ---- Turning and unpacking */

static void try_turn(void)
{
    struct row *none = row_of(1, 0), *three = row_text("\x12\x4f"), *out = row_of(1, 2), *one = row_of(1, 1), *n = row_of(sizeof(size_t), 1);
    REFUSES(AQL_TOO_LONG, aql_turn(U8(none), SIZE_MAX, U8(none), as_size(n)));
    REFUSES(AQL_TOO_LONG, aql_turn(U8(none), SIZE_MAX - 1, U8(none), as_size(n)));
    REFUSES(AQL_TOO_LONG, aql_turn(U8(three), AQL_MAX_SEQ + 1, U8(out), as_size(n)));
    REFUSES(AQL_LENGTHS_DISAGREE, aql_turn(U8(none), 1, U8(none), as_size(n)));
    REFUSES(AQL_LENGTHS_DISAGREE, aql_turn(U8(three), 0, U8(none), as_size(n)));
    REFUSES(AQL_LENGTHS_DISAGREE, aql_turn(U8(three), 2, U8(out), as_size(n)));
    REFUSES(AQL_LENGTHS_DISAGREE, aql_turn(U8(three), 5, U8(out), as_size(n)));
    REFUSES(AQL_NO_ROOM, aql_turn(U8(three), 3, U8(one), as_size(n)));
    REFUSES(AQL_NO_ROOM, aql_turn(U8(three), 4, U8(none), as_size(n)));
    ACCEPTS(aql_turn(U8(none), 0, U8(none), as_size(n)));
    expect("bytes of no base, turned", said(n, 0), 0);
    KEPT("aql_turn of no base");
    ACCEPTS(aql_turn(U8(three), 3, U8(out), as_size(n)));
    expect_text("three bases turned", out, said(n, 0), "\x24\x80");
    KEPT("aql_turn");
}

static void try_unpack(void)
{
    struct row *none = row_of(1, 0), *three = row_text("\x12\x4f"), *seq = row_of(1, 3), *two = row_of(1, 2), *n = row_of(sizeof(size_t), 1);
    REFUSES(AQL_TOO_LONG, aql_unpack(U8(none), SIZE_MAX, some_yes(), U8(none), as_size(n)));
    REFUSES(AQL_TOO_LONG, aql_unpack(U8(none), SIZE_MAX - 1, 0, U8(none), as_size(n)));
    REFUSES(AQL_TOO_LONG, aql_unpack(U8(three), AQL_MAX_SEQ + 1, 0, U8(seq), as_size(n)));
    REFUSES(AQL_LENGTHS_DISAGREE, aql_unpack(U8(none), 2, some_yes(), U8(none), as_size(n)));
    REFUSES(AQL_LENGTHS_DISAGREE, aql_unpack(U8(three), 2, 0, U8(seq), as_size(n)));
    REFUSES(AQL_LENGTHS_DISAGREE, aql_unpack(U8(three), 5, some_yes(), U8(seq), as_size(n)));
    REFUSES(AQL_NO_ROOM, aql_unpack(U8(three), 3, 0, U8(two), as_size(n)));
    REFUSES(AQL_NO_ROOM, aql_unpack(U8(three), 3, some_yes(), U8(two), as_size(n)));
    ACCEPTS(aql_unpack(U8(none), 0, some_yes(), U8(none), as_size(n)));
    expect("letters of no base", said(n, 0), 0);
    KEPT("aql_unpack of no base");
    ACCEPTS(aql_unpack(U8(three), 3, 0, U8(seq), as_size(n)));
    expect_text("a forward read", seq, said(n, 0), "ACG");
    KEPT("aql_unpack of a forward read");
    ACCEPTS(aql_unpack(U8(three), 3, some_yes(), U8(seq), as_size(n)));
    expect_text("a reverse read", seq, said(n, 0), "CGT");
    KEPT("aql_unpack of a reverse read");
}

/* The eight bits of a byte in reverse order: so a pair of bases turns. */
static unsigned bits_reversed(unsigned byte)
{
    unsigned bit, found = 0;
    for (bit = 0; bit < 8; bit++)
        found |= (byte >> bit & 1u) << (7 - bit);
    return found;
}

/* Turns one base or two, which must be this byte. */
static void turns_to(unsigned wanted, struct row *pair, size_t bases, struct row *out, struct row *n)
{
    ACCEPTS(aql_turn(U8(pair), bases, U8(out), as_size(n)));
    expect("bytes of a turned pair", row_fill(out, said(n, 0)), 1);
    expect("a pair of bases turned", as_u8(out)[0], wanted);
    KEPT("aql_turn of a pair");
}

/* Unpacks two bases, which must be these letters. */
static void unpacks_to(char first, char second, struct row *pair, uint8_t reverse, struct row *seq, struct row *n)
{
    ACCEPTS(aql_unpack(U8(pair), 2, reverse, U8(seq), as_size(n)));
    expect("letters of a pair", row_fill(seq, said(n, 0)), 2);
    expect("the first letter", as_u8(seq)[0], (uint8_t)first);
    expect("the second letter", as_u8(seq)[1], (uint8_t)second);
    KEPT("aql_unpack of a pair");
}

/* Every pair of bases. Each output has an entry more than the answer takes, which must stay as it was. */
static void try_pairs(void)
{
    static const char letters[] = "=ACMGRSVTWYHKDBN", complements[] = "=TGKCYSBAWRDMHVN";
    struct row *pair = row_bytes(1, 0), *out = row_of(1, 2), *seq = row_of(1, 3), *n = row_of(sizeof(size_t), 1);
    unsigned byte;
    for (byte = 0; byte < 256; byte++) {
        as_u8(pair)[0] = (uint8_t)byte;
        turns_to(bits_reversed(byte), pair, 2, out, n);
        turns_to((bits_reversed(byte) & 15u) << 4, pair, 1, out, n);
        unpacks_to(letters[byte >> 4], letters[byte & 15u], pair, 0, seq, n);
        unpacks_to(complements[byte & 15u], complements[byte >> 4], pair, some_yes(), seq, n);
    }
}

/* As many bases as the domain allows, and one fewer: the last byte then has a spare half. */
static void try_largest(void)
{
    struct row *packed = row_bytes(AQL_MAX_SEQ / 2, 0x2f), *out = row_of(1, AQL_MAX_SEQ / 2), *seq = row_of(1, AQL_MAX_SEQ);
    struct row *n = row_of(sizeof(size_t), 1), *spare = row_bytes(AQL_MAX_SEQ / 2 + 1, 0x2f);
    ACCEPTS(aql_turn(U8(packed), AQL_MAX_SEQ, U8(out), as_size(n)));
    expect("bytes turned", row_fill(out, said(n, 0)), AQL_MAX_SEQ / 2);
    expect("the first and the last byte", as_u8(out)[0] == 0xf4 && as_u8(out)[AQL_MAX_SEQ / 2 - 1] == 0xf4, 1);
    KEPT("aql_turn of 16,000 bases");
    ACCEPTS(aql_turn(U8(packed), AQL_MAX_SEQ - 1, U8(out), as_size(n)));
    expect("bytes turned", row_fill(out, said(n, 0)), AQL_MAX_SEQ / 2);
    expect("the first and the last byte", as_u8(out)[0] == 0x4f && as_u8(out)[AQL_MAX_SEQ / 2 - 1] == 0x40, 1);
    KEPT("aql_turn of 15,999 bases");
    ACCEPTS(aql_unpack(U8(packed), AQL_MAX_SEQ, some_yes(), U8(seq), as_size(n)));
    expect("bases", row_fill(seq, said(n, 0)), AQL_MAX_SEQ);
    expect("the first and the last base", as_u8(seq)[0] == 'N' && as_u8(seq)[AQL_MAX_SEQ - 1] == 'G', 1);
    KEPT("aql_unpack of 16,000 bases");
    REFUSES(AQL_TOO_LONG, aql_turn(U8(spare), AQL_MAX_SEQ + 1, U8(out), as_size(n)));
    REFUSES(AQL_LENGTHS_DISAGREE, aql_turn(U8(spare), AQL_MAX_SEQ, U8(out), as_size(n)));
}

/* ---- Reading */

/* A reverse read on CAC, stored as GTG with a spare half of f; a tag with a call on each C, and its ML; and one without ML. */
struct tag {
    struct row *packed, *mm, *ml, *in_page, *none;
};

static struct tag tag(void)
{
    struct tag t;
    t.packed = row_text("\x48\x4f");
    t.mm = row_text("C+m?,0,0;");
    t.ml = row_text("ab");
    t.in_page = row_in_page(1);
    t.none = row_of(1, 0);
    return t;
}

#define READ(t) U8((t).packed), 3, some_yes()
#define NOTHING(t) U8((t).none), 0, some_yes()

static void try_check(struct tag t, struct row *groups, struct row *calls)
{
    REFUSES(AQL_TOO_LONG, aql_stored_check_tag(U8(t.none), SIZE_MAX, 0, U8(t.none), U8(t.none), some_yes(), as_size(groups), as_size(calls)));
    REFUSES(AQL_LENGTHS_DISAGREE, aql_stored_check_tag(U8(t.none), 1, 0, U8(t.none), U8(t.none), some_yes(), as_size(groups), as_size(calls)));
    REFUSES(AQL_LENGTHS_DISAGREE, aql_stored_check_tag(U8(t.packed), 2, 0, U8(t.mm), U8(t.ml), some_yes(), as_size(groups), as_size(calls)));
    REFUSES(AQL_MM_NOT_CLOSED, aql_stored_check_tag(NOTHING(t), U8(t.none), U8(t.none), some_yes(), as_size(groups), as_size(calls)));
    REFUSES(AQL_SKIP_TOO_FAR, aql_stored_check_tag(NOTHING(t), U8(t.mm), U8(t.in_page), 0, as_size(groups), as_size(calls)));
    REFUSES(AQL_SKIP_TOO_FAR, aql_stored_check_tag(U8(t.packed), 3, 0, U8(t.mm), U8(t.ml), some_yes(), as_size(groups), as_size(calls)));
    REFUSES(AQL_ML_TOO_SHORT, aql_stored_check_tag(READ(t), U8(t.mm), U8(t.none), some_yes(), as_size(groups), as_size(calls)));
    ACCEPTS(aql_stored_check_tag(READ(t), U8(t.mm), U8(t.in_page), 0, as_size(groups), as_size(calls)));
    expect("groups", said(groups, 0), 1);
    expect("calls", said(calls, 0), 2);
    KEPT("aql_stored_check_tag");
    ACCEPTS(aql_stored_check_tag(READ(t), U8(t.mm), U8(t.ml), some_yes(), as_size(groups), as_size(calls)));
    expect("calls", said(calls, 0), 2);
}

/* Columns of two entries, except column `which`, which has one. */
static uint8_t listed(struct tag t, struct row *ml, uint8_t has_ml, size_t which, struct row **columns, struct row *groups, struct row *calls)
{
    size_t i;
    for (i = 0; i < 3; i++)
        columns[i] = row_of(sizeof(uint32_t), 2 - (i == which));
    rows_lend();
    return aql_stored_read_calls(READ(t), U8(t.mm), U8(ml), has_ml, U32(columns[0]), U32(columns[1]), U32(columns[2]), as_size(groups), as_size(calls));
}

static void try_list(struct tag t, struct row *groups, struct row *calls)
{
    struct row *columns[3], *none = row_of(sizeof(uint32_t), 0);
    size_t i;
    for (i = 0; i < 3; i++) {
        expect("aql_stored_read_calls with a column one short", listed(t, t.ml, some_yes(), i, columns, groups, calls), AQL_NO_ROOM);
        KEPT("aql_stored_read_calls with a column one short");
    }
    REFUSES(AQL_MM_NOT_CLOSED, aql_stored_read_calls(NOTHING(t), U8(t.none), U8(t.none), some_yes(), U32(none), U32(none), U32(none), as_size(groups),
                                                     as_size(calls)));
    REFUSES(AQL_TOO_LONG, aql_stored_read_calls(U8(t.none), SIZE_MAX, 0, U8(t.none), U8(t.none), some_yes(), U32(none), U32(none), U32(none),
                                                as_size(groups), as_size(calls)));
    expect("aql_stored_read_calls", listed(t, t.ml, some_yes(), 3, columns, groups, calls), AQL_DONE);
    for (i = 0; i < 3; i++)
        expect("calls", row_fill(columns[i], said(calls, 0)), 2);
    expect("groups", said(groups, 0), 1);
    expect("the first call", as_u32(columns[0])[0] == 1 && as_u32(columns[1])[0] == 2 && as_u32(columns[2])[0] == 0, 1);
    expect("the second call", as_u32(columns[0])[1] == 1 && as_u32(columns[1])[1] == 0 && as_u32(columns[2])[1] == 1, 1);
    KEPT("aql_stored_read_calls");
    expect("aql_stored_read_calls", listed(t, t.in_page, 0, 3, columns, groups, calls), AQL_DONE);
    for (i = 0; i < 3; i++)
        row_fill(columns[i], said(calls, 0));
    expect("groups", said(groups, 0), 1);
    expect("the second call without ML", as_u32(columns[1])[1] == 0 && as_u32(columns[2])[1] == 0, 1);
    KEPT("aql_stored_read_calls without ML");
}

static void try_tally(struct tag t, struct row *above, struct row *below)
{
    REFUSES(AQL_TOO_LONG, aql_stored_tally(U8(t.none), SIZE_MAX, 0, U8(t.none), U8(t.none), as_size(above), as_size(below)));
    REFUSES(AQL_TOO_LONG, aql_stored_tally(U8(t.packed), AQL_MAX_SEQ + 1, 0, U8(t.mm), U8(t.ml), as_size(above), as_size(below)));
    REFUSES(AQL_LENGTHS_DISAGREE, aql_stored_tally(U8(t.none), 1, 0, U8(t.mm), U8(t.ml), as_size(above), as_size(below)));
    REFUSES(AQL_LENGTHS_DISAGREE, aql_stored_tally(U8(t.packed), 2, 0, U8(t.mm), U8(t.ml), as_size(above), as_size(below)));
    REFUSES(AQL_MM_NOT_CLOSED, aql_stored_tally(NOTHING(t), U8(t.none), U8(t.none), as_size(above), as_size(below)));
    REFUSES(AQL_SKIP_TOO_FAR, aql_stored_tally(U8(t.packed), 3, 0, U8(t.mm), U8(t.ml), as_size(above), as_size(below)));
    REFUSES(AQL_ML_TOO_SHORT, aql_stored_tally(READ(t), U8(t.mm), U8(t.none), as_size(above), as_size(below)));
    as_u8(t.ml)[1] = 128;
    ACCEPTS(aql_stored_tally(READ(t), U8(t.mm), U8(t.ml), as_size(above), as_size(below)));
    expect("above", said(above, 0), 1);
    expect("below", said(below, 0), 1);
    KEPT("aql_stored_tally");
}

void try_stored_reading(void)
{
    struct tag t;
    struct row *first, *second;
    try_turn();
    try_unpack();
    try_pairs();
    rows_begin(rows_turn());
    try_largest();
    rows_begin(rows_turn());
    t = tag();
    first = row_of(sizeof(size_t), 1);
    second = row_of(sizeof(size_t), 1);
    try_check(t, first, second);
    try_list(t, first, second);
    try_tally(t, first, second);
}

/* ---- Rewriting */

#define BOTH(t, after) U8((t).packed), 3, U8(after), 3, some_yes()

static void try_mask(struct tag t, struct edited e, struct edited short_mm, struct edited short_ml)
{
    struct row *after = row_text("\xf8\x41");
    REFUSES(AQL_NO_ROOM, aql_stored_drop_masked_modifications(BOTH(t, after), TAG(t), OUT(short_mm)));
    REFUSES(AQL_NO_ROOM, aql_stored_drop_masked_modifications(BOTH(t, after), TAG(t), OUT(short_ml)));
    REFUSES(AQL_TOO_LONG, aql_stored_drop_masked_modifications(U8(t.packed), SIZE_MAX, U8(after), 3, 0, TAG(t), OUT(e)));
    REFUSES(AQL_TOO_LONG, aql_stored_drop_masked_modifications(U8(t.packed), 2, U8(after), SIZE_MAX, 0, TAG(t), OUT(e)));
    REFUSES(AQL_LENGTHS_DISAGREE, aql_stored_drop_masked_modifications(U8(t.packed), 3, U8(after), 4, 0, TAG(t), OUT(e)));
    REFUSES(AQL_LENGTHS_DISAGREE, aql_stored_drop_masked_modifications(U8(t.packed), 3, U8(t.none), 0, 0, TAG(t), OUT(e)));
    REFUSES(AQL_LENGTHS_DISAGREE, aql_stored_drop_masked_modifications(U8(t.none), 3, U8(after), 3, 0, TAG(t), OUT(e)));
    REFUSES(AQL_MM_NOT_CLOSED, aql_stored_drop_masked_modifications(U8(t.none), 0, U8(t.none), 0, some_yes(), U8(t.none), U8(t.none), some_yes(),
                                                                    U8(t.none), U8(t.none), as_size(e.mm_len), as_size(e.ml_len)));
    ACCEPTS(aql_stored_drop_masked_modifications(BOTH(t, after), NO_ML(t), U8(e.mm), U8(t.in_page), as_size(e.mm_len), as_size(e.ml_len)));
    edited_as("a mask without ML", e, "C+m?,0;", "");
    ACCEPTS(aql_stored_drop_masked_modifications(BOTH(t, after), TAG(t), OUT(e)));
    edited_as("a mask", e, "C+m?,0;", "a");
}

static void try_drop(struct tag t, struct edited e, struct edited short_mm, struct edited short_ml)
{
    struct row *places = row_u32(3, UINT32_MAX), *none = row_of(sizeof(uint32_t), 0);
    as_u32(places)[0] = 3;
    as_u32(places)[1] = 0;
    REFUSES(AQL_NO_ROOM, aql_stored_drop_modifications_at(READ(t), U32(places), TAG(t), OUT(short_mm)));
    REFUSES(AQL_NO_ROOM, aql_stored_drop_modifications_at(READ(t), U32(places), TAG(t), OUT(short_ml)));
    REFUSES(AQL_NO_ROOM, aql_stored_drop_modifications_at(READ(t), U32(none), TAG(t), OUT(e)));
    REFUSES(AQL_TOO_LONG, aql_stored_drop_modifications_at(U8(t.none), SIZE_MAX, 0, U32(places), TAG(t), OUT(e)));
    REFUSES(AQL_LENGTHS_DISAGREE, aql_stored_drop_modifications_at(U8(t.packed), 5, 0, U32(places), TAG(t), OUT(e)));
    REFUSES(AQL_MM_NOT_CLOSED, aql_stored_drop_modifications_at(NOTHING(t), U32(places), U8(t.none), U8(t.none), some_yes(), U8(t.none), U8(t.none),
                                                                as_size(e.mm_len), as_size(e.ml_len)));
    ACCEPTS(aql_stored_drop_modifications_at(READ(t), U32(places), NO_ML(t), U8(e.mm), U8(t.in_page), as_size(e.mm_len), as_size(e.ml_len)));
    edited_as("a drop without ML", e, "C+m?,0;", "");
    ACCEPTS(aql_stored_drop_modifications_at(READ(t), U32(places), TAG(t), OUT(e)));
    edited_as("a drop", e, "C+m?,0;", "a");
}

/* The last two bases of the stored read, so the first two in read orientation. */
#define WINDOW(t, after) U8((t).packed), 3, U8(after), 2, some_yes()

static void try_cut(struct tag t, struct edited e, struct edited short_mm, struct edited short_ml)
{
    struct row *after = row_text("\x84"), *same = row_text("\x48\x41");
    REFUSES(AQL_NO_ROOM, aql_stored_trim_clipped_modifications(WINDOW(t, after), some_yes(), 1, TAG(t), OUT(short_mm)));
    REFUSES(AQL_NO_ROOM, aql_stored_trim_clipped_modifications(WINDOW(t, after), some_yes(), 1, TAG(t), OUT(short_ml)));
    REFUSES(AQL_NO_WINDOW, aql_stored_trim_clipped_modifications(WINDOW(t, after), some_yes(), 0, TAG(t), OUT(e)));
    REFUSES(AQL_NO_WINDOW, aql_stored_trim_clipped_modifications(WINDOW(t, after), some_yes(), 2, TAG(t), OUT(e)));
    REFUSES(AQL_NO_WINDOW, aql_stored_trim_clipped_modifications(WINDOW(t, after), some_yes(), SIZE_MAX, TAG(t), OUT(e)));
    REFUSES(AQL_NO_WINDOW, aql_stored_trim_clipped_modifications(WINDOW(t, after), some_yes(), SIZE_MAX - 1, TAG(t), OUT(e)));
    REFUSES(AQL_NO_WINDOW, aql_stored_trim_clipped_modifications(WINDOW(t, after), 0, 1, TAG(t), OUT(e)));
    REFUSES(AQL_NO_WINDOW, aql_stored_trim_clipped_modifications(U8(after), 2, U8(t.packed), 3, some_yes(), some_yes(), 0, TAG(t), OUT(e)));
    REFUSES(AQL_TOO_LONG, aql_stored_trim_clipped_modifications(U8(t.packed), SIZE_MAX, U8(after), 2, 0, some_yes(), 1, TAG(t), OUT(e)));
    REFUSES(AQL_TOO_LONG, aql_stored_trim_clipped_modifications(U8(t.packed), 3, U8(after), SIZE_MAX, 0, some_yes(), 1, TAG(t), OUT(e)));
    REFUSES(AQL_LENGTHS_DISAGREE, aql_stored_trim_clipped_modifications(U8(t.packed), 2, U8(t.packed), 2, 0, some_yes(), 1, TAG(t), OUT(e)));
    REFUSES(AQL_LENGTHS_DISAGREE, aql_stored_trim_clipped_modifications(U8(t.packed), 3, U8(after), 3, 0, some_yes(), 1, TAG(t), OUT(e)));
    REFUSES(AQL_UNCHANGED,
            aql_stored_trim_clipped_modifications(BOTH(t, same), some_yes(), SIZE_MAX, U8(t.none), U8(t.in_page), 0, OUT(e)));
    REFUSES(AQL_UNCHANGED,
            aql_stored_trim_clipped_modifications(U8(t.none), 0, U8(t.none), 0, some_yes(), 0, 0, U8(t.none), U8(t.none), some_yes(), OUT(e)));
    ACCEPTS(aql_stored_trim_clipped_modifications(WINDOW(t, after), some_yes(), 1, NO_ML(t), U8(e.mm), U8(t.in_page), as_size(e.mm_len),
                                                  as_size(e.ml_len)));
    edited_as("a cut without ML", e, "C+m?,0;", "");
    ACCEPTS(aql_stored_trim_clipped_modifications(WINDOW(t, after), some_yes(), 1, TAG(t), OUT(e)));
    edited_as("a cut", e, "C+m?,0;", "a");
}

void try_stored_rewriting(void)
{
    struct tag t = tag();
    struct edited e, short_mm, short_ml;
    edited_rooms(&e, &short_mm, &short_ml);
    try_mask(t, e, short_mm, short_ml);
    try_drop(t, e, short_mm, short_ml);
    try_cut(t, e, short_mm, short_ml);
}

/* ---- The session */

/* A session on a reverse read CAC, stored as GTG with a spare half of f. At a step the packed row is longer by a byte, which no step may look at; an
 * opening takes no such row. */
struct session {
    struct row *packed, *mm, *ml, *lengths;
};

static struct session session_of(const char *packed, size_t bases, size_t mm, size_t ml)
{
    struct session s;
    const size_t lengths[AQL_SESSION_LENGTHS] = {bases, mm, ml};
    s.packed = row_text(packed);
    s.mm = row_text("C+m?,0,0;x");
    s.ml = row_text("abx");
    s.lengths = row_sizes(AQL_SESSION_LENGTHS, lengths);
    return s;
}

#define OPENED "\x48\x4f"
#define ROWS(s) U8((s).packed), some_yes(), U8((s).mm), U8((s).ml), some_yes(), as_size((s).lengths)
#define ROWS_NO_ML(s, page) U8((s).packed), some_yes(), U8((s).mm), U8(page), 0, as_size((s).lengths)

/* An opening and every step refuse these lengths with this number, except a cut of an empty SEQ. */
static void refuse_lengths(uint8_t number, const char *packed, size_t bases, size_t mm, size_t ml)
{
    struct session s;
    struct row *groups, *calls, *places;
    rows_begin(rows_turn());
    s = session_of(packed, bases, mm, ml);
    groups = row_of(sizeof(size_t), 1);
    calls = row_of(sizeof(size_t), 1);
    places = row_u32(1, 0);
    REFUSES(number, aql_stored_open(ROWS(s), as_size(groups), as_size(calls)));
    REFUSES(number, aql_stored_mask(ROWS(s), U32(places)));
    REFUSES(number, aql_stored_drop_calls(ROWS(s), U32(places)));
    REFUSES(bases == 0 ? AQL_NO_WINDOW : number, aql_stored_cut(ROWS(s), 1, 0));
}

static void try_lengths(void)
{
    refuse_lengths(AQL_TOO_LONG, OPENED, SIZE_MAX, 9, 2);
    refuse_lengths(AQL_TOO_LONG, OPENED, SIZE_MAX - 1, 9, 2);
    refuse_lengths(AQL_TOO_LONG, OPENED, 3, SIZE_MAX, 2);
    refuse_lengths(AQL_TOO_LONG, OPENED, 3, 9, SIZE_MAX);
    refuse_lengths(AQL_TOO_LONG, OPENED, AQL_MAX_SEQ + 1, 9, 2);
    refuse_lengths(AQL_LENGTHS_DISAGREE, OPENED, 5, 9, 2);
    refuse_lengths(AQL_LENGTHS_DISAGREE, OPENED, AQL_MAX_SEQ, 9, 2);
    refuse_lengths(AQL_LENGTHS_DISAGREE, "", 1, 9, 2);
    refuse_lengths(AQL_LENGTHS_DISAGREE, OPENED, 3, 11, 2);
    refuse_lengths(AQL_LENGTHS_DISAGREE, OPENED, 3, 9, 4);
    refuse_lengths(AQL_MM_NOT_CLOSED, OPENED, 3, 10, 2);
    refuse_lengths(AQL_MM_NOT_CLOSED, "", 0, 0, 0);
    refuse_lengths(AQL_ML_LEFT_OVER, OPENED, 3, 9, 3);
}

static void try_open(void)
{
    struct session s, bare, longer;
    struct row *none, *page, *groups, *calls;
    rows_begin(rows_turn());
    s = session_of(OPENED, 3, 9, 2);
    bare = session_of(OPENED, 3, 9, SIZE_MAX);
    longer = session_of(OPENED "x", 3, 9, 2);
    none = row_of(1, 0);
    page = row_in_page(1);
    groups = row_of(sizeof(size_t), 1);
    calls = row_of(sizeof(size_t), 1);
    REFUSES(AQL_LENGTHS_DISAGREE, aql_stored_open(ROWS(longer), as_size(groups), as_size(calls)));
    REFUSES(AQL_LENGTHS_DISAGREE,
            aql_stored_open(U8(none), 0, U8(s.mm), U8(s.ml), some_yes(), as_size(s.lengths), as_size(groups), as_size(calls)));
    REFUSES(AQL_LENGTHS_DISAGREE,
            aql_stored_open(U8(s.packed), 0, U8(none), U8(s.ml), some_yes(), as_size(s.lengths), as_size(groups), as_size(calls)));
    REFUSES(AQL_LENGTHS_DISAGREE,
            aql_stored_open(U8(s.packed), 0, U8(s.mm), U8(none), some_yes(), as_size(s.lengths), as_size(groups), as_size(calls)));
    ACCEPTS(aql_stored_open(ROWS_NO_ML(bare, page), as_size(groups), as_size(calls)));
    expect("groups", said(groups, 0), 1);
    expect("calls", said(calls, 0), 2);
    KEPT("aql_stored_open without ML");
    ACCEPTS(aql_stored_open(ROWS(s), as_size(groups), as_size(calls)));
    expect("calls", said(calls, 0), 2);
    expect("groups", said(groups, 0), 1);
    KEPT("aql_stored_open");
}

/* Checks what a step left, and that it changed nothing past the new lengths. */
static void left(const char *step, struct session s, size_t bases, const char *packed, const char *mm, const char *ml)
{
    expect(step, said(s.lengths, AQL_SESSION_SEQ), bases);
    expect_text(step, s.packed, bases / 2 + bases % 2, packed);
    stepped_as(step, s.mm, s.ml, s.lengths, mm, ml);
}

static void try_steps(void)
{
    struct session s;
    struct row *places, *none;
    rows_begin(rows_turn());
    s = session_of(OPENED "x", 3, 9, 2);
    places = row_u32(2, UINT32_MAX);
    none = row_of(sizeof(uint32_t), 0);
    REFUSES(AQL_NO_WINDOW, aql_stored_cut(ROWS(s), UINT32_MAX, UINT32_MAX));
    REFUSES(AQL_NO_WINDOW, aql_stored_cut(ROWS(s), 1, UINT32_MAX));
    REFUSES(AQL_NO_WINDOW, aql_stored_cut(ROWS(s), UINT32_MAX, 1));
    REFUSES(AQL_UNCHANGED, aql_stored_cut(ROWS(s), 0, 0));
    ACCEPTS(aql_stored_mask(ROWS(s), U32(none)));
    left("a mask of nothing", s, 3, "\x48\x40", "C+m?,0,0;", "ab");
    as_u8(s.packed)[1] = 0x47;
    ACCEPTS(aql_stored_drop_calls(ROWS(s), U32(places)));
    left("a drop past the end", s, 3, "\x48\x40", "C+m?,0,0;", "ab");
    as_u32(places)[0] = 2;
    ACCEPTS(aql_stored_drop_calls(ROWS(s), U32(places)));
    left("a drop", s, 3, "\x48\x40", "C+m?,1;", "b");
    ACCEPTS(aql_stored_mask(ROWS(s), U32(places)));
    left("a mask", s, 3, "\x48\xf0", "C+m?,0;", "b");
    ACCEPTS(aql_stored_cut(ROWS(s), 0, 1));
    left("a cut", s, 2, "\x48", "C+m?,0;", "b");
    ACCEPTS(aql_stored_cut(ROWS(s), 1, 0));
    left("a cut after a cut", s, 1, "\x80", "C+m?;", "");
    ACCEPTS(aql_stored_cut(ROWS(s), 0, 1));
    left("a cut of all", s, 0, "", "C+m?;", "");
    REFUSES(AQL_NO_WINDOW, aql_stored_cut(ROWS(s), 0, 1));
    ACCEPTS(aql_stored_mask(ROWS(s), U32(places)));
    left("a mask of no base", s, 0, "", "C+m?;", "");
}

static void try_steps_without_ml(void)
{
    struct session s;
    struct row *page, *places;
    rows_begin(rows_turn());
    s = session_of(OPENED, 3, 9, SIZE_MAX);
    page = row_in_page(1);
    places = row_u32(1, 0);
    ACCEPTS(aql_stored_drop_calls(ROWS_NO_ML(s, page), U32(places)));
    left("a drop without ML", s, 3, "\x48\x40", "C+m?,0;", NULL);
    ACCEPTS(aql_stored_mask(ROWS_NO_ML(s, page), U32(places)));
    left("a mask without ML", s, 3, "\xf8\x40", "C+m?,0;", NULL);
    ACCEPTS(aql_stored_cut(ROWS_NO_ML(s, page), 2, 0));
    left("a cut without ML", s, 1, "\x40", "C+m?,0;", NULL);
    expect("ML's length without ML", said(s.lengths, AQL_SESSION_ML), SIZE_MAX);
}

void try_stored_session(void)
{
    try_lengths();
    try_open();
    try_steps();
    try_steps_without_ml();
}
