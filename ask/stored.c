/* K1.TURN, K1.UNPACK, K1.CALLS, K1.PMASK, K1.PDROP, K1.PCUT and K1.PSES: reads as a BAM record stores them. */
#include "calls.h"

/* A packed SEQ, and the number of bases that the request states for it, from two fields; and the arguments that a call takes for them. */
struct packed {
    size_t bases;
    struct row *row;
};
#define PACKED(s) U8((s).row), (s).bases

static struct packed read_packed(struct request *q, size_t k)
{
    struct packed s;
    s.bases = read_number(q, k, UINT64_MAX);
    s.row = read_bytes(q, k + 1, BYTES);
    return s;
}

/* The way of a drop. Only the old way is a request. */
static void read_way(struct request *q, size_t k)
{
    if (!field_spells(q, k, "old"))
        q->malformed = 1;
}

/* K1.TURN n packed */
void ask_turn(struct request *q)
{
    struct packed s = read_packed(q, 0);
    struct row *out = output(q, 1, 0, s.row->n), *out_len = output_sizes(1);
    if (!ready(q))
        return;
    if (answered(aql_turn(PACKED(s), U8(out), as_size(out_len))))
        put_bytes(out, written(out_len, 0));
}

/* K1.UNPACK rev n packed */
void ask_unpack(struct request *q)
{
    uint8_t reverse = read_yes(q, 0);
    struct packed s = read_packed(q, 1);
    struct row *seq = output(q, 1, 0, s.bases < BASES ? s.bases : BASES), *seq_len = output_sizes(1);
    if (!ready(q))
        return;
    if (answered(aql_unpack(PACKED(s), reverse, U8(seq), as_size(seq_len))))
        put_bytes(seq, written(seq_len, 0));
}

/* How many values of ML are 128 or more. */
static size_t high_values(const struct row *ml)
{
    size_t i, found = 0;
    for (i = 0; i < ml->n; i++)
        found += as_u8(ml)[i] >= 128;
    return found;
}

/* aql_stored_tally must give this number too; its two counts must be those of ML's values. */
static void must_tally(struct request *q, uint8_t number, struct packed s, uint8_t reverse, struct row *mm, struct row *ml, struct row *counts[2])
{
    uint8_t tallied = aql_stored_tally(PACKED(s), reverse, U8(mm), U8(ml), as_size(counts[0]), as_size(counts[1]));
    must_agree(q, number, tallied);
    if (tallied != AQL_DONE)
        return;
    must_agree(q, written(counts[0], 0), high_values(ml));
    must_agree(q, written(counts[0], 0) + written(counts[1], 0), ml->n);
}

/* K1.CALLS rev n packed text ml: aql_stored_check_tag must give the same number, unless that is 12, and the same counts. With ML, aql_stored_tally must
 * give the number of aql_stored_check_tag. */
void ask_stored_calls(struct request *q)
{
    uint8_t has_ml, number, checked, reverse = read_yes(q, 0);
    struct packed s = read_packed(q, 1);
    struct row *mm = read_bytes(q, 3, BYTES), *ml = read_ml(q, 4, &has_ml);
    struct listing c = output_calls(q, mm->n);
    struct row *groups = output_sizes(1), *calls = output_sizes(1), *tally[2] = {output_sizes(1), output_sizes(1)};
    if (!ready(q))
        return;
    number = aql_stored_read_calls(PACKED(s), reverse, U8(mm), U8(ml), has_ml, LISTING(c));
    checked = aql_stored_check_tag(PACKED(s), reverse, U8(mm), U8(ml), has_ml, as_size(groups), as_size(calls));
    must_agree(q, number == AQL_NO_ROOM ? AQL_DONE : number, checked);
    if (checked == AQL_DONE && number == AQL_DONE) {
        must_agree(q, written(c.group_count, 0), written(groups, 0));
        must_agree(q, written(c.call_count, 0), written(calls, 0));
    } else if (checked == AQL_DONE) {
        written(groups, 0);
        written(calls, 0);
    }
    if (has_ml)
        must_tally(q, checked, s, reverse, mm, ml, tally);
    if (answered(number))
        put_calls(c, has_ml, ml->n);
}

/* K1.PMASK rev n before nafter after text ml */
void ask_stored_mask(struct request *q)
{
    uint8_t reverse = read_yes(q, 0);
    struct packed before = read_packed(q, 1), after = read_packed(q, 3);
    struct tag t = read_tag(q, 5);
    if (ready(q))
        put_edited(t, aql_stored_drop_masked_modifications(PACKED(before), PACKED(after), reverse, TAG(t)));
}

/* K1.PDROP rev n packed places text ml way */
void ask_stored_drop(struct request *q)
{
    uint8_t reverse = read_yes(q, 0);
    struct packed s = read_packed(q, 1);
    struct row *places = read_places(q, 3);
    struct tag t = read_tag(q, 4);
    read_way(q, 6);
    if (ready(q))
        put_edited(t, aql_stored_drop_modifications_at(PACKED(s), reverse, U32(places), TAG(t)));
}

/* K1.PCUT rev n before nafter after start text ml */
void ask_stored_cut(struct request *q)
{
    uint8_t known, reverse = read_yes(q, 0);
    struct packed before = read_packed(q, 1), after = read_packed(q, 3);
    size_t start = read_start(q, 5, &known);
    struct tag t = read_tag(q, 6);
    if (ready(q))
        put_edited(t, aql_stored_trim_clipped_modifications(PACKED(before), PACKED(after), reverse, known, start, TAG(t)));
}

/* ---- The session */

/* A session on a stored read, and the arguments that a step takes for it. */
struct stored {
    uint8_t reverse, has_ml;
    struct row *packed, *mm, *ml, *lengths;
};
#define STORED(s) U8((s).packed), (s).reverse, U8((s).mm), U8((s).ml), (s).has_ml, as_size((s).lengths)

static struct stored read_stored(struct request *q)
{
    struct stored s;
    struct packed given = read_packed(q, 1);
    s.reverse = read_yes(q, 0);
    s.packed = given.row;
    s.mm = read_bytes(q, 3, BYTES);
    s.ml = read_ml(q, 4, &s.has_ml);
    s.lengths = output_sizes(AQL_SESSION_LENGTHS);
    as_size(s.lengths)[AQL_SESSION_SEQ] = given.bases;
    as_size(s.lengths)[AQL_SESSION_MM] = s.mm->n;
    /* Without ML its length may be anything. */
    as_size(s.lengths)[AQL_SESSION_ML] = s.has_ml ? s.ml->n : SIZE_MAX;
    return s;
}

static size_t held(struct stored s, size_t which)
{
    return as_size(s.lengths)[which];
}

/* Opens the session. aql_stored_check_tag must give the same number and counts, since the lengths are those of the rows. */
static uint8_t opened(struct request *q, struct stored s)
{
    struct row *groups = output_sizes(1), *calls = output_sizes(1), *groups_again = output_sizes(1), *calls_again = output_sizes(1);
    uint8_t number, again;
    rows_lend();
    number = aql_stored_open(STORED(s), as_size(groups), as_size(calls));
    again = aql_stored_check_tag(U8(s.packed), held(s, AQL_SESSION_SEQ), s.reverse, U8(s.mm), U8(s.ml), s.has_ml, as_size(groups_again),
                                 as_size(calls_again));
    must_agree(q, number, again);
    if (number == AQL_DONE && again == AQL_DONE) {
        must_agree(q, written(groups, 0), written(groups_again, 0));
        must_agree(q, written(calls, 0), written(calls_again, 0));
    }
    q->wrote |= rows_wrote();
    return number;
}

/* A step `MK:places`, `DR:places` or `CU:front,back`: its first letter, and its numbers. */
struct step {
    char kind;
    struct row *given;
};

static struct step read_step(struct request *q, size_t k)
{
    struct step t = {0, NULL};
    if (field_begins(q, k, "MK:") || field_begins(q, k, "DR:") || field_begins(q, k, "CU:"))
        t.kind = (char)q->fields[k].at[0];
    t.given = read_places_behind(q, k, 3);
    if (t.kind == 0 || (t.kind == 'C' && t.given->n != 2))
        q->malformed = 1;
    return t;
}

static uint8_t stepped(struct stored s, struct step t)
{
    switch (t.kind) {
    case 'M':
        return aql_stored_mask(STORED(s), U32(t.given));
    case 'D':
        return aql_stored_drop_calls(STORED(s), U32(t.given));
    default:
        return aql_stored_cut(STORED(s), as_u32(t.given)[0], as_u32(t.given)[1]);
    }
}

/* Makes the step of a field, and notes if it changed what it may not change. */
static uint8_t made_step(struct request *q, struct stored s, size_t k)
{
    size_t kept = rows_taken();
    struct step t = read_step(q, k);
    uint8_t number;
    rows_lend();
    number = stepped(s, t);
    if (number == AQL_DONE) {
        row_fill(s.lengths, s.has_ml ? AQL_SESSION_LENGTHS : AQL_SESSION_ML);
        row_fill(s.packed, held(s, AQL_SESSION_SEQ) / 2 + held(s, AQL_SESSION_SEQ) % 2);
        row_fill(s.mm, held(s, AQL_SESSION_MM));
        if (s.has_ml)
            row_fill(s.ml, held(s, AQL_SESSION_ML));
    }
    q->wrote |= rows_wrote();
    rows_give_back(kept);
    return number;
}

/* Makes all steps, and adds their numbers as a list. A refused step is followed by the next one. */
static void make_steps(struct request *q, struct stored s)
{
    size_t k;
    add_tab();
    if (q->count == 6)
        add_character('*');
    for (k = 6; k < q->count; k++) {
        if (k > 6)
            add_character(',');
        add_decimal(made_step(q, s, k));
    }
}

/* K1.PSES rev n packed text ml way step ... */
void ask_stored_session(struct request *q)
{
    struct stored s = read_stored(q);
    size_t k, kept = rows_taken();
    read_way(q, 5);
    /* No call is made before every step is known to be of its form. */
    for (k = 6; k < q->count && !q->malformed; k++) {
        read_step(q, k);
        rows_give_back(kept);
    }
    if (!ready(q) || !answered(opened(q, s)))
        return;
    make_steps(q, s);
    put_size(held(s, AQL_SESSION_SEQ));
    put_whole(s.packed, s.packed->n);
    put_bytes(s.mm, held(s, AQL_SESSION_MM));
    if (s.has_ml)
        put_bytes(s.ml, held(s, AQL_SESSION_ML));
    else
        put_dash();
}
