/* MASK, DROP and CUT: a tag rewritten from one row to another. */
#include "calls.h"

struct tag read_tag(struct request *q, size_t k)
{
    struct tag t;
    t.mm = read_bytes(q, k, BYTES);
    t.ml = read_ml(q, k + 1, &t.has_ml);
    t.mm_out = output(q, 1, 0, t.mm->n);
    t.ml_out = t.has_ml ? output(q, 1, 1, t.ml->n) : row_in_page(1);
    t.mm_len = output_sizes(1);
    t.ml_len = output_sizes(1);
    return t;
}

void put_edited(struct tag t, uint8_t number)
{
    if (!answered(number))
        return;
    put_bytes(t.mm_out, written(t.mm_len, 0));
    if (t.has_ml)
        put_bytes(t.ml_out, written(t.ml_len, 0));
    else if (written(t.ml_len, 0) == 0)
        put_dash();
    else
        put_size(written(t.ml_len, 0));
}

size_t read_start(struct request *q, size_t k, uint8_t *known)
{
    *known = field_is(q, k, '-') ? 0 : some_yes();
    return *known ? read_number(q, k, UINT64_MAX) : rows_turn() / 4 % 3;
}

/* MASK mm ml before after */
void ask_mask(struct request *q)
{
    struct tag t = read_tag(q, 0);
    struct row *before = read_bytes(q, 2, BASES), *after = read_bytes(q, 3, BASES);
    if (ready(q))
        put_edited(t, aql_drop_masked_modifications(U8(before), U8(after), TAG(t)));
}

/* DROP mm ml seq places */
void ask_drop(struct request *q)
{
    struct tag t = read_tag(q, 0);
    struct row *seq = read_bytes(q, 2, BASES), *places = read_places(q, 3);
    if (ready(q))
        put_edited(t, aql_drop_modifications_at(U8(seq), U32(places), TAG(t)));
}

/* CUT mm ml before after start */
void ask_cut(struct request *q)
{
    struct tag t = read_tag(q, 0);
    struct row *before = read_bytes(q, 2, BASES), *after = read_bytes(q, 3, BASES);
    uint8_t known;
    size_t start = read_start(q, 4, &known);
    if (ready(q))
        put_edited(t, aql_trim_clipped_modifications(U8(before), U8(after), known, start, TAG(t)));
}
