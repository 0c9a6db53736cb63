/* CALLS and TALLY: what a tag says. */
#include "calls.h"

/* The number of ML values of call i of n: from its start up to the start of the next call. */
static size_t values_of(const uint32_t *starts, size_t i, size_t n, size_t ml)
{
    return (i + 1 < n ? starts[i + 1] : ml) - starts[i];
}

struct listing output_calls(struct request *q, size_t text)
{
    struct listing c;
    c.groups = output(q, sizeof(uint32_t), 0, text);
    c.places = output(q, sizeof(uint32_t), 0, text);
    c.starts = output(q, sizeof(uint32_t), 0, text);
    c.group_count = output_sizes(1);
    c.call_count = output_sizes(1);
    return c;
}

void put_calls(struct listing c, uint8_t has_ml, size_t ml)
{
    const uint32_t *groups = as_u32(c.groups), *places = as_u32(c.places), *starts = as_u32(c.starts);
    size_t i, n = written(c.call_count, 0);
    put_size(written(c.group_count, 0));
    row_fill(c.groups, n);
    row_fill(c.places, n);
    n = row_fill(c.starts, n);
    add_tab();
    if (n == 0)
        add_character('*');
    for (i = 0; i < n; i++) {
        if (i > 0)
            add_character(',');
        add_decimal(groups[i]);
        add_character(':');
        add_decimal(places[i]);
        add_character(':');
        add_decimal(starts[i]);
        add_character(':');
        add_decimal(has_ml ? values_of(starts, i, n, ml) : 0);
    }
}

/* CALLS mm ml seq */
void ask_calls(struct request *q)
{
    uint8_t has_ml;
    struct row *mm = read_bytes(q, 0, BYTES), *ml = read_ml(q, 1, &has_ml), *seq = read_bytes(q, 2, BASES);
    struct listing c = output_calls(q, mm->n);
    if (!ready(q))
        return;
    if (answered(aql_read_calls(U8(seq), U8(mm), U8(ml), has_ml, LISTING(c))))
        put_calls(c, has_ml, ml->n);
}

/* TALLY mm ml seq: ML is always given. */
void ask_tally(struct request *q)
{
    struct row *mm = read_bytes(q, 0, BYTES), *ml = read_bytes(q, 1, BYTES), *seq = read_bytes(q, 2, BASES);
    struct row *above = output_sizes(1), *below = output_sizes(1);
    if (!ready(q))
        return;
    if (answered(aql_tally(U8(seq), U8(mm), U8(ml), as_size(above), as_size(below)))) {
        put_size(written(above, 0));
        put_size(written(below, 0));
    }
}
