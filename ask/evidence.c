/* ANN, GATE, TRUNC, CNT and REST: the evidence of a consensus in three columns. */
#include "calls.h"

struct columns read_columns(struct request *q, size_t k)
{
    struct columns c;
    c.informative = read_bytes(q, k, BASES);
    c.unconverted = read_numbers(q, k + 1, BASES);
    c.converted = read_numbers(q, k + 2, BASES);
    return c;
}

static struct columns output_columns(struct request *q, size_t ample)
{
    struct columns c;
    c.informative = output(q, 1, 0, ample);
    c.unconverted = output(q, sizeof(uint32_t), 0, ample);
    c.converted = output(q, sizeof(uint32_t), 0, ample);
    return c;
}

static void put_columns(struct columns c, size_t n)
{
    put_bytes(c.informative, n);
    put_counts(c.unconverted, n);
    put_counts(c.converted, n);
}

/* ANN len pattern countall refrow reads aligned */
void ask_ann(struct request *q)
{
    size_t length = read_number(q, 0, UINT64_MAX);
    uint16_t flags = read_pattern(q, 1);
    uint8_t count_all = read_yes(q, 2);
    struct row *reference = read_reference(q, 3);
    struct row *lengths = read_item_lengths(q, 4, READS);
    struct row *reads = read_joined(q, 4), *aligned = read_joined(q, 5);
    struct columns c = output_columns(q, length < BASES ? length : BASES);
    struct row *n = output_sizes(1);
    if (!ready(q))
        return;
    if (answered(
            aql_annotate_simplex_methylation(length, U32(lengths), U8(reads), U8(reference), flags, U8(aligned), count_all, COLUMNS(c), as_size(n))))
        put_columns(c, written(n, 0));
}

/* GATE pattern inf unc con: the counts are gated in place. */
void ask_gate(struct request *q)
{
    struct columns c = read_columns(q, 1);
    struct row *n = output_sizes(1);
    read_pattern(q, 0);
    if (!ready(q))
        return;
    if (answered(aql_gate_to_informative(COLUMNS(c), as_size(n)))) {
        put_yes_bytes(c.informative->bytes, c.informative->n);
        put_counts(c.unconverted, written(n, 0));
        put_counts(c.converted, written(n, 0));
    }
}

/* TRUNC len pattern inf unc con */
void ask_trunc(struct request *q)
{
    size_t length = read_number(q, 0, UINT64_MAX);
    struct columns c = read_columns(q, 2), kept = output_columns(q, c.informative->n);
    struct row *n = output_sizes(1);
    read_pattern(q, 1);
    if (!ready(q))
        return;
    if (answered(aql_truncate(length, COLUMNS(c), COLUMNS(kept), as_size(n))))
        put_columns(kept, written(n, 0));
}

/* CNT pattern inf unc con: two calls, which must answer the same number. */
void ask_cnt(struct request *q)
{
    struct columns c = read_columns(q, 1);
    struct row *cu = output(q, sizeof(int16_t), 0, c.informative->n), *ct = output(q, sizeof(int16_t), 0, c.informative->n);
    struct row *n = output_sizes(1), *m = output_sizes(1);
    uint8_t first, second;
    read_pattern(q, 0);
    if (!ready(q))
        return;
    first = aql_unconverted_counts(COLUMNS(c), I16(cu), as_size(n));
    second = aql_converted_counts(COLUMNS(c), I16(ct), as_size(m));
    must_agree(q, first, second);
    if (answered(first)) {
        put_tag_counts(cu, written(n, 0));
        put_tag_counts(ct, written(m, 0));
    }
}

/* REST pattern seq inf: the bases are restored in place. */
void ask_rest(struct request *q)
{
    uint16_t flags = read_pattern(q, 0);
    struct row *bases = read_bytes(q, 1, BASES), *informative = read_bytes(q, 2, BASES);
    struct row *n = output_sizes(1);
    if (!ready(q))
        return;
    if (answered(aql_restore_unconverted_bases(U8(bases), flags, U8(informative), as_size(n))))
        put_bytes(bases, written(n, 0));
}
