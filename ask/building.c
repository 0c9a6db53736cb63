/* BUILD, BUILDMM and DUP: tags from a consensus and its evidence. */
#include "calls.h"

/* A bound on the length of a strand's text: a header, a comma and five digits for each call, and the semicolon. */
static size_t longest_text(size_t bases)
{
    return 5 + 6 * bases;
}

/* What a strand's tag is built from, apart from the consensus. */
struct strand {
    uint16_t flags;
    struct columns columns;
};

static struct strand read_strand(struct request *q, size_t pattern, size_t columns)
{
    struct strand s;
    s.flags = read_pattern(q, pattern);
    s.columns = read_columns(q, columns);
    return s;
}

/* BUILD pattern mode seq inf unc con */
void ask_build(struct request *q)
{
    struct strand s = read_strand(q, 0, 3);
    uint8_t mode = read_mode(q, 1);
    struct row *seq = read_bytes(q, 2, BASES);
    struct row *mm = output(q, 1, 0, longest_text(seq->n)), *ml = output(q, 1, 1, seq->n);
    struct row *mm_len = output_sizes(1), *ml_len = output_sizes(1);
    if (!ready(q))
        return;
    if (answered(aql_build_mm_ml_tags(U8(seq), COLUMNS(s.columns), s.flags, mode, U8(mm), U8(ml), as_size(mm_len), as_size(ml_len)))) {
        put_bytes(mm, written(mm_len, 0));
        put_bytes(ml, written(ml_len, 0));
    }
}

/* BUILDMM pattern mode seq inf unc con */
void ask_buildmm(struct request *q)
{
    struct strand s = read_strand(q, 0, 3);
    uint8_t mode = read_mode(q, 1);
    struct row *seq = read_bytes(q, 2, BASES);
    struct row *mm = output(q, 1, 0, longest_text(seq->n)), *mm_len = output_sizes(1);
    if (!ready(q))
        return;
    if (answered(aql_build_mm_tag_no_ml(U8(seq), COLUMNS(s.columns), s.flags, mode, U8(mm), as_size(mm_len))))
        put_bytes(mm, written(mm_len, 0));
}

/* ---- DUP */

/* A strand that the record does not have: the call may not look at any of its rows. */
static struct strand no_strand(void)
{
    struct strand s;
    s.flags = (uint16_t)rows_turn();
    s.columns.informative = row_in_page(1);
    s.columns.unconverted = row_in_page(sizeof(uint32_t));
    s.columns.converted = row_in_page(sizeof(uint32_t));
    return s;
}

/* The text and counts of both strands together, or of one. */
struct tags {
    struct row *mm, *unconverted, *converted;
};

static struct tags output_tags(struct request *q, size_t text, size_t bases)
{
    struct tags t;
    t.mm = output(q, 1, 0, text);
    t.unconverted = row_of(sizeof(int16_t), bases);
    t.converted = row_of(sizeof(int16_t), bases);
    return t;
}

#define COUNTS(t) I16((t).unconverted), I16((t).converted)

static void put_strand(struct tags t, struct row *lengths, size_t first)
{
    put_text_or_dash(t.mm, written(lengths, first));
    put_tag_counts(t.unconverted, written(lengths, first + 1));
    put_tag_counts(t.converted, written(lengths, first + 2));
}

/* DUP mode seq, and then pattern inf unc con for each strand */
void ask_dup(struct request *q)
{
    uint8_t mode = read_mode(q, 0);
    size_t strands = (q->count - 2) / 4;
    struct row *bases = read_bytes(q, 1, BASES);
    struct strand first = strands > 0 ? read_strand(q, 2, 3) : no_strand();
    struct strand second = strands > 1 ? read_strand(q, 6, 7) : no_strand();
    struct row *seq = row_of(1, bases->n), *ml = output(q, 1, 1, 2 * bases->n), *lengths = output_sizes(AQL_DUPLEX_LENGTHS);
    struct tags both = output_tags(q, 2 * longest_text(bases->n), bases->n);
    struct tags own[2] = {output_tags(q, longest_text(bases->n), bases->n), output_tags(q, longest_text(bases->n), bases->n)};
    if (strands > 2)
        read_strand(q, 10, 11);
    if ((q->count - 2) % 4 != 0 || strands > 3)
        q->malformed = 1;
    if (!ready(q))
        return;
    if (!answered(aql_duplex_methylation_tags(U8(bases), strands, mode, first.flags, COLUMNS(first.columns), second.flags, COLUMNS(second.columns),
                                              U8(seq), U8(both.mm), U8(ml), COUNTS(both), U8(own[0].mm), COUNTS(own[0]), U8(own[1].mm),
                                              COUNTS(own[1]), as_size(lengths))))
        return;
    put_bytes(seq, written(lengths, AQL_DUPLEX_SEQ));
    put_text_or_dash(both.mm, written(lengths, AQL_DUPLEX_MM));
    if (written(lengths, AQL_DUPLEX_MM) > 0)
        put_bytes(ml, written(lengths, AQL_DUPLEX_ML));
    else
        put_dash();
    put_tag_counts(both.unconverted, written(lengths, AQL_DUPLEX_UNCONVERTED));
    put_tag_counts(both.converted, written(lengths, AQL_DUPLEX_CONVERTED));
    put_strand(own[0], lengths, AQL_DUPLEX_FIRST_MM);
    if (strands == 2)
        put_strand(own[1], lengths, AQL_DUPLEX_SECOND_MM);
}
