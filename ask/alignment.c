/* Q, CPG, PAT and FETCH: places on the reference, its bases, and the pattern of a read. */
#include "calls.h"

/* The number of bases if every operation took bases: no answer has more. */
static size_t most_bases(const struct row *words)
{
    size_t i, total = 0;
    for (i = 0; i < words->n && total < BASES; i++)
        total += ((const uint32_t *)words->bytes)[i] >> 4;
    return total < BASES ? total : BASES;
}

/* Q words start rev */
void ask_q(struct request *q)
{
    struct row *words = read_numbers(q, 0, WORDS);
    int64_t start = read_signed(q, 1);
    uint8_t reverse = read_yes(q, 2);
    struct row *places = output(q, sizeof(int64_t), 0, most_bases(words));
    struct row *n = output_sizes(1);
    if (!ready(q))
        return;
    if (answered(aql_query_to_ref_positions(U32(words), start, reverse, I64(places), as_size(n))))
        put_positions(places, written(n, 0));
}

/* CPG ref pos top */
void ask_cpg(struct request *q)
{
    struct row *reference = read_bytes(q, 0, BYTES);
    size_t place = read_number(q, 1, UINT64_MAX);
    uint8_t yes, top = read_yes(q, 2);
    if (!ready(q))
        return;
    yes = aql_is_cpg_context(U8(reference), place, top);
    answered(AQL_DONE);
    put_size(yes);
}

/* PAT flags */
void ask_pat(struct request *q)
{
    uint16_t flags = (uint16_t)read_number(q, 0, UINT16_MAX);
    struct row *bases = row_of(1, 3);
    uint8_t *three = as_u8(bases);
    if (!ready(q))
        return;
    aql_pattern_bases(flags, three, three + 1, three + 2);
    answered(AQL_DONE);
    put_letter(aql_pattern_from_read_flags(flags) == 0 ? 'C' : 'G');
    put_bytes(bases, 3);
}

/* FETCH places ref */
void ask_fetch(struct request *q)
{
    struct row *places = read_signed_places(q, 0);
    struct row *reference = read_bytes(q, 1, BYTES);
    struct row *bases = output(q, 1, 0, places->n);
    struct row *n = output_sizes(1);
    if (!ready(q))
        return;
    if (answered(aql_fetch_ref_bases_at_positions(I64(places), U8(reference), U8(bases), as_size(n))))
        put_reference(bases, written(n, 0));
}
