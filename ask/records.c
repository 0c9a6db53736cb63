/* K2.RMASK, K2.RDROP and K2.RCUT: the tags of a whole BAM record. */
#include "calls.h"
#include "aquiledru_record.h"

/* More bytes than a record has in which SEQ, MM, ML, am and bm are each one over the domain's bound. */
#define RECORD 450000u

/* A record, from a field, and the rows that the new one is written to, with the room of the next field; and the arguments that a call takes for the latter. */
struct record {
    struct row *given, *out, *out_len, *went;
};
#define NEW(r) U8((r).out), as_size((r).out_len), as_size((r).went)

/* More room than the new record can take is cut to that, so that the untouchable page is close to its end. */
static struct record read_record(struct request *q)
{
    struct record r;
    uint64_t room = read_number(q, 1, UINT64_MAX);
    r.given = read_bytes(q, 0, RECORD);
    r.out = row_of(1, room < r.given->n + AQL_RECORD_GROWTH ? (size_t)room : r.given->n + AQL_RECORD_GROWTH);
    r.out_len = output_sizes(1);
    r.went = output_sizes(1);
    return r;
}

static void put_record(struct record r, uint8_t number)
{
    if (!answered(number))
        return;
    put_size(written(r.went, 0));
    put_size(written(r.out_len, 0));
    put_bytes(r.out, written(r.out_len, 0));
}

/* K2.RMASK rec room before */
void ask_record_mask(struct request *q)
{
    struct record r = read_record(q);
    struct row *before = read_bytes(q, 2, BASES);
    if (ready(q))
        put_record(r, aql_mask_record(U8(r.given), U8(before), NEW(r)));
}

/* K2.RDROP rec room places */
void ask_record_drop(struct request *q)
{
    struct record r = read_record(q);
    struct row *places = read_places(q, 2);
    if (ready(q))
        put_record(r, aql_drop_record(U8(r.given), U32(places), NEW(r)));
}

/* K2.RCUT rec room before beforerev start */
void ask_record_cut(struct request *q)
{
    struct record r = read_record(q);
    struct row *before = read_bytes(q, 2, BASES);
    uint8_t known, before_reverse = read_yes(q, 3);
    size_t start = read_start(q, 4, &known);
    if (ready(q))
        put_record(r, aql_cut_record(U8(r.given), U8(before), before_reverse, known, start, NEW(r)));
}
