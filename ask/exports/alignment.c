/* Places on the reference, and its bases: no CIGAR words, starts and kinds that BAM does not have, outputs one entry too short. */
#include "exports.h"

static void try_positions(void)
{
    struct row *none = row_of(sizeof(uint32_t), 0), *no_room = row_of(sizeof(int64_t), 0);
    struct row *matched = row_u32(1, 3 << 4), *longest = row_u32(2, UINT32_MAX - 15), *n = row_of(sizeof(size_t), 1);
    struct row *two = row_of(sizeof(int64_t), 2), *three = row_of(sizeof(int64_t), 3);
    uint32_t kind;
    static const int64_t starts[] = {-1, INT64_MIN, 2147483648, INT64_MAX};
    size_t i;
    for (i = 0; i < sizeof starts / sizeof *starts; i++)
        REFUSES(AQL_BAD_NUMBER, aql_query_to_ref_positions(U32(matched), starts[i], some_yes(), I64(three), as_size(n)));
    for (kind = 9; kind < 16; kind++) {
        struct row *word = row_u32(1, kind);
        REFUSES(AQL_BAD_NUMBER, aql_query_to_ref_positions(U32(word), 0, 0, I64(three), as_size(n)));
    }
    REFUSES(AQL_TOO_LONG, aql_query_to_ref_positions(U32(longest), 0, 0, I64(three), as_size(n)));
    REFUSES(AQL_NO_ROOM, aql_query_to_ref_positions(U32(matched), 7, 0, I64(two), as_size(n)));
    REFUSES(AQL_NO_ROOM, aql_query_to_ref_positions(U32(matched), 7, some_yes(), I64(no_room), as_size(n)));
    ACCEPTS(aql_query_to_ref_positions(U32(none), 2147483647, some_yes(), I64(no_room), as_size(n)));
    expect("places of no words", said(n, 0), 0);
    ACCEPTS(aql_query_to_ref_positions(U32(matched), 2147483647, some_yes(), I64(three), as_size(n)));
    expect("places", row_fill(three, said(n, 0)), 3);
    expect("the first place, backward", (uint64_t)as_i64(three)[0], 2147483649);
    expect("the last place, backward", (uint64_t)as_i64(three)[2], 2147483647);
    KEPT("aql_query_to_ref_positions");
}

static void try_fetch(void)
{
    struct row *none = row_of(sizeof(int64_t), 0), *places = row_of(sizeof(int64_t), 4), *reference = row_text("AcG");
    struct row *no_bytes = row_of(1, 0), *three = row_of(1, 3), *four = row_of(1, 4), *n = row_of(sizeof(size_t), 1);
    static const int64_t given[] = {2, INT64_MIN, INT64_MAX, 0};
    memcpy(places->bytes, given, sizeof given);
    REFUSES(AQL_NO_ROOM, aql_fetch_ref_bases_at_positions(I64(places), U8(reference), U8(three), as_size(n)));
    REFUSES(AQL_NO_ROOM, aql_fetch_ref_bases_at_positions(I64(places), U8(no_bytes), U8(no_bytes), as_size(n)));
    ACCEPTS(aql_fetch_ref_bases_at_positions(I64(none), U8(no_bytes), U8(no_bytes), as_size(n)));
    expect("bases of no places", said(n, 0), 0);
    ACCEPTS(aql_fetch_ref_bases_at_positions(I64(places), U8(reference), U8(four), as_size(n)));
    expect("bases", row_fill(four, said(n, 0)), 4);
    expect("bases", memcmp(four->bytes, "G\0\0A", 4) == 0, 1);
    KEPT("aql_fetch_ref_bases_at_positions");
}

void try_alignment(void)
{
    try_positions();
    try_fetch();
}
