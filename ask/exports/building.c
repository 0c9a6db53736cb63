/* Building: modes and numbers of strands that do not exist, flags with every bit, each output by itself one entry too short. */
#include "exports.h"

/* Evidence with one unconverted and one converted read at each position. */
static struct columns strand_of(size_t n)
{
    return columns_of(n, 1, 1);
}

/* A strand that the record does not have: the call may not look at any of its rows. */
static struct columns strand_in_page(void)
{
    struct columns s;
    s.informative = row_in_page(1);
    s.unconverted = row_in_page(sizeof(uint32_t));
    s.converted = row_in_page(sizeof(uint32_t));
    return s;
}

static void try_build(void)
{
    struct row *none = row_of(1, 0), *bases = row_text("CAc"), *mm = row_of(1, 9), *short_mm = row_of(1, 8), *ml = row_of(1, 2);
    struct row *short_ml = row_of(1, 1), *mm_len = row_of(sizeof(size_t), 1), *ml_len = row_of(sizeof(size_t), 1);
    struct columns s = strand_of(3), no_columns = strand_of(0);
    unsigned mode;
    for (mode = 3; mode < 256; mode++) {
        REFUSES(AQL_BAD_NUMBER, aql_build_mm_ml_tags(U8(bases), COLUMNS(s), 0, (uint8_t)mode, U8(mm), U8(ml), as_size(mm_len), as_size(ml_len)));
        REFUSES(AQL_BAD_NUMBER, aql_build_mm_tag_no_ml(U8(bases), COLUMNS(s), 0, (uint8_t)mode, U8(mm), as_size(mm_len)));
    }
    REFUSES(AQL_NO_ROOM, aql_build_mm_ml_tags(U8(bases), COLUMNS(s), 0, AQL_MODE_EM_SEQ, U8(short_mm), U8(ml), as_size(mm_len), as_size(ml_len)));
    REFUSES(AQL_NO_ROOM, aql_build_mm_ml_tags(U8(bases), COLUMNS(s), 0, AQL_MODE_EM_SEQ, U8(mm), U8(short_ml), as_size(mm_len), as_size(ml_len)));
    REFUSES(AQL_NO_ROOM, aql_build_mm_ml_tags(U8(bases), COLUMNS(s), 0, AQL_MODE_TAPS, U8(none), U8(none), as_size(mm_len), as_size(ml_len)));
    REFUSES(AQL_NO_ROOM, aql_build_mm_tag_no_ml(U8(bases), COLUMNS(s), 0, AQL_MODE_EM_SEQ, U8(short_mm), as_size(mm_len)));
    REFUSES(AQL_NO_CALLS,
            aql_build_mm_ml_tags(U8(none), COLUMNS(no_columns), 0, AQL_MODE_EM_SEQ, U8(none), U8(none), as_size(mm_len), as_size(ml_len)));
    REFUSES(AQL_NO_CALLS, aql_build_mm_tag_no_ml(U8(none), COLUMNS(no_columns), 0, AQL_MODE_EM_SEQ, U8(none), as_size(mm_len)));
    REFUSES(AQL_NO_CALLS, aql_build_mm_ml_tags(U8(bases), COLUMNS(s), 0xffff, AQL_MODE_EM_SEQ, U8(mm), U8(ml), as_size(mm_len), as_size(ml_len)));
    REFUSES(AQL_LENGTHS_DISAGREE, aql_build_mm_tag_no_ml(U8(none), COLUMNS(s), 0, AQL_MODE_EM_SEQ, U8(mm), as_size(mm_len)));
    ACCEPTS(aql_build_mm_ml_tags(U8(bases), COLUMNS(s), 0xff7f, AQL_MODE_EM_SEQ, U8(mm), U8(ml), as_size(mm_len), as_size(ml_len)));
    expect_text("MM built", mm, said(mm_len, 0), "C+m?,0,0;");
    expect_text("ML built", ml, said(ml_len, 0), "\x80\x80");
    KEPT("aql_build_mm_ml_tags");
    ACCEPTS(aql_build_mm_tag_no_ml(U8(bases), COLUMNS(s), 0, AQL_MODE_TAPS, U8(mm), as_size(mm_len)));
    expect_text("MM built alone", mm, said(mm_len, 0), "C+m?,0,0;");
    KEPT("aql_build_mm_tag_no_ml");
}

/* ---- Duplex */

/* The eleven outputs, in the order of AQL_DUPLEX_SEQ to AQL_DUPLEX_SECOND_CONVERTED. */
static const size_t widths[AQL_DUPLEX_LENGTHS] = {1, 1, 1, 2, 2, 1, 2, 2, 1, 2, 2};
/* How many entries of each output `tg` with both strands fills: C+m?,0;G-m?,0; and so on. */
static const size_t filled[AQL_DUPLEX_LENGTHS] = {2, 14, 2, 2, 2, 7, 2, 2, 7, 2, 2};

static uint8_t duplex(struct row *bases, size_t strands, uint8_t mode, struct columns first, struct columns second, struct row **out,
                      struct row *lengths)
{
    return aql_duplex_methylation_tags(U8(bases), strands, mode, 0xff7f, COLUMNS(first), 0xffff, COLUMNS(second), U8(out[0]), U8(out[1]), U8(out[2]),
                                       I16(out[3]), I16(out[4]), U8(out[5]), I16(out[6]), I16(out[7]), U8(out[8]), I16(out[9]), I16(out[10]),
                                       as_size(lengths));
}

/* Outputs with exactly the room that is needed, except output `which`, which is one entry too short. */
static void outputs(struct row **out, size_t which)
{
    size_t i;
    for (i = 0; i < AQL_DUPLEX_LENGTHS; i++)
        out[i] = row_of(widths[i], filled[i] - (i == which));
}

static void try_strands(void)
{
    struct row *bases = row_text("tg"), *none = row_of(1, 0), *lengths = row_of(sizeof(size_t), AQL_DUPLEX_LENGTHS), *out[AQL_DUPLEX_LENGTHS];
    struct columns first = strand_of(2), second = strand_of(2), no_columns = strand_of(0), unseen = strand_in_page();
    size_t i;
    outputs(out, AQL_DUPLEX_LENGTHS);
    REFUSES(AQL_BAD_NUMBER, duplex(bases, 0, AQL_MODE_EM_SEQ, unseen, unseen, out, lengths));
    REFUSES(AQL_BAD_NUMBER, duplex(bases, 3, AQL_MODE_EM_SEQ, first, second, out, lengths));
    REFUSES(AQL_BAD_NUMBER, duplex(bases, SIZE_MAX, AQL_MODE_EM_SEQ, first, second, out, lengths));
    REFUSES(AQL_BAD_NUMBER, duplex(bases, 2, 3, first, second, out, lengths));
    REFUSES(AQL_BAD_NUMBER, duplex(bases, 1, 255, first, unseen, out, lengths));
    REFUSES(AQL_LENGTHS_DISAGREE, duplex(bases, 2, AQL_MODE_EM_SEQ, first, no_columns, out, lengths));
    ACCEPTS(duplex(bases, 2, AQL_MODE_EM_SEQ, first, second, out, lengths));
    for (i = 0; i < AQL_DUPLEX_LENGTHS; i++)
        expect("a part of the duplex tags", row_fill(out[i], said(lengths, i)), filled[i]);
    expect_text("SEQ", out[AQL_DUPLEX_SEQ], 2, "Cg");
    expect_text("MM of both strands", out[AQL_DUPLEX_MM], 14, "C+m?,0;G-m?,0;");
    expect_text("MM of the second strand", out[AQL_DUPLEX_SECOND_MM], 7, "G-m?,0;");
    KEPT("aql_duplex_methylation_tags, two strands");
    ACCEPTS(duplex(bases, 1, AQL_MODE_EM_SEQ, first, unseen, out, lengths));
    for (i = 0; i < AQL_DUPLEX_SECOND_MM; i++)
        row_fill(out[i], said(lengths, i));
    for (; i < AQL_DUPLEX_LENGTHS; i++)
        expect("a part of the second strand of one", said(lengths, i), 0);
    KEPT("aql_duplex_methylation_tags, one strand");
    for (i = 0; i < AQL_DUPLEX_LENGTHS; i++)
        out[i] = row_of(widths[i], 0);
    ACCEPTS(duplex(none, 1, AQL_MODE_TAPS, no_columns, unseen, out, lengths));
    for (i = 0; i < AQL_DUPLEX_LENGTHS; i++)
        expect("a part of nothing", said(lengths, i), 0);
    KEPT("aql_duplex_methylation_tags of nothing");
}

static void try_short_rooms(void)
{
    size_t which;
    for (which = 0; which < AQL_DUPLEX_LENGTHS; which++) {
        struct row *bases, *lengths, *out[AQL_DUPLEX_LENGTHS];
        struct columns first, second;
        rows_begin(rows_turn());
        bases = row_text("tg");
        first = strand_of(2);
        second = strand_of(2);
        lengths = row_of(sizeof(size_t), AQL_DUPLEX_LENGTHS);
        outputs(out, which);
        REFUSES(AQL_NO_ROOM, duplex(bases, 2, AQL_MODE_EM_SEQ, first, second, out, lengths));
    }
}

void try_building(void)
{
    try_build();
    rows_begin(rows_turn());
    try_strands();
    try_short_rooms();
}
