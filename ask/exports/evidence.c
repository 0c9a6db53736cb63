/* The evidence of a consensus: columns that are NULL or disagree, each output by itself one entry too short, lengths above every bound. */
#include "exports.h"

/* Evidence whose unconverted count is more than the cu tag holds. */
static struct columns some_columns(size_t n)
{
    return columns_of(n, 40000, 3);
}

/* Columns to write to, of which column `which` is one entry too short. */
static struct columns room_for(size_t n, size_t which)
{
    struct columns c;
    c.informative = row_of(1, n - (which == 0));
    c.unconverted = row_of(sizeof(uint32_t), n - (which == 1));
    c.converted = row_of(sizeof(uint32_t), n - (which == 2));
    return c;
}

#define NO_ONE 3

static void try_annotate(void)
{
    struct columns none = some_columns(0), out = room_for(2, NO_ONE), short_one[3] = {room_for(2, 0), room_for(2, 1), room_for(2, 2)};
    struct row *lengths = row_u32(2, 2), *bases = row_text("CTtc"), *aligned = row_bytes(4, some_yes()), *reference = row_text("CG");
    struct row *huge = row_u32(2, UINT32_MAX), *n = row_of(sizeof(size_t), 1);
    size_t i;
    as_u32(huge)[1] = 5;
    for (i = 0; i < 3; i++)
        REFUSES(AQL_NO_ROOM, aql_annotate_simplex_methylation(2, U32(lengths), U8(bases), U8(reference), 0xff7f, U8(aligned), 0,
                                                              COLUMNS(short_one[i]), as_size(n)));
    REFUSES(AQL_TOO_LONG,
            aql_annotate_simplex_methylation(SIZE_MAX, U32(lengths), U8(bases), U8(reference), 0, U8(aligned), 0, COLUMNS(out), as_size(n)));
    REFUSES(AQL_LENGTHS_DISAGREE,
            aql_annotate_simplex_methylation(2, U32(lengths), U8(bases), U8(reference), 0, U8(reference), 0, COLUMNS(out), as_size(n)));
    /* Lengths whose sum needs more than 32 bits: in 32 bits the sum would be 4, the number of bases. */
    REFUSES(AQL_LENGTHS_DISAGREE,
            aql_annotate_simplex_methylation(2, U32(huge), U8(bases), U8(reference), 0, U8(aligned), 0, COLUMNS(out), as_size(n)));
    REFUSES(AQL_LENGTHS_DISAGREE,
            aql_annotate_simplex_methylation(2, U32(none.converted), U8(bases), U8(reference), 0, U8(aligned), 0, COLUMNS(out), as_size(n)));
    ACCEPTS(aql_annotate_simplex_methylation(0, U32(none.unconverted), U8(none.informative), U8(none.informative), 0, U8(none.informative),
                                             some_yes(), COLUMNS(none), as_size(n)));
    expect("positions of nothing", said(n, 0), 0);
    ACCEPTS(aql_annotate_simplex_methylation(2, U32(lengths), U8(bases), U8(reference), 0xff7f, U8(aligned), some_yes(), COLUMNS(out), as_size(n)));
    expect("positions", row_fill(out.informative, said(n, 0)), 2);
    row_fill(out.unconverted, 2);
    row_fill(out.converted, 2);
    expect("informative", as_u8(out.informative)[0] == 1 && as_u8(out.informative)[1] == 0, 1);
    expect("unconverted", as_u32(out.unconverted)[0] == 1 && as_u32(out.unconverted)[1] == 1, 1);
    expect("converted", as_u32(out.converted)[0] == 1 && as_u32(out.converted)[1] == 1, 1);
    KEPT("aql_annotate_simplex_methylation");
}

static void try_gate(void)
{
    struct columns none = some_columns(0), two = some_columns(2), three = some_columns(3), long_ones = some_columns(AQL_MAX_SEQ + 1);
    struct row *n = row_of(sizeof(size_t), 1);
    REFUSES(AQL_LENGTHS_DISAGREE, aql_gate_to_informative(U8(three.informative), U32(two.unconverted), U32(two.converted), as_size(n)));
    REFUSES(AQL_LENGTHS_DISAGREE, aql_gate_to_informative(U8(none.informative), U32(two.unconverted), U32(none.converted), as_size(n)));
    REFUSES(AQL_TOO_LONG, aql_gate_to_informative(COLUMNS(long_ones), as_size(n)));
    ACCEPTS(aql_gate_to_informative(COLUMNS(none), as_size(n)));
    expect("gated of nothing", said(n, 0), 0);
    as_u8(two.informative)[1] = 0;
    ACCEPTS(aql_gate_to_informative(COLUMNS(two), as_size(n)));
    expect("gated", row_fill(two.unconverted, said(n, 0)), 2);
    row_fill(two.converted, 2);
    expect("gated counts", as_u32(two.unconverted)[0] == 40000 && as_u32(two.converted)[0] == 3, 1);
    expect("gated counts", as_u32(two.unconverted)[1] + as_u32(two.converted)[1], 0);
    KEPT("aql_gate_to_informative");
}

static void try_truncate(void)
{
    struct columns none = some_columns(0), three = some_columns(3), out = room_for(3, NO_ONE);
    struct columns short_one[3] = {room_for(3, 0), room_for(3, 1), room_for(3, 2)};
    struct row *n = row_of(sizeof(size_t), 1);
    size_t i;
    for (i = 0; i < 3; i++)
        REFUSES(AQL_NO_ROOM, aql_truncate(SIZE_MAX, COLUMNS(three), COLUMNS(short_one[i]), as_size(n)));
    REFUSES(AQL_LENGTHS_DISAGREE, aql_truncate(0, U8(none.informative), U32(three.unconverted), U32(three.converted), COLUMNS(out), as_size(n)));
    ACCEPTS(aql_truncate(SIZE_MAX, COLUMNS(none), COLUMNS(none), as_size(n)));
    expect("kept of nothing", said(n, 0), 0);
    ACCEPTS(aql_truncate(SIZE_MAX, COLUMNS(three), COLUMNS(out), as_size(n)));
    expect("kept", row_fill(out.informative, said(n, 0)), 3);
    row_fill(out.unconverted, 3);
    row_fill(out.converted, 3);
    expect("a kept yes", as_u8(out.informative)[2], 1);
    expect("a kept count", as_u32(out.unconverted)[2], 40000);
    KEPT("aql_truncate");
}

static void try_counts(void)
{
    struct columns none = some_columns(0), three = some_columns(3);
    struct row *two = row_of(sizeof(int16_t), 2), *out = row_of(sizeof(int16_t), 4), *no_room = row_of(sizeof(int16_t), 0);
    struct row *n = row_of(sizeof(size_t), 1);
    REFUSES(AQL_NO_ROOM, aql_unconverted_counts(COLUMNS(three), I16(two), as_size(n)));
    REFUSES(AQL_NO_ROOM, aql_converted_counts(COLUMNS(three), I16(no_room), as_size(n)));
    REFUSES(AQL_LENGTHS_DISAGREE, aql_converted_counts(U8(three.informative), U32(three.unconverted), U32(none.converted), I16(out), as_size(n)));
    ACCEPTS(aql_converted_counts(COLUMNS(none), I16(no_room), as_size(n)));
    expect("counts of nothing", said(n, 0), 0);
    ACCEPTS(aql_unconverted_counts(COLUMNS(none), I16(no_room), as_size(n)));
    expect("counts of nothing", said(n, 0), 0);
    ACCEPTS(aql_unconverted_counts(COLUMNS(three), I16(out), as_size(n)));
    expect("counts", row_fill(out, said(n, 0)), 3);
    expect("an unconverted count", (uint64_t)as_i16(out)[2], 32767);
    KEPT("aql_unconverted_counts");
    ACCEPTS(aql_converted_counts(COLUMNS(three), I16(out), as_size(n)));
    expect("counts", row_fill(out, said(n, 0)), 3);
    expect("a converted count", (uint64_t)as_i16(out)[2], 3);
    KEPT("aql_converted_counts");
}

static void try_restore(void)
{
    struct row *none = row_of(1, 0), *bases = row_text("tTA"), *marks = row_bytes(3, some_yes()), *n = row_of(sizeof(size_t), 1);
    REFUSES(AQL_LENGTHS_DISAGREE, aql_restore_unconverted_bases(U8(bases), 0, U8(none), as_size(n)));
    REFUSES(AQL_LENGTHS_DISAGREE, aql_restore_unconverted_bases(U8(none), 0, U8(marks), as_size(n)));
    ACCEPTS(aql_restore_unconverted_bases(U8(none), 0, U8(none), as_size(n)));
    expect("restored of nothing", said(n, 0), 0);
    ACCEPTS(aql_restore_unconverted_bases(U8(bases), 0xff7f, U8(marks), as_size(n)));
    expect_text("restored", bases, said(n, 0), "CCA");
    KEPT("aql_restore_unconverted_bases");
}

void try_evidence(void)
{
    static void (*const each[])(void) = {try_annotate, try_gate, try_truncate, try_counts, try_restore};
    size_t i;
    for (i = 0; i < sizeof each / sizeof *each; i++) {
        rows_begin(rows_turn());
        each[i]();
    }
}

/* ---- As many bases as the domain allows, and one more */

#define READS 4096u

/* Counts over reads of C on a reference of C; the number, and the first and the last count. */
static uint8_t count(size_t consensus, size_t reads, uint32_t each, size_t bases, size_t aligned, uint32_t wanted)
{
    struct row *lengths, *all, *yeses, *reference;
    struct columns out;
    struct row *n;
    uint8_t number;
    rows_begin(rows_turn());
    lengths = row_u32(reads, each);
    all = row_bytes(bases, 'C');
    yeses = row_bytes(aligned, some_yes());
    reference = row_bytes(AQL_MAX_SEQ, 'C');
    out = room_for(consensus < AQL_MAX_SEQ ? consensus : AQL_MAX_SEQ, NO_ONE);
    n = row_of(sizeof(size_t), 1);
    rows_lend();
    number = aql_annotate_simplex_methylation(consensus, U32(lengths), U8(all), U8(reference), 0, U8(yeses), 0, COLUMNS(out), as_size(n));
    if (number == AQL_DONE) {
        expect("positions of a large count", row_fill(out.informative, said(n, 0)), consensus);
        row_fill(out.unconverted, consensus);
        row_fill(out.converted, consensus);
        expect("the first count", as_u32(out.unconverted)[0], wanted);
        expect("the last count", as_u32(out.unconverted)[consensus - 1], wanted);
    }
    KEPT("a large count");
    return number;
}

void try_corners(void)
{
    const uint32_t most = AQL_MAX_READ_BASES;
    if (rows_turn() > 1)
        return;
    expect("4,096 reads of 256 bases", count(256, READS, 256, most, most, READS), AQL_DONE);
    expect("one base more", count(256, READS, 256, most + 1, most, 0), AQL_TOO_LONG);
    expect("one aligned byte more", count(256, READS, 256, most, most + 1, 0), AQL_TOO_LONG);
    expect("one read more", count(256, READS + 1, 256, most, most, 0), AQL_TOO_LONG);
    expect("one read less", count(256, READS - 1, 256, most, most, 0), AQL_LENGTHS_DISAGREE);
    expect("one read of all bases", count(AQL_MAX_SEQ, 1, most, most, most, 1), AQL_DONE);
    expect("a consensus one too long", count(AQL_MAX_SEQ + 1, 1, most, most, most, 0), AQL_TOO_LONG);
}
