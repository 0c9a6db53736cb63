/* The exports that take and return single numbers, for every byte, mode and flag; and the CpG context. */
#include "exports.h"

static uint8_t upper(unsigned b)
{
    return (uint8_t)('a' <= b && b <= 'z' ? b - 32 : b);
}

static void try_bytes(void)
{
    unsigned a, b;
    for (a = 0; a < 256; a++) {
        expect("aql_to_ascii_uppercase", aql_to_ascii_uppercase((uint8_t)a), upper(a));
        for (b = 0; b < 256; b++)
            expect("aql_eq_ignore_ascii_case", aql_eq_ignore_ascii_case((uint8_t)a, (uint8_t)b), upper(a) == upper(b));
    }
}

static void try_patterns(void)
{
    struct row *bases = row_of(1, 3);
    uint8_t *three = as_u8(bases);
    unsigned flags;
    for (flags = 0; flags < 65536; flags++) {
        int g = (flags & 0x80u) != 0;
        expect("aql_pattern_from_read_flags", aql_pattern_from_read_flags((uint16_t)flags), g);
        expect("aql_pattern_letter", aql_pattern_letter((uint16_t)flags), g ? 'G' : 'C');
        expect("aql_pattern_sign", aql_pattern_sign((uint16_t)flags), g ? '-' : '+');
        rows_lend();
        aql_pattern_bases((uint16_t)flags, three, three + 1, three + 2);
        expect_text("aql_pattern_bases", bases, 3, g ? "GGA" : "CCT");
        KEPT("aql_pattern_bases");
    }
}

static void try_modes(void)
{
    struct row *enabled = row_of(1, 1);
    unsigned mode;
    REFUSES(AQL_BAD_NUMBER, aql_mode_is_enabled(255, as_u8(enabled)));
    for (mode = 3; mode < 256; mode++)
        REFUSES(AQL_BAD_NUMBER, aql_mode_is_enabled((uint8_t)mode, as_u8(enabled)));
    for (mode = 0; mode < 3; mode++) {
        ACCEPTS(aql_mode_is_enabled((uint8_t)mode, as_u8(enabled)));
        expect("aql_mode_is_enabled", as_u8(enabled)[0], mode != AQL_MODE_DISABLED);
        row_fill(enabled, 1);
        KEPT("aql_mode_is_enabled");
    }
}

/* One more than a count, and at most the largest count. */
static uint32_t raised(uint32_t count, int by_one)
{
    return by_one && count < UINT32_MAX ? count + 1 : count;
}

static void try_counted(uint16_t flags, uint32_t from)
{
    struct row *unconverted = row_u32(1, from), *converted = row_u32(1, from);
    uint32_t *u = as_u32(unconverted), *c = as_u32(converted);
    unsigned base;
    for (base = 0; base < 256; base++) {
        *u = *c = from;
        rows_lend();
        aql_evidence_counted((uint8_t)base, flags, u, c);
        expect("aql_evidence_counted, unconverted", *u, raised(from, upper(base) == (flags & 0x80u ? 'G' : 'C')));
        expect("aql_evidence_counted, converted", *c, raised(from, upper(base) == (flags & 0x80u ? 'A' : 'T')));
        row_fill(unconverted, 1);
        row_fill(converted, 1);
        KEPT("aql_evidence_counted");
    }
}

static void try_position(void)
{
    struct row *unconverted = row_u32(1, 0), *converted = row_u32(1, 0);
    uint32_t *u = as_u32(unconverted), *c = as_u32(converted);
    unsigned informative;
    for (informative = 0; informative < 256; informative++) {
        *u = 7;
        *c = UINT32_MAX;
        rows_lend();
        aql_evidence_gated((uint8_t)informative, u, c);
        expect("aql_evidence_gated, unconverted", *u, informative ? 7 : 0);
        expect("aql_evidence_gated, converted", *c, informative ? UINT32_MAX : 0);
        expect("aql_evidence_new", aql_evidence_new((uint8_t)informative, u, c), informative != 0);
        expect("aql_evidence_new, unconverted", *u, 0);
        expect("aql_evidence_new, converted", *c, 0);
        row_fill(unconverted, 1);
        row_fill(converted, 1);
        KEPT("aql_evidence_gated and aql_evidence_new");
    }
}

static void try_cpg(void)
{
    struct row *none = row_of(1, 0), *reference = row_text("aCg");
    expect("aql_is_cpg_context of NULL", aql_is_cpg_context(U8(none), 0, some_yes()), 0);
    expect("aql_is_cpg_context of NULL", aql_is_cpg_context(U8(none), SIZE_MAX, 0), 0);
    expect("aql_is_cpg_context, top", aql_is_cpg_context(U8(reference), 1, some_yes()), 1);
    expect("aql_is_cpg_context, bottom", aql_is_cpg_context(U8(reference), 2, 0), 1);
    expect("aql_is_cpg_context, the last base", aql_is_cpg_context(U8(reference), 2, some_yes()), 0);
    expect("aql_is_cpg_context, the first base", aql_is_cpg_context(U8(reference), 0, 0), 0);
    expect("aql_is_cpg_context, past the end", aql_is_cpg_context(U8(reference), SIZE_MAX, some_yes()), 0);
    expect("aql_is_cpg_context, past the end", aql_is_cpg_context(U8(reference), SIZE_MAX, 0), 0);
}

void try_small(void)
{
    try_bytes();
    try_patterns();
    try_modes();
    try_counted(0, 0);
    try_counted(0x80, 5);
    try_counted(0xffff, UINT32_MAX);
    try_counted(0xff7f, UINT32_MAX - 1);
    try_position();
    try_cpg();
}
