/* Whole BAM records: rows that are NULL, records that end before what they state, numbers of 32 and 64 bits above every bound, a room one byte too short,
 * which of several numbers is returned, and inputs as long as the domain allows. */
#include "aquiledru_record.h"
#include "exports.h"

/* ---- Records */

#define FIXED 32u
#define NAME 2u
#define REVERSE 0x10u

/* The front of a record: its fixed part, which states so many bases, and its name. The other bytes are those of row_of. */
static uint8_t *put_front(uint8_t *at, uint32_t bases, uint16_t flag)
{
    static const uint8_t name[NAME] = {'r', 0};
    const uint16_t words = 0;
    at[8] = NAME;
    memcpy(at + 12, &words, sizeof words);
    memcpy(at + 14, &flag, sizeof flag);
    memcpy(at + 16, &bases, sizeof bases);
    memcpy(at + FIXED, name, NAME);
    return at + FIXED + NAME;
}

/* Three bases GTG, that is CAC in read orientation of a reverse record; a spare half of f; and qualities. */
#define GTG "\x48\x4f" "qqq"
#define GTG_SIZE (sizeof GTG - 1)

/* A record of these three bases with these fields. */
static struct row *record_of(uint16_t flag, const char *fields, size_t n)
{
    struct row *r = row_of(1, FIXED + NAME + GTG_SIZE + n);
    uint8_t *at = put_front(r->bytes, 3, flag);
    memcpy(at, GTG, GTG_SIZE);
    memcpy(at + GTG_SIZE, fields, n);
    return r;
}

/* The fields of a text. Its last NUL is C's own, and belongs to none of them. */
#define RECORD(flag, fields) record_of(flag, fields, sizeof(fields) - 1)

#define FIRST "XXCx"
#define MM(text) "MMZ" text "\0"
#define ML2 "MLBC\2\0\0\0" "ab"
#define ML1(value) "MLBC\1\0\0\0" value
#define LAST "YYZ\0"
#define MN3 "MNC\3"
#define FULL FIRST MN3 MM("C+m?,0,0;") ML2 "amZC+a?,1;\0" LAST

/* The rows that a new record goes to, and the arguments that a call takes for them. */
struct answer {
    struct row *out, *out_len, *went;
};
#define OUT_OF(a) U8((a).out), as_size((a).out_len), as_size((a).went)

static struct answer answer_of(size_t room)
{
    struct answer a;
    a.out = row_of(1, room);
    a.out_len = row_of(sizeof(size_t), 1);
    a.went = row_of(sizeof(size_t), 1);
    return a;
}

static struct answer with_room(struct answer a, size_t room)
{
    a.out = row_of(1, room);
    return a;
}

/* Checks the new record: the old one's bytes up to its fields, then these fields; and that nothing else was written. */
static void became(const char *call, struct answer a, struct row *old, size_t went, const char *fields, size_t n)
{
    const size_t front = FIXED + NAME + GTG_SIZE, length = said(a.out_len, 0);
    expect(call, said(a.went, 0), went);
    expect(call, length, front + n);
    expect(call, row_fill(a.out, length) == front + n && memcmp(a.out->bytes, old->bytes, front) == 0 && memcmp(a.out->bytes + front, fields, n) == 0, 1);
    expect("bytes changed by a call on a record", (uint64_t)rows_wrote(), 0);
}
#define SIZE_WITH(fields) (FIXED + NAME + GTG_SIZE + sizeof(fields) - 1)
#define BECAME(call, a, old, went, fields) became(call, a, old, went, fields, sizeof(fields) - 1)

#define MASK(r, before, a) aql_mask_record(U8(r), U8(before), OUT_OF(a))
#define DROP(r, places, a) aql_drop_record(U8(r), U32(places), OUT_OF(a))
#define CUT(r, before, reverse, known, start, a) aql_cut_record(U8(r), U8(before), reverse, known, start, OUT_OF(a))

/* Every call refuses the record with this number. */
static void all_refuse(uint8_t number, struct row *r, struct row *before, struct row *places, struct answer a)
{
    REFUSES(number, MASK(r, before, a));
    REFUSES(number, DROP(r, places, a));
    REFUSES(number, CUT(r, before, some_yes(), some_yes(), 0, a));
    REFUSES(number, CUT(r, before, 0, 0, SIZE_MAX, a));
}

/* ---- Refusals */

/* 14 comes before every other number, 15 before 1 and 12, and 1 before 12: `before` is too long, and there is no room. */
static void try_short(void)
{
    struct row *none = row_of(1, 0), *no_places = row_of(sizeof(uint32_t), 0), *fixed = row_of(1, FIXED - 1), *bare = row_of(1, FIXED);
    struct row *stated = row_of(1, 40), *whole = RECORD(0, ""), *cut_off = row_of(1, whole->n - 1), *words = row_of(1, 40);
    struct row *too_long = row_bytes(AQL_RECORD_MAX_SEQ + 1, 'A'), *places = row_u32(1, 0);
    struct answer a = answer_of(400), no_room = with_room(a, 0), short_of_it = with_room(a, FIXED - 1);
    uint16_t many = UINT16_MAX;
    put_front(stated->bytes, UINT32_MAX, 0);
    memcpy(cut_off->bytes, whole->bytes, cut_off->n);
    memset(bare->bytes, 0, bare->n);
    put_front(words->bytes, 0, 0);
    memcpy(words->bytes + 12, &many, sizeof many);
    all_refuse(AQL_RECORD_SHORT, none, none, no_places, a);
    all_refuse(AQL_RECORD_SHORT, none, none, no_places, no_room);
    all_refuse(AQL_RECORD_SHORT, fixed, none, places, a);
    all_refuse(AQL_RECORD_SHORT, fixed, too_long, no_places, no_room);
    all_refuse(AQL_RECORD_SHORT, stated, none, places, a);
    all_refuse(AQL_RECORD_SHORT, stated, too_long, places, no_room);
    all_refuse(AQL_RECORD_SHORT, words, none, places, a);
    all_refuse(AQL_RECORD_SHORT, cut_off, none, places, no_room);
    /* no name, no base: all that is left is the fixed part */
    ACCEPTS(MASK(bare, none, a));
    expect("the length of a bare record", row_fill(a.out, said(a.out_len, 0)), FIXED);
    expect("no field of a bare record", said(a.went, 0), 0);
    expect("a bare record", memcmp(a.out->bytes, bare->bytes, FIXED), 0);
    KEPT("aql_mask_record of a bare record");
    all_refuse(AQL_RECORD_NO_ROOM, bare, none, no_places, short_of_it);
}

static void refuse_fields(const char *fields, size_t n)
{
    struct row *r, *none, *too_long, *places;
    struct answer a, no_room;
    rows_begin(rows_turn());
    r = record_of(REVERSE, fields, n);
    none = row_of(1, 0);
    too_long = row_bytes(AQL_RECORD_MAX_SEQ + 1, 'A');
    places = row_u32(1, 0);
    a = answer_of(r->n + AQL_RECORD_GROWTH);
    no_room = with_room(a, 0);
    all_refuse(AQL_RECORD_BAD_FIELDS, r, none, places, a);
    all_refuse(AQL_RECORD_BAD_FIELDS, r, too_long, places, no_room);
}
#define REFUSE_FIELDS(fields) refuse_fields(fields, sizeof(fields) - 1)

static void try_fields(void)
{
    REFUSE_FIELDS("M");
    REFUSE_FIELDS("MM");
    REFUSE_FIELDS("XXC");
    REFUSE_FIELDS("XXi\1\1\1");
    REFUSE_FIELDS("XXQ\0\0\0\0\0\0\0\0");
    REFUSE_FIELDS("XX\0\0");
    REFUSE_FIELDS("XXd\0\0\0\0\0\0\0\0");
    REFUSE_FIELDS(FIRST "MMZC+m?,0;");
    REFUSE_FIELDS("XXH");
    REFUSE_FIELDS("XXB");
    REFUSE_FIELDS("XXBC\0\0\0");
    REFUSE_FIELDS("XXBC\2\0\0\0a");
    REFUSE_FIELDS("XXBA\0\0\0\0");
    REFUSE_FIELDS("XXBA\1\0\0\0a");
    REFUSE_FIELDS("XXBZ\0\0\0\0");
    REFUSE_FIELDS("XXBI\xff\xff\xff\xff" "abcd");
    REFUSE_FIELDS("XXBI\1\0\0\x40" "abcd");
    REFUSE_FIELDS("XXBs\0\0\0\x80");
    REFUSE_FIELDS(FULL "X");
}

/* A record with this field, which is one longer than the domain allows. Nothing would be edited, and there is no room; so 1 comes before 12. */
static void refuse_long(const char *field, size_t front, size_t n, int ended)
{
    struct row *r, *none, *no_places;
    uint8_t *at;
    rows_begin(rows_turn());
    r = row_of(1, FIXED + NAME + front + n + (size_t)ended);
    none = row_of(1, 0);
    no_places = row_of(sizeof(uint32_t), 0);
    at = put_front(r->bytes, 0, 0);
    memcpy(at, field, front);
    memset(at + front, ';', n);
    if (ended)
        at[front + n] = 0;
    all_refuse(AQL_RECORD_TOO_LONG, r, none, no_places, answer_of(r->n + AQL_RECORD_GROWTH));
    all_refuse(AQL_RECORD_TOO_LONG, r, none, no_places, answer_of(0));
}

static void try_long(void)
{
    struct row *r = RECORD(REVERSE, FULL), *too_long = row_bytes(AQL_RECORD_MAX_SEQ + 1, 'A'), *seq, *none = row_of(1, 0);
    struct row *no_places = row_of(sizeof(uint32_t), 0);
    struct answer a = answer_of(r->n + AQL_RECORD_GROWTH), no_room = with_room(a, 0);
    REFUSES(AQL_RECORD_TOO_LONG, MASK(r, too_long, a));
    REFUSES(AQL_RECORD_TOO_LONG, MASK(r, too_long, no_room));
    REFUSES(AQL_RECORD_TOO_LONG, CUT(r, too_long, 0, some_yes(), 0, a));
    REFUSES(AQL_RECORD_TOO_LONG, CUT(r, too_long, some_yes(), 0, SIZE_MAX, no_room));
    seq = row_bytes(FIXED + NAME + (AQL_RECORD_MAX_SEQ + 2) / 2 + AQL_RECORD_MAX_SEQ + 1, 0x11);
    put_front(seq->bytes, AQL_RECORD_MAX_SEQ + 1, 0);
    all_refuse(AQL_RECORD_TOO_LONG, seq, none, no_places, no_room);
    refuse_long("MMZ", 3, AQL_RECORD_MAX_MM + 1, 1);
    refuse_long("amZ", 3, AQL_RECORD_MAX_MM + 1, 1);
    refuse_long("bmZ", 3, AQL_RECORD_MAX_MM + 1, 1);
    refuse_long("MLBC\1\0\1\0", 8, AQL_RECORD_MAX_MM + 1, 0);
}

/* ---- Answers, each with a room that is exactly enough, and one that is a byte short */

#define MASKED FIRST MN3 MM("C+m?,0;") ML1("b") "amZC+a?,0;\0" LAST
#define DROPPED FIRST MN3 MM("C+m?,1;") ML1("b") "amZC+a?,1;\0" LAST
#define GONE FIRST LAST

static void try_mask(void)
{
    struct row *r = RECORD(REVERSE, FULL), *before = row_text("GTG"), *none = row_of(1, 0), *longer = row_text("GTGG");
    struct answer a = answer_of(SIZE_WITH(MASKED)), one_short = with_room(a, a.out->n - 1), no_room = with_room(a, 0);
    struct answer ample = with_room(a, r->n + AQL_RECORD_GROWTH);
    /* the last base as stored, the first one in read orientation */
    r->bytes[FIXED + NAME + 1] = 0xff;
    REFUSES(AQL_RECORD_NO_ROOM, MASK(r, before, no_room));
    REFUSES(AQL_RECORD_NO_ROOM, MASK(r, before, one_short));
    ACCEPTS(MASK(r, before, ample));
    BECAME("a mask with ample room", ample, r, 0, MASKED);
    ACCEPTS(MASK(r, before, a));
    BECAME("a mask", a, r, 0, MASKED);
    ACCEPTS(MASK(r, none, a));
    BECAME("a mask of nothing before", a, r, 1, GONE);
    ACCEPTS(MASK(r, longer, a));
    BECAME("a mask of more bases before", a, r, 1, GONE);
}

static void try_drop(void)
{
    struct row *r = RECORD(REVERSE, FULL), *places = row_u32(3, UINT32_MAX), *past = row_u32(2, 3), *none = row_of(sizeof(uint32_t), 0);
    struct row *unmarked = RECORD(REVERSE, FIRST MN3 MM("C+m,0,0;") ML2 "amZC+a?,1;\0" LAST);
    struct answer a = answer_of(SIZE_WITH(DROPPED)), one_short = with_room(a, a.out->n - 1), no_room = with_room(a, 0);
    struct answer same = with_room(a, r->n), short_of_same = with_room(a, r->n - 1);
    as_u32(places)[1] = 2;
    REFUSES(AQL_RECORD_NO_ROOM, DROP(r, places, no_room));
    REFUSES(AQL_RECORD_NO_ROOM, DROP(r, places, one_short));
    REFUSES(AQL_RECORD_NO_ROOM, DROP(r, none, short_of_same));
    ACCEPTS(DROP(r, places, a));
    BECAME("a drop", a, r, 0, DROPPED);
    ACCEPTS(DROP(r, past, same));
    BECAME("a drop past the end", same, r, 0, FULL);
    ACCEPTS(DROP(r, none, same));
    BECAME("a drop of nothing", same, r, 0, FULL);
    ACCEPTS(DROP(unmarked, places, a));
    BECAME("a drop without a mark", a, unmarked, 1, FIRST "amZC+a?,1;\0" LAST);
}

/* SEQ was GTGA as stored, TCAC in read orientation, and lost its last base: MN of one byte becomes one of four. */
#define WAS_FULL FIRST "MNC\4" MM("C+m?,0,0;") ML2 LAST
#define CUT_FULL FIRST "MNi\3\0\0\0" MM("C+m?,0,0;") ML2 LAST

static void try_cut(void)
{
    struct row *r = RECORD(REVERSE, WAS_FULL), *before = row_text("GTGA"), *same = row_text("GTG"), *none = row_of(1, 0), *seq_now = RECORD(REVERSE, FULL);
    struct row *turned = RECORD(0, FULL), *cac = row_text("CAC");
    struct answer a = answer_of(r->n + AQL_RECORD_GROWTH), one_short = with_room(a, a.out->n - 1), no_room = with_room(a, 0);
    struct answer as_it_came = with_room(a, r->n), whole = with_room(a, seq_now->n);
    uint8_t yes = some_yes();
    REFUSES(AQL_RECORD_NO_ROOM, CUT(r, before, yes, yes, 0, no_room));
    REFUSES(AQL_RECORD_NO_ROOM, CUT(r, before, yes, yes, 0, as_it_came));
    REFUSES(AQL_RECORD_NO_ROOM, CUT(r, before, yes, yes, 0, one_short));
    ACCEPTS(CUT(r, before, yes, yes, 0, a));
    BECAME("a cut", a, r, 0, CUT_FULL);
    ACCEPTS(CUT(r, before, yes, 0, 0, a));
    BECAME("a cut from an unknown start", a, r, 1, GONE);
    ACCEPTS(CUT(r, before, yes, yes, 1, a));
    BECAME("a cut from another start", a, r, 1, GONE);
    ACCEPTS(CUT(r, before, yes, yes, SIZE_MAX, a));
    BECAME("a cut from the last number", a, r, 1, GONE);
    ACCEPTS(CUT(r, before, yes, yes, SIZE_MAX - 2, a));
    BECAME("a cut from nearly the last number", a, r, 1, GONE);
    ACCEPTS(CUT(r, before, 0, yes, 0, a));
    BECAME("a cut of a record that was forward", a, r, 1, GONE);
    ACCEPTS(CUT(r, same, yes, yes, 0, a));
    BECAME("a cut that MN doesn't fit", a, r, 1, GONE);
    ACCEPTS(CUT(r, none, yes, yes, 0, a));
    BECAME("a cut from nothing", a, r, 1, GONE);
    ACCEPTS(CUT(seq_now, same, yes, 0, SIZE_MAX, whole));
    BECAME("no cut", whole, seq_now, 0, FULL);
    ACCEPTS(CUT(turned, cac, yes, 0, SIZE_MAX, whole));
    BECAME("no cut, and turned", whole, turned, 0, FULL);
}

/* As many bases, bytes of MM and values of ML as the domain allows, in one record: a group on N with a skip of no base for each value. */
static void try_largest_record(void)
{
    enum { CALLS = AQL_RECORD_MAX_SEQ, HEADER = 4 };
    size_t front = FIXED + NAME + CALLS / 2 + CALLS, text = AQL_RECORD_MAX_MM, ml = CALLS, i;
    struct row *r = row_bytes(front + 3 + text + 1 + 8 + ml, 0x11), *before = row_bytes(CALLS, 'A'), *places = row_u32(1, CALLS - 1);
    struct answer a = answer_of(r->n);
    uint32_t count = CALLS;
    uint8_t *at = put_front(r->bytes, CALLS, 0) + CALLS / 2 + CALLS;
    memcpy(at, "MMZN+m?", 3 + HEADER);
    at += 3 + HEADER;
    /* every entry is ",0", with leading zeros in the first to fill the text */
    *at++ = ',';
    memset(at, '0', text - HEADER - 2 * CALLS);
    at += text - HEADER - 2 * CALLS;
    for (i = 1; i < CALLS; i++, at += 2)
        memcpy(at, ",0", 2);
    memcpy(at, ";", 2);
    memcpy(at + 2, "MLBC", 4);
    memcpy(at + 6, &count, sizeof count);
    r->bytes[front - CALLS - 1] = 0x1f;
    ACCEPTS(MASK(r, before, a));
    expect("a masked base of a group on N loses no call", said(a.out_len, 0), front + 3 + HEADER + 2 * CALLS + 2 + 8 + ml);
    expect("no tag of the largest record goes", said(a.went, 0), 0);
    row_fill(a.out, said(a.out_len, 0));
    KEPT("aql_mask_record of 16,000 bases");
    ACCEPTS(DROP(r, places, a));
    expect("a dropped call is one entry and one value", said(a.out_len, 0), front + 3 + HEADER + 2 * CALLS + 8 + ml - 1);
    expect("no tag of the largest record goes", said(a.went, 0), 0);
    row_fill(a.out, said(a.out_len, 0));
    KEPT("aql_drop_record of 16,000 bases");
    ACCEPTS(CUT(r, before, 0, 0, SIZE_MAX, a));
    expect("a cut to the same length is a mask", said(a.out_len, 0), front + 3 + HEADER + 2 * CALLS + 2 + 8 + ml);
    expect("no tag of the largest record goes", said(a.went, 0), 0);
    row_fill(a.out, said(a.out_len, 0));
    KEPT("aql_cut_record of 16,000 bases");
}

void try_records(void)
{
    static void (*const parts[])(void) = {try_short, try_fields, try_long, try_mask, try_drop, try_cut, try_largest_record};
    size_t i;
    for (i = 0; i < sizeof parts / sizeof *parts; i++) {
        rows_begin(rows_turn());
        parts[i]();
    }
}
