/* `exports`: calls every export of the C library's two archives in the ways that only C can: rows that are NULL, each output by itself one entry too short,
 * numbers that no enum or Bool of Rattle could hold, and as many bases as the domain allows. An untouchable page is next to each row, behind it in one
 * turn and before it in the next. tools/run-exports builds and starts the program; its last line says how many checks were made.
 */
#include "exports.h"

static uint64_t expected;
static int unexpected;

void expect(const char *what, uint64_t got, uint64_t wanted)
{
    expected++;
    if (got == wanted)
        return;
    unexpected = 1;
    reply_begin();
    add_text(what);
    add_text(": ");
    add_decimal(got);
    add_text(" and not ");
    add_decimal(wanted);
    add_text(", in turn ");
    add_decimal(rows_turn());
    reply_end();
}

void expect_text(const char *what, struct row *r, size_t n, const char *wanted)
{
    expect(what, n, strlen(wanted));
    expect(what, row_fill(r, n) == strlen(wanted) && memcmp(r->bytes, wanted, r->filled) == 0, 1);
}

struct row *row_text(const char *text)
{
    struct row *r = row_of(1, strlen(text));
    memcpy(r->bytes, text, r->n);
    return r;
}

struct row *row_bytes(size_t n, uint8_t each)
{
    struct row *r = row_of(1, n);
    memset(r->bytes, each, n);
    return r;
}

struct row *row_u32(size_t n, uint32_t each)
{
    struct row *r = row_of(sizeof each, n);
    size_t i;
    for (i = 0; i < n; i++)
        memcpy(r->bytes + i * sizeof each, &each, sizeof each);
    return r;
}

struct row *row_sizes(size_t n, const size_t *sizes)
{
    struct row *r = row_of(sizeof *sizes, n);
    memcpy(r->bytes, sizes, n * sizeof *sizes);
    return r;
}

size_t said(struct row *sizes, size_t k)
{
    sizes->filled = sizes->n;
    return as_size(sizes)[k];
}

void edited_rooms(struct edited *enough, struct edited *short_mm, struct edited *short_ml)
{
    enough->mm = row_of(1, 7);
    enough->ml = row_of(1, 1);
    enough->mm_len = row_of(sizeof(size_t), 1);
    enough->ml_len = row_of(sizeof(size_t), 1);
    *short_mm = *short_ml = *enough;
    short_mm->mm = row_of(1, 6);
    short_ml->ml = row_of(1, 0);
}

void edited_as(const char *call, struct edited e, const char *mm, const char *ml)
{
    expect_text(call, e.mm, said(e.mm_len, 0), mm);
    expect_text(call, e.ml, said(e.ml_len, 0), ml);
    expect("bytes changed by an edit", (uint64_t)rows_wrote(), 0);
}

void stepped_as(const char *step, struct row *mm, struct row *ml, struct row *lengths, const char *mm_then, const char *ml_then)
{
    expect_text(step, mm, said(lengths, AQL_SESSION_MM), mm_then);
    if (ml_then != NULL)
        expect_text(step, ml, said(lengths, AQL_SESSION_ML), ml_then);
    expect("bytes changed past what a step left", (uint64_t)rows_wrote(), 0);
}

struct columns columns_of(size_t n, uint32_t unconverted, uint32_t converted)
{
    struct columns c;
    c.informative = row_bytes(n, some_yes());
    c.unconverted = row_u32(n, unconverted);
    c.converted = row_u32(n, converted);
    return c;
}

static void on_touch(int number)
{
    (void)number;
    reply_abandon();
    stop("exports: a call touched a byte outside its rows");
}

int main(void)
{
    static void (*const tries[])(void) = {try_small,   try_alignment,  try_evidence,       try_building,         try_reading,        try_rewriting,
                                          try_session, try_transcript, try_stored_reading, try_stored_rewriting, try_stored_session, try_records,
                                          try_corners};
    uint64_t turn;
    size_t i;
    signal(SIGSEGV, on_touch);
    signal(SIGBUS, on_touch);
    for (i = 0; i < sizeof tries / sizeof *tries; i++)
        for (turn = 0; turn < 16; turn++) {
            rows_begin(turn);
            tries[i]();
        }
    add_decimal(expected);
    add_text(unexpected ? " expectations, not all met" : " expectations, all met");
    reply_end();
    reply_flush();
    return unexpected;
}
