/* Rows between untouchable pages and canaries; rows.h says why. */
#include "rows.h"

#define ROWS 48
#define PAGE 4096u
#define CANARIES 64u
/* Room for the longest row, which has one base more than all reads of a count may have, and for the canaries beside it. */
#define LONGEST (260u * PAGE)
#define SPAN (LONGEST + 2 * PAGE)

static struct row rows[ROWS];
static size_t taken;
static uint64_t turn;
static int passed; /* a length was larger than its row */
static uint8_t *spans;
static uint8_t *copies;

void stop(const char *message)
{
    write(STANDARD_ERROR, message, strlen(message));
    write(STANDARD_ERROR, "\n", 1);
    _exit(70);
}

static uint8_t *reserve(size_t n, int protection)
{
    void *at = mmap(NULL, n, protection, MAP_PRIVATE_ANONYMOUS, -1, 0);
    if (at == MAP_FAILED)
        stop("no memory for the rows");
    return at;
}

static void prepare(void)
{
    size_t i;
    spans = reserve((size_t)ROWS * SPAN, PROT_NONE);
    copies = reserve((size_t)ROWS * LONGEST, PROT_READ_WRITE);
    for (i = 0; i < ROWS; i++)
        if (mprotect(spans + i * SPAN + PAGE, LONGEST, PROT_READ_WRITE) != 0)
            stop("no untouchable pages");
}

void rows_begin(uint64_t number)
{
    if (spans == NULL)
        prepare();
    taken = 0;
    turn = number;
}

size_t rows_taken(void)
{
    return taken;
}

void rows_give_back(size_t kept)
{
    taken = kept;
}

uint64_t rows_turn(void)
{
    return turn;
}

uint8_t some_yes(void)
{
    static const uint8_t yes[4] = {1, 2, 128, 255};
    return yes[turn / 4 % 4];
}

static int page_is_before(void)
{
    return turn & 1;
}

static int empty_is_null(void)
{
    return turn & 2;
}

static uint8_t mark(size_t place)
{
    return (uint8_t)(place * 151 + 77);
}

static size_t size_of(const struct row *r)
{
    return r->n * r->width;
}

static uint8_t *canaries_of(const struct row *r)
{
    return page_is_before() ? r->bytes + size_of(r) : r->bytes - CANARIES;
}

static struct row *next_row(size_t width, size_t n)
{
    struct row *r = &rows[taken];
    if (taken == ROWS)
        stop("more rows than there is place for");
    if (n > (LONGEST - CANARIES) / width)
        stop("a row is longer than its place");
    r->width = width;
    r->n = n;
    r->filled = 0;
    r->in_page = 0;
    r->kept = copies + taken * LONGEST;
    r->bytes = spans + taken * SPAN + PAGE + (page_is_before() ? 0 : LONGEST - n * width);
    r->at = n == 0 && empty_is_null() ? NULL : r->bytes;
    taken++;
    return r;
}

struct row *row_of(size_t width, size_t n)
{
    struct row *r = next_row(width, n);
    size_t i;
    for (i = 0; i < size_of(r); i++)
        r->bytes[i] = mark(i);
    for (i = 0; i < CANARIES; i++)
        canaries_of(r)[i] = mark(i);
    return r;
}

struct row *row_in_page(size_t width)
{
    struct row *r = row_of(width, 0);
    if (!empty_is_null()) {
        r->n = 7;
        r->bytes = spans + (size_t)(r - rows) * SPAN;
        r->at = r->bytes;
        r->in_page = 1;
    }
    return r;
}

void rows_lend(void)
{
    size_t i;
    passed = 0;
    for (i = 0; i < taken; i++) {
        rows[i].filled = 0;
        if (!rows[i].in_page)
            memcpy(rows[i].kept, rows[i].bytes, size_of(&rows[i]));
    }
}

size_t row_fill(struct row *r, size_t n)
{
    if (n > r->n)
        passed = 1;
    r->filled = n > r->n ? r->n : n;
    return r->filled;
}

static int wrote(const struct row *r)
{
    size_t i, may = r->filled * r->width;
    for (i = 0; i < CANARIES; i++)
        if (canaries_of(r)[i] != mark(i))
            return 1;
    return memcmp(r->bytes + may, r->kept + may, size_of(r) - may) != 0;
}

int rows_wrote(void)
{
    size_t i;
    for (i = 0; i < taken; i++)
        if (!rows[i].in_page && wrote(&rows[i]))
            return 1;
    return passed;
}

static void *as(const struct row *r, size_t width)
{
    if (r->width != width)
        stop("a row is lent as entries of another width");
    return r->at;
}

uint8_t *as_u8(const struct row *r)
{
    return as(r, sizeof(uint8_t));
}

int16_t *as_i16(const struct row *r)
{
    return as(r, sizeof(int16_t));
}

uint32_t *as_u32(const struct row *r)
{
    return as(r, sizeof(uint32_t));
}

int64_t *as_i64(const struct row *r)
{
    return as(r, sizeof(int64_t));
}

size_t *as_size(const struct row *r)
{
    return as(r, sizeof(size_t));
}
