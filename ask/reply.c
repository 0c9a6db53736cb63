/* Makes the line that answers a request, and writes it out. */
#include "reply.h"
#include "aquiledru.h"

#define LINES (8u << 20)
/* More than the longest answer needs. */
#define LONGEST_LINE (4u << 20)

static char lines[LINES];
static size_t used;
static size_t ended; /* bytes of whole lines */

void reply_flush(void)
{
    size_t done = 0;
    while (done < used) {
        long n = write(STANDARD_OUTPUT, lines + done, used - done);
        if (n <= 0)
            stop("the answers can't be written");
        done += (size_t)n;
    }
    used = 0;
    ended = 0;
}

void reply_abandon(void)
{
    used = ended;
    reply_flush();
}

void reply_end(void)
{
    add_character('\n');
    ended = used;
}

void reply_begin(void)
{
    if (LINES - used < LONGEST_LINE)
        reply_flush();
}

void add_character(char character)
{
    if (used == LINES)
        stop("an answer is longer than its place");
    lines[used++] = character;
}

void add_text(const char *text)
{
    while (*text)
        add_character(*text++);
}

void add_tab(void)
{
    add_character('\t');
}

void add_decimal(uint64_t n)
{
    char digits[20];
    size_t k = 0;
    do {
        digits[k++] = (char)('0' + n % 10);
        n /= 10;
    } while (n > 0);
    while (k > 0)
        add_character(digits[--k]);
}

static void add_hex(uint8_t byte)
{
    static const char digits[] = "0123456789abcdef";
    add_character(digits[byte >> 4]);
    add_character(digits[byte & 15]);
}

static void add_bytes(const uint8_t *bytes, size_t n)
{
    size_t i;
    if (n == 0)
        add_character('.');
    for (i = 0; i < n; i++)
        add_hex(bytes[i]);
}

/* Adds entry i of a row. */
typedef void add_entry(const struct row *r, size_t i);

static void put_list(struct row *r, size_t n, add_entry *add)
{
    size_t i, all = row_fill(r, n);
    add_tab();
    if (all == 0)
        add_character('*');
    for (i = 0; i < all; i++) {
        if (i > 0)
            add_character(',');
        add(r, i);
    }
}

int answered(uint8_t number)
{
    add_decimal(number);
    return number == AQL_DONE;
}

void put_bytes(struct row *r, size_t n)
{
    add_tab();
    add_bytes(r->bytes, row_fill(r, n));
}

void put_whole(struct row *r, size_t n)
{
    row_fill(r, n);
    add_tab();
    add_bytes(r->bytes, r->n);
}

void put_text_or_dash(struct row *r, size_t n)
{
    if (n == 0)
        put_dash();
    else
        put_bytes(r, n);
}

static void add_signed(int64_t n)
{
    if (n < 0)
        add_character('-');
    add_decimal(n < 0 ? 0 - (uint64_t)n : (uint64_t)n);
}

static void add_count(const struct row *r, size_t i)
{
    add_decimal(as_u32(r)[i]);
}

static void add_tag_count(const struct row *r, size_t i)
{
    add_signed(as_i16(r)[i]);
}

static void add_position(const struct row *r, size_t i)
{
    if (as_i64(r)[i] == AQL_MISSING_PLACE)
        add_character('-');
    else
        add_signed(as_i64(r)[i]);
}

static void add_reference_base(const struct row *r, size_t i)
{
    if (as_u8(r)[i] == 0)
        add_character('-');
    else
        add_hex(as_u8(r)[i]);
}

static void add_size(const struct row *r, size_t i)
{
    add_decimal(as_size(r)[i]);
}

void put_counts(struct row *r, size_t n)
{
    put_list(r, n, add_count);
}

void put_tag_counts(struct row *r, size_t n)
{
    put_list(r, n, add_tag_count);
}

void put_positions(struct row *r, size_t n)
{
    put_list(r, n, add_position);
}

void put_reference(struct row *r, size_t n)
{
    put_list(r, n, add_reference_base);
}

void put_sizes(struct row *r, size_t n)
{
    put_list(r, n, add_size);
}

void put_yes_bytes(const uint8_t *bytes, size_t n)
{
    size_t i;
    add_tab();
    if (n == 0)
        add_character('.');
    for (i = 0; i < n; i++)
        add_hex(bytes[i] != 0);
}

void put_size(size_t n)
{
    add_tab();
    add_decimal(n);
}

void put_dash(void)
{
    add_tab();
    add_character('-');
}

void put_letter(char letter)
{
    add_tab();
    add_character(letter);
}
