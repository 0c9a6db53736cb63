/* Reads the fields of a request into rows; request.h says what each function reads. */
#include "request.h"

static struct field field_of(struct request *q, size_t k)
{
    struct field none = {NULL, 0};
    if (k < q->count)
        return q->fields[k];
    q->malformed = 1;
    return none;
}

int field_is(const struct request *q, size_t k, char character)
{
    return k < q->count && q->fields[k].n == 1 && q->fields[k].at[0] == (uint8_t)character;
}

int field_begins(const struct request *q, size_t k, const char *word)
{
    return k < q->count && q->fields[k].n >= strlen(word) && memcmp(q->fields[k].at, word, strlen(word)) == 0;
}

int field_spells(const struct request *q, size_t k, const char *word)
{
    return field_begins(q, k, word) && q->fields[k].n == strlen(word);
}

/* ---- Numbers */

/* Reads a plain decimal of at most `largest`, with any number of leading zeros. */
static int decimal(struct field f, uint64_t largest, uint64_t *value)
{
    size_t i;
    uint64_t n = 0;
    for (i = 0; i < f.n; i++) {
        uint64_t digit = (uint64_t)f.at[i] - '0';
        if (digit > 9 || n > UINT64_MAX / 10 || digit > UINT64_MAX - 10 * n)
            return 0;
        n = 10 * n + digit;
    }
    *value = n;
    return f.n > 0 && n <= largest;
}

static int signed_decimal(struct field f, int64_t *value)
{
    uint64_t n;
    if (f.n > 0 && f.at[0] == '-') {
        struct field digits = {f.at + 1, f.n - 1};
        if (!decimal(digits, (uint64_t)INT64_MAX + 1, &n))
            return 0;
        *value = n == 0 ? 0 : -(int64_t)(n - 1) - 1;
        return 1;
    }
    if (!decimal(f, INT64_MAX, &n))
        return 0;
    *value = (int64_t)n;
    return 1;
}

uint64_t read_number(struct request *q, size_t k, uint64_t largest)
{
    uint64_t n = 0;
    if (!decimal(field_of(q, k), largest, &n))
        q->malformed = 1;
    return n;
}

int64_t read_signed(struct request *q, size_t k)
{
    int64_t n = 0;
    if (!signed_decimal(field_of(q, k), &n))
        q->malformed = 1;
    return n;
}

uint8_t read_yes(struct request *q, size_t k)
{
    if (field_is(q, k, '1'))
        return some_yes();
    if (!field_is(q, k, '0'))
        q->malformed = 1;
    return 0;
}

/* Bits that a call must ignore; they differ from turn to turn. */
static uint16_t other_bits(void)
{
    return (uint16_t)(rows_turn() * 40503u);
}

uint16_t read_pattern(struct request *q, size_t k)
{
    if (field_is(q, k, 'G'))
        return other_bits() | 0x80u;
    if (!field_is(q, k, 'C'))
        q->malformed = 1;
    return other_bits() & (uint16_t)~0x80u;
}

uint8_t read_mode(struct request *q, size_t k)
{
    if (field_is(q, k, 'E'))
        return AQL_MODE_EM_SEQ;
    if (field_is(q, k, 'T'))
        return AQL_MODE_TAPS;
    if (!field_is(q, k, 'D'))
        q->malformed = 1;
    return AQL_MODE_DISABLED;
}

/* ---- Bytes */

static int nibble(uint8_t character)
{
    if ('0' <= character && character <= '9')
        return character - '0';
    return 'a' <= character && character <= 'f' ? character - 'a' + 10 : -1;
}

/* The number of bytes that the hex of a field stands for. */
static size_t byte_count(struct field f)
{
    return f.n == 1 && f.at[0] == '.' ? 0 : f.n / 2;
}

static int is_hex(struct field f)
{
    size_t i;
    for (i = 0; i < f.n; i++)
        if (nibble(f.at[i]) < 0)
            return 0;
    return f.n > 0 && f.n % 2 == 0;
}

/* Writes the bytes of a field's hex. Returns whether the field was hex, or `.`. */
static int lay_bytes(struct field f, uint8_t *to)
{
    size_t i, n = byte_count(f);
    if (n == 0)
        return f.n == 1 && f.at[0] == '.';
    if (!is_hex(f))
        return 0;
    for (i = 0; i < n; i++)
        to[i] = (uint8_t)(nibble(f.at[2 * i]) << 4 | nibble(f.at[2 * i + 1]));
    return 1;
}

/* A row without entries, for a field that does not have the right form. */
static struct row *no_row(struct request *q, size_t width)
{
    q->malformed = 1;
    return row_of(width, 0);
}

struct row *read_bytes(struct request *q, size_t k, size_t most)
{
    struct field f = field_of(q, k);
    struct row *r;
    if (byte_count(f) > most)
        return no_row(q, 1);
    r = row_of(1, byte_count(f));
    if (!lay_bytes(f, r->bytes))
        q->malformed = 1;
    return r;
}

struct row *read_ml(struct request *q, size_t k, uint8_t *has)
{
    *has = field_is(q, k, '-') ? 0 : some_yes();
    return *has ? read_bytes(q, k, BYTES) : row_in_page(1);
}

/* ---- Lists */

static size_t item_count(struct field f)
{
    size_t i, n = 1;
    if (f.n == 1 && f.at[0] == '*')
        return 0;
    for (i = 0; i < f.n; i++)
        n += f.at[i] == ',';
    return n;
}

/* Takes the first item off the rest of a list. */
static struct field next_item(struct field *left)
{
    struct field item = *left;
    size_t n = 0;
    while (n < left->n && left->at[n] != ',')
        n++;
    item.n = n;
    left->at += n < left->n ? n + 1 : n;
    left->n -= n < left->n ? n + 1 : n;
    return item;
}

/* Writes one item to its place in a row. Returns whether the item has the right form. */
typedef int lay_item(struct field item, uint8_t *to);

static struct row *read_items(struct request *q, struct field left, size_t most, size_t width, lay_item *lay)
{
    size_t i, n = item_count(left);
    struct row *r;
    if (n > most)
        return no_row(q, width);
    r = row_of(width, n);
    for (i = 0; i < n; i++)
        if (!lay(next_item(&left), r->bytes + i * width))
            q->malformed = 1;
    return r;
}

static struct row *read_list(struct request *q, size_t k, size_t most, size_t width, lay_item *lay)
{
    return read_items(q, field_of(q, k), most, width, lay);
}

static int lay_u32(struct field item, uint8_t *to)
{
    uint64_t n;
    uint32_t narrow;
    if (!decimal(item, UINT32_MAX, &n))
        return 0;
    narrow = (uint32_t)n;
    memcpy(to, &narrow, sizeof narrow);
    return 1;
}

static int lay_place(struct field item, uint8_t *to)
{
    uint64_t n;
    uint32_t narrow;
    if (!decimal(item, UINT64_MAX, &n))
        return 0;
    narrow = n > UINT32_MAX ? UINT32_MAX : (uint32_t)n;
    memcpy(to, &narrow, sizeof narrow);
    return 1;
}

static int is_dash(struct field item)
{
    return item.n == 1 && item.at[0] == '-';
}

static int lay_signed_place(struct field item, uint8_t *to)
{
    int64_t n = AQL_MISSING_PLACE;
    if (!is_dash(item) && !signed_decimal(item, &n))
        return 0;
    memcpy(to, &n, sizeof n);
    return 1;
}

static int lay_reference_base(struct field item, uint8_t *to)
{
    *to = 0;
    return is_dash(item) || (item.n == 2 && lay_bytes(item, to));
}

static int lay_size(struct field item, uint8_t *to)
{
    uint64_t n;
    if (!decimal(item, UINT64_MAX, &n))
        return 0;
    memcpy(to, &n, sizeof n);
    return 1;
}

/* The length of a byte row in a list of them. */
static int lay_item_length(struct field item, uint8_t *to)
{
    uint32_t n = (uint32_t)byte_count(item);
    memcpy(to, &n, sizeof n);
    return n <= BYTES;
}

struct row *read_numbers(struct request *q, size_t k, size_t most)
{
    return read_list(q, k, most, sizeof(uint32_t), lay_u32);
}

struct row *read_places_behind(struct request *q, size_t k, size_t lead)
{
    struct field f = field_of(q, k);
    f.at += f.n < lead ? f.n : lead;
    f.n -= f.n < lead ? f.n : lead;
    return read_items(q, f, BYTES, sizeof(uint32_t), lay_place);
}

struct row *read_places(struct request *q, size_t k)
{
    return read_places_behind(q, k, 0);
}

struct row *read_signed_places(struct request *q, size_t k)
{
    return read_list(q, k, BYTES, sizeof(int64_t), lay_signed_place);
}

struct row *read_reference(struct request *q, size_t k)
{
    return read_list(q, k, BYTES, 1, lay_reference_base);
}

struct row *read_lengths(struct request *q, size_t k, size_t n)
{
    struct row *r = read_list(q, k, n, sizeof(size_t), lay_size);
    if (r->n != n)
        q->malformed = 1;
    return r;
}

struct row *read_item_lengths(struct request *q, size_t k, size_t most)
{
    return read_list(q, k, most, sizeof(uint32_t), lay_item_length);
}

/* The number of bytes that the items of a list of byte rows have together. */
static size_t joined_count(struct field left)
{
    size_t i, n = item_count(left), total = 0;
    for (i = 0; i < n; i++)
        total += byte_count(next_item(&left));
    return total;
}

struct row *read_joined(struct request *q, size_t k)
{
    struct field left = field_of(q, k), item;
    size_t i, at = 0, n = item_count(left);
    struct row *r;
    if (n > BYTES || joined_count(left) > BYTES)
        return no_row(q, 1);
    r = row_of(1, joined_count(left));
    for (i = 0; i < n; i++) {
        item = next_item(&left);
        if (!lay_bytes(item, r->bytes + at))
            q->malformed = 1;
        at += byte_count(item);
    }
    return r;
}

/* ---- Outputs */

struct row *output(struct request *q, size_t width, size_t which, size_t ample)
{
    return row_of(width, q->rooms[which] < ample ? (size_t)q->rooms[which] : ample);
}

struct row *output_sizes(size_t n)
{
    return row_of(sizeof(size_t), n);
}

size_t written(struct row *r, size_t k)
{
    r->filled = r->n;
    return as_size(r)[k];
}

int ready(struct request *q)
{
    rows_lend();
    return !q->malformed;
}

void must_agree(struct request *q, size_t number, size_t other)
{
    if (number != other)
        q->differs = 1;
}
