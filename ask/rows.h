/* Rows that are lent to a call and checked after it. Each row is between an untouchable page and some canaries.
 *
 * The untouchable page is behind the rows in one turn and before them in the next. So a byte read or written outside a row ends the run in one of the
 * two turns. The canaries show what was written on the other side. A row without entries is NULL in two turns of four.
 */
#ifndef ASK_ROWS_H
#define ASK_ROWS_H

#include "c.h"

struct row {
    void *at;       /* as the call sees it: NULL for some rows without entries */
    size_t n;       /* entries */
    size_t width;   /* bytes of an entry */
    size_t filled;  /* how many entries at the front the call may have changed; the others must be unchanged */
    uint8_t *bytes; /* where the row is: the same as `at`, unless that is NULL */
    uint8_t *kept;  /* a copy from before the call */
    int in_page;    /* the row is in the untouchable page itself */
};

/* Forgets all rows, so that this turn takes new ones. */
void rows_begin(uint64_t turn);
uint64_t rows_turn(void);

/* A byte that means yes: any but 0; it varies by turn. */
uint8_t some_yes(void);

/* A row of n entries, filled with a byte that varies by place. */
struct row *row_of(size_t width, size_t n);

/* A row that a call may not look at: it is in the untouchable page, or NULL. */
struct row *row_in_page(size_t width);

/* How many rows are taken; and gives back those that were taken after the first `kept`. */
size_t rows_taken(void);
void rows_give_back(size_t kept);

/* Keeps a copy of every row: the call comes next, and has changed nothing yet. */
void rows_lend(void);

/* Notes that a call filled the front of a row. A length larger than the row counts as a write outside it. Returns how many entries can be read. */
size_t row_fill(struct row *r, size_t n);

/* Whether the call changed an entry that it may not change, or a canary. */
int rows_wrote(void);

/* The row as entries of a type. Ends the run if its entries have another width. */
uint8_t *as_u8(const struct row *r);
int16_t *as_i16(const struct row *r);
uint32_t *as_u32(const struct row *r);
int64_t *as_i64(const struct row *r);
size_t *as_size(const struct row *r);

/* The two arguments that a call takes for a row. */
#define U8(r) as_u8(r), (r)->n
#define I16(r) as_i16(r), (r)->n
#define U32(r) as_u32(r), (r)->n
#define I64(r) as_i64(r), (r)->n

/* Ends the run with a message on standard error. */
void stop(const char *message);

#endif
