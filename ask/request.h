/* A request and its answer: fields are read into rows, the call is made, and its answer is added to the line.
 *
 * A call's function reads its fields, takes rows for its outputs, and asks `ready`. Then it makes the call, passes its number to `answered`, and for the
 * answer 0 adds the fields. If a field does not have the right form, the whole line is `?`, whatever else was read. oracle/README.md describes the
 * requests.
 */
#ifndef ASK_REQUEST_H
#define ASK_REQUEST_H

#include "aquiledru.h"
#include "reply.h"

/* The largest inputs that a request may have: one more than each bound of the domain. */
#define BASES (AQL_MAX_SEQ + 1)
#define BYTES (AQL_MAX_MM + 1)
#define WORDS (AQL_MAX_CIGAR + 1)
#define READS (AQL_MAX_READS + 1)

struct field {
    const uint8_t *at;
    size_t n;
};

/* More fields than a line of at most 1,048,575 bytes can have, if each of them is a step. */
#define MOST_FIELDS 262144u
#define MOST_ROOMS 2
#define AMPLE ((uint64_t)-1)

struct request {
    struct field *fields; /* place for MOST_FIELDS */
    size_t count;
    uint64_t rooms[MOST_ROOMS];
    int malformed;
    int differs; /* two calls that must agree did not */
    int wrote;   /* a call before the last one changed what it may not change */
};

/* ---- What a field holds. k counts the fields from 0, without the request's name. */

/* At most `most` bytes in hex; `.` for none. */
struct row *read_bytes(struct request *q, size_t k, size_t most);

/* The same, or `-` for no ML: *has is then 0, and the call may not look at the row. */
struct row *read_ml(struct request *q, size_t k, uint8_t *has);

/* Lists, `*` for none: of numbers up to 2^32-1; of places up to 2^64-1 (a place above 2^32-1 is read as 2^32-1, since both lie past every SEQ); of
 * signed places with `-` for a missing one; of a reference's bases with `-` for a missing one; and of n lengths. */
struct row *read_numbers(struct request *q, size_t k, size_t most);
struct row *read_places(struct request *q, size_t k);
struct row *read_places_behind(struct request *q, size_t k, size_t lead); /* behind the first `lead` characters of the field */
struct row *read_signed_places(struct request *q, size_t k);
struct row *read_reference(struct request *q, size_t k);
struct row *read_lengths(struct request *q, size_t k, size_t n);

/* A list of byte rows: the rows joined, and the length of each. */
struct row *read_joined(struct request *q, size_t k);
struct row *read_item_lengths(struct request *q, size_t k, size_t most);

uint64_t read_number(struct request *q, size_t k, uint64_t largest);
int64_t read_signed(struct request *q, size_t k);

/* Whether a field is just this character, such as `-` for a number that is not known; whether it is this word, or begins with it. */
int field_is(const struct request *q, size_t k, char character);
int field_spells(const struct request *q, size_t k, const char *word);
int field_begins(const struct request *q, size_t k, const char *word);

/* Yes is some byte other than 0, which varies by turn; no is 0. */
uint8_t read_yes(struct request *q, size_t k);

/* A pattern is given as a read's flags, whose other bits vary by turn; a mode is given as its number. */
uint16_t read_pattern(struct request *q, size_t k);
uint8_t read_mode(struct request *q, size_t k);

/* ---- Outputs */

/* A row for an output, with the room that the request gives as its number `which`, but at most `ample`. */
struct row *output(struct request *q, size_t width, size_t which, size_t ample);

/* A row for n numbers that the call writes; and entry k of it after the answer 0. */
struct row *output_sizes(size_t n);
size_t written(struct row *r, size_t k);

/* ---- The call */

/* Keeps a copy of the rows. Returns whether every field had the right form; the call then comes next. */
int ready(struct request *q);

/* Notes if a number of a second call differs from that of the first, which it must equal. */
void must_agree(struct request *q, size_t number, size_t other);

#endif
