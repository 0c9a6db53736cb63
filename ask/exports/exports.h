/* What the tests of the exports share: rows with given entries, and checks of what a call does. */
#ifndef ASK_EXPORTS_H
#define ASK_EXPORTS_H

#include "../reply.h"
#include "aquiledru.h"

/* Rows with entries. */
struct row *row_text(const char *text);
struct row *row_bytes(size_t n, uint8_t each);
struct row *row_u32(size_t n, uint32_t each);
struct row *row_sizes(size_t n, const size_t *sizes);

/* The evidence of n positions, all with the same counts; and the arguments that a call takes for it. */
struct columns {
    struct row *informative, *unconverted, *converted;
};
struct columns columns_of(size_t n, uint32_t unconverted, uint32_t converted);
#define COLUMNS(c) U8((c).informative), U32((c).unconverted), U32((c).converted)

/* Each prints what was not as expected; the run then ends with status 1. */
void expect(const char *what, uint64_t got, uint64_t wanted);
void expect_text(const char *what, struct row *r, size_t n, const char *wanted);

/* A call that must return this number and must change nothing: it is refused, or all its outputs are empty. */
#define REFUSES(number, call) (rows_lend(), expect(#call, (call), (number)), expect("bytes changed by " #call, (uint64_t)rows_wrote(), 0))

/* A call that must return 0. What it filled is checked next, and KEPT checks that it changed nothing else. */
#define ACCEPTS(call) (rows_lend(), expect(#call, (call), AQL_DONE))
#define KEPT(call) expect("bytes changed by " call, (uint64_t)rows_wrote(), 0)

/* Entry k of an array of numbers that an accepted call has written. */
size_t said(struct row *sizes, size_t k);

/* The arguments that a call takes for a tag, with ML and without. */
#define TAG(t) U8((t).mm), U8((t).ml), some_yes()
#define NO_ML(t) U8((t).mm), U8((t).in_page), 0

/* The rows that an edited tag goes to, and their lengths; and the arguments that a call takes for them. */
struct edited {
    struct row *mm, *ml, *mm_len, *ml_len;
};
#define OUT(e) U8((e).mm), U8((e).ml), as_size((e).mm_len), as_size((e).ml_len)

/* Rooms for the tag "C+m?,0;" with one value: exactly enough, one byte short for MM, and none for ML. */
void edited_rooms(struct edited *enough, struct edited *short_mm, struct edited *short_ml);

/* Checks what an edit left, or a session's step, and that nothing else changed. A step without ML gives NULL for it. */
void edited_as(const char *call, struct edited e, const char *mm, const char *ml);
void stepped_as(const char *step, struct row *mm, struct row *ml, struct row *lengths, const char *mm_then, const char *ml_then);

void try_small(void);
void try_alignment(void);
void try_evidence(void);
void try_corners(void);
void try_building(void);
void try_reading(void);
void try_rewriting(void);
void try_session(void);
void try_transcript(void);
void try_stored_reading(void);
void try_stored_rewriting(void);
void try_stored_session(void);
void try_records(void);

#endif
