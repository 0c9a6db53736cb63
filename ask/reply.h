/* The lines that answer requests. Each function adds one part of the line. Whole lines are written out before the program waits for more input. */
#ifndef ASK_REPLY_H
#define ASK_REPLY_H

#include "rows.h"

/* Makes room for one more line; and ends the line. */
void reply_begin(void);
void reply_end(void);
/* Writes out everything so far; and only the lines that have ended. */
void reply_flush(void);
void reply_abandon(void);

/* Adds the call's number. Returns true if it is 0, so that fields follow. */
int answered(uint8_t number);

/* Each adds a tab and a field: the first n entries of a row that the call has filled, or a number. */
void put_bytes(struct row *r, size_t n);
void put_whole(struct row *r, size_t n); /* the whole row, of which n entries may have changed */
void put_text_or_dash(struct row *r, size_t n);
void put_counts(struct row *r, size_t n);
void put_tag_counts(struct row *r, size_t n);
void put_positions(struct row *r, size_t n);
void put_reference(struct row *r, size_t n);
void put_yes_bytes(const uint8_t *bytes, size_t n);
void put_sizes(struct row *r, size_t n);
void put_size(size_t n);
void put_dash(void);
void put_letter(char letter);

/* Each adds a part of a field, without a tab. */
void add_text(const char *text);
void add_decimal(uint64_t n);
void add_character(char character);
void add_tab(void);

#endif
