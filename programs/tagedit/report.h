/* What `tagedit` says on standard error about the lines that were refused. */
#ifndef TAGEDIT_REPORT_H
#define TAGEDIT_REPORT_H

#include <stddef.h>
#include <stdint.h>

/* Says each refused or bad line with its line number and the reason in words. `answers` is what was printed for the input: the numbers are taken from there,
 * and nothing is decided here but which line an answer belongs to. */
void report(const uint8_t *input, size_t input_len, const uint8_t *answers, size_t answers_len);

#endif
