/* Which line an answer belongs to, and the answer in words; report.h says what for. */
#include "report.h"

#include <stdio.h>
#include <string.h>

#include "aquiledru.h"

/* A part of the input or of the output; a line that is missing has NULL. */
struct text {
    const uint8_t *at;
    size_t len;
};

/* Takes the next line off the front of `rest`, without its LF, which the last line may lack. */
static struct text next_line(struct text *rest)
{
    struct text line = {NULL, 0};
    if (rest->len == 0)
        return line;
    const uint8_t *end = memchr(rest->at, '\n', rest->len);
    line.at = rest->at;
    line.len = end ? (size_t)(end - rest->at) : rest->len;
    size_t taken = line.len + (end != NULL);
    rest->at += taken;
    rest->len -= taken;
    return line;
}

static int begins(struct text line, const char *mark)
{
    size_t n = strlen(mark);
    return line.at && line.len >= n && memcmp(line.at, mark, n) == 0;
}

/* The next answer's number; -1 after the last one. */
static int next_answer(struct text *rest)
{
    if (!begins(*rest, "AN"))
        return -1;
    struct text line = next_line(rest);
    int number = 0;
    for (size_t i = 2; i < line.len; i++)
        number = 10 * number + (line.at[i] - '0');
    return number;
}

/* What a bad line should have been. The opening takes the lines 1 to 3; every later one is a step. */
static const char *bad_line(struct text line, size_t place)
{
    if (!line.at)
        return place == 1 ? "the input ends before its SQ line" : "the input ends before its MM line";
    switch (place) {
    case 1: return "a bad line; the first line is 'SQ' and the bases";
    case 2: return "a bad line; the second line is 'MM' and the MM text";
    case 3:
        if (begins(line, "ML"))
            return "a bad line; after 'ML' come decimals from 0 to 255 with commas between";
    }
    return "a bad line; a step is 'MK' or 'DR' and places, or 'CU' and two numbers: plain decimals up to 4,294,967,295 with commas between";
}

static const char *in_words(int number, struct text line, size_t place)
{
    switch (number) {
    case AQL_TOO_LONG: return "SEQ is longer than 16,000 bases";
    case AQL_MM_NOT_ASCII: return "MM has a byte above 127";
    case AQL_MM_NOT_CLOSED: return "MM lacks its final ';'";
    case AQL_SHORT_HEADER: return "a group's header is shorter than two bytes";
    case AQL_BAD_SKIP: return "a skip is empty or has a byte that is no digit";
    case AQL_SKIP_TOO_FAR: return "a skip passes the last tracked base";
    case AQL_ML_TOO_SHORT: return "ML ends inside a listed base's values";
    case AQL_ML_LEFT_OVER: return "ML has bytes left over";
    case AQL_DROP_WITHOUT_MARK: return "a drop names a listed call of a group whose header does not end in '?'";
    case AQL_NO_WINDOW: return "a cut of more bases than SEQ has";
    case AQL_BAD_NUMBER: return bad_line(line, place);
    }
    return "refused";
}

/* The usual reason for which a line is not what its writer meant; "" if there is none to be seen. */
static const char *cause(struct text line)
{
    if (begins(line, "\xEF\xBB\xBF"))
        return "the line begins with a byte-order mark (BOM)";
    if (begins(line, "MM:Z:"))
        return "the line begins with 'MM:Z:'; write 'MM' and the text alone";
    if (begins(line, "ML:B:"))
        return "the line begins with 'ML:B:'; write 'ML' and the values alone";
    if (line.at && memchr(line.at, '\r', line.len))
        return "the line has a carriage return (CR); lines end in LF alone";
    return "";
}

/* `seen` is the line in which a cause may be seen: the line itself, or the one before it if it is missing. */
static void say(size_t place, int number, struct text line, struct text seen)
{
    const char *why = cause(seen);
    fprintf(stderr, "line %zu: %d: %s", place, number, in_words(number, line, place));
    if (*why)
        fprintf(stderr, " (%s)", why);
    fputs("\n", stderr);
}

/* Lines that are not refused may still not be what was meant: in SQ a carriage return counts as a base, and after MM:Z: a group is on ':'. */
static void note_lines(const struct text *lines, size_t n)
{
    for (size_t i = 0; i < n; i++) {
        const char *why = cause(lines[i]);
        if (*why)
            fprintf(stderr, "line %zu: note: %s\n", i + 1, why);
    }
}

/* The line, from 1, that a refused opening is about. */
static size_t opening_line(int number, const struct text *lines)
{
    switch (number) {
    case AQL_TOO_LONG: return 1;
    case AQL_BAD_NUMBER: return !begins(lines[0], "SQ") ? 1 : !begins(lines[1], "MM") ? 2 : 3;
    case AQL_ML_TOO_SHORT:
    case AQL_ML_LEFT_OVER: return 3;
    }
    return 2;
}

void report(const uint8_t *input, size_t input_len, const uint8_t *answers, size_t answers_len)
{
    struct text rest = {input, input_len}, said = {answers, answers_len};
    struct text lines[3] = {next_line(&rest), next_line(&rest), {NULL, 0}};
    struct text steps = rest;
    lines[2] = next_line(&rest);
    size_t place = 2;
    if (begins(lines[2], "ML")) {
        steps = rest;
        place = 3;
    }
    int number = next_answer(&said);
    if (number != AQL_DONE) {
        size_t at = opening_line(number, lines);
        struct text line = lines[at - 1];
        note_lines(lines, line.at ? at - 1 : 0);
        say(at, number, line, line.at || at == 1 ? line : lines[at - 2]);
        return;
    }
    note_lines(lines, 2);
    while ((number = next_answer(&said)) >= 0) {
        struct text line = next_line(&steps);
        place++;
        if (number != AQL_DONE && number != AQL_UNCHANGED)
            say(place, number, line, line);
    }
}
