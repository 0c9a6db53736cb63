/* `tagedit`: edits the base-modification tag of one read. What it prints is the library's aql_transcript of the whole input, which is proved. This program
 * reads, prints and reports, and decides nothing about tags. */
#include <errno.h>
#include <signal.h>
#include <stdio.h>
#include <string.h>
#include <unistd.h>

#include "aquiledru.h"
#include "help.h"
#include "report.h"

enum { DONE = 0, FAILED = 1, BAD_USAGE = 2 };

#define STANDARD_ERROR 2
#define MAX_INPUT 65536u

struct options {
    const char *file;
    int verbose;
    const char *text; /* what is printed in place of an edit: help or version */
};

static int failed(const char *what)
{
    fprintf(stderr, "tagedit: %s: %s\n", what, strerror(errno));
    return FAILED;
}

static int bad_usage(const char *what, const char *word)
{
    fprintf(stderr, "tagedit: %s '%s'; 'tagedit --help' lists the options\n", what, word);
    return BAD_USAGE;
}

static int is_either(const char *word, const char *a, const char *b)
{
    return strcmp(word, a) == 0 || strcmp(word, b) == 0;
}

static int read_options(int argc, char **argv, struct options *given)
{
    int more = 1;
    for (int i = 1; i < argc; i++) {
        const char *word = argv[i];
        if (!more || word[0] != '-' || word[1] == 0) {
            if (given->file)
                return bad_usage("one file at most, not also", word);
            given->file = word;
        } else if (strcmp(word, "--") == 0) {
            more = 0;
        } else if (is_either(word, "-v", "--verbose")) {
            given->verbose = 1;
        } else if (is_either(word, "-h", "--help")) {
            given->text = TAGEDIT_HELP;
        } else if (is_either(word, "-V", "--version")) {
            given->text = "tagedit (Aquiledru) " AQL_VERSION "\n";
        } else {
            return bad_usage("unknown option", word);
        }
    }
    return DONE;
}

/* Fills the front of `row` and returns how many bytes came. What comes beyond is read to its end too, so that a program that writes to this one is not
 * stopped by a broken pipe. */
static size_t read_whole(FILE *file, uint8_t *row, size_t room)
{
    static uint8_t beyond[4096];
    size_t n = fread(row, 1, room, file);
    while (n == room && fread(beyond, 1, sizeof beyond, file) > 0)
        ;
    return n;
}

/* Output that is not written completely is an error, even if only fclose reports it, as on a full disk. */
static int write_whole(const void *row, size_t n)
{
    if (fwrite(row, 1, n, stdout) != n || fclose(stdout) != 0)
        return failed("standard output");
    return DONE;
}

static int edit(FILE *file, const char *name, int verbose)
{
    /* One byte more than an input may have, so that a longer one is seen. */
    static uint8_t input[MAX_INPUT + 1], seq[16000], mm[65536], ml[32768], out[AQL_TRANSCRIPT_OUT];
    size_t n = read_whole(file, input, sizeof input);
    if (ferror(file))
        return failed(name);
    size_t said = aql_transcript(input, n, seq, mm, ml, out);
    int status = write_whole(out, said);
    if (!verbose)
        return status;
    if (n > MAX_INPUT)
        fprintf(stderr, "the input: 1: it is longer than 65,536 bytes\n");
    else
        report(input, n, out, said);
    return status;
}

int main(int argc, char **argv)
{
    struct options given = {NULL, 0, NULL};
    int status = read_options(argc, argv, &given);
    if (status != DONE)
        return status;
    /* A closed pipe is then an error of writing, like any other. */
    signal(SIGPIPE, SIG_IGN);
    if (given.text)
        return write_whole(given.text, strlen(given.text));
    int verbose = given.verbose || isatty(STANDARD_ERROR);
    if (!given.file || strcmp(given.file, "-") == 0)
        return edit(stdin, "standard input", verbose);
    FILE *file = fopen(given.file, "rb");
    if (!file)
        return failed(given.file);
    status = edit(file, given.file, verbose);
    fclose(file);
    return status;
}
