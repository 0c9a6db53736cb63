/* Masks the bases of low quality in a BAM stream, record by record, and edits the tags MM, ML, MN, am and bm to fit. Prints a line for each record: its
 * name, its length before and after, whether a tag went, and MM and ML as they are now.
 *
 * The stream is BAM without BGZF, such as examples/c/records.bam, which examples/make_bam.py makes. `tools/build archive records` makes the two libraries,
 * and `examples/run records` compiles this program with them and runs it. */
#include <stdio.h>
#include <string.h>

#include "aquiledru.h"
#include "aquiledru_record.h"

#define LOW_QUALITY 20
#define FIXED 32 /* bytes of a record before its name */
#define ROOM 65536u

static uint8_t record[ROOM], edited[ROOM + AQL_RECORD_GROWTH], before[AQL_MAX_SEQ];

static size_t number_at(const uint8_t *at, size_t bytes)
{
    size_t number = 0;
    while (bytes-- > 0)
        number = number << 8 | at[bytes];
    return number;
}

/* Reads a number of four bytes, and then, to the front of `record`, as many bytes as it says and `more`; writes how many they are to *n. Returns 1; 0 at
 * the end of the file, and -1 if the file ends too early or there is no room. */
static int get_block(FILE *file, size_t more, size_t *n)
{
    uint8_t size[4];
    size_t got = fread(size, 1, sizeof size, file);
    if (got < sizeof size)
        return got == 0 ? 0 : -1;
    *n = number_at(size, sizeof size) + more;
    return *n <= ROOM && fread(record, 1, *n, file) == *n ? 1 : -1;
}

/* Passes the magic, the header's text, and the references: of each the name and four bytes with its length. Returns whether they were there. */
static int pass_header(FILE *file)
{
    size_t n, references;
    if (fread(record, 1, 4, file) != 4 || memcmp(record, "BAM\1", 4) != 0 || get_block(file, 4, &n) != 1)
        return 0;
    for (references = number_at(record + n - 4, 4); references > 0; references--)
        if (get_block(file, 4, &n) != 1)
            return 0;
    return 1;
}

static size_t bases_of(const uint8_t *bam) { return number_at(bam + 16, 4); }
static size_t seq_of(const uint8_t *bam) { return FIXED + bam[8] + 4 * number_at(bam + 12, 2); }
static size_t quality_of(const uint8_t *bam) { return seq_of(bam) + (bases_of(bam) + 1) / 2; }

/* Masks SEQ in the record, and keeps its letters, as stored, in `before`. Returns how many they are; 0 for a record that aql_mask_record will refuse. */
static size_t mask_low_quality(uint8_t *bam, size_t n)
{
    size_t bases = 0, i;
    if (n < FIXED || quality_of(bam) + bases_of(bam) > n ||
        aql_unpack(bam + seq_of(bam), quality_of(bam) - seq_of(bam), bases_of(bam), 0, before, sizeof before, &bases) != AQL_DONE)
        return 0;
    for (i = 0; i < bases; i++)
        if (bam[quality_of(bam) + i] < LOW_QUALITY)
            bam[seq_of(bam) + i / 2] |= i % 2 == 0 ? 0xf0 : 0x0f; /* N is the code 15 */
    return bases;
}

static size_t entry_size(uint8_t type)
{
    return type == 'A' || type == 'c' || type == 'C' ? 1 : type == 's' || type == 'S' ? 2 : 4;
}

/* The bytes of a field from its type on. The library has parsed the fields before it returned 0, so none goes past the record's end. */
static size_t size_from_type(const uint8_t *type)
{
    if (*type == 'Z' || *type == 'H')
        return 1 + strlen((const char *)type + 1) + 1;
    return *type == 'B' ? 6 + number_at(type + 2, 4) * entry_size(type[1]) : 1 + entry_size(*type);
}

/* The first field of this name, from its type on, or NULL. */
static const uint8_t *field(const uint8_t *bam, size_t n, const char *name)
{
    size_t at = quality_of(bam) + bases_of(bam);
    for (; at < n; at += 2 + size_from_type(bam + at + 2))
        if (memcmp(bam + at, name, 2) == 0)
            return bam + at + 2;
    return NULL;
}

static void print_edited(size_t n, size_t old, size_t went)
{
    const uint8_t *mm = field(edited, n, "MM"), *ml = field(edited, n, "ML");
    size_t i;
    printf("%.*s: %u bytes, now %u; ", edited[8], (const char *)edited + FIXED, (unsigned)old, (unsigned)n);
    printf("%s; MM %s, ML", went ? "a tag went" : "no tag went", mm != NULL && *mm == 'Z' ? (const char *)mm + 1 : "-");
    for (i = 0; ml != NULL && memcmp(ml, "BC", 2) == 0 && i < number_at(ml + 2, 4); i++)
        printf(" %u", (unsigned)ml[6 + i]);
    printf(ml != NULL ? "\n" : " -\n");
}

int main(int count, char **words)
{
    FILE *file = count == 2 ? fopen(words[1], "rb") : NULL;
    int got = file != NULL && pass_header(file) ? 1 : -1;
    size_t n, new_n, went;
    while (got == 1 && (got = get_block(file, 0, &n)) == 1) {
        size_t bases = mask_low_quality(record, n);
        uint8_t answer = aql_mask_record(record, n, before, bases, edited, sizeof edited, &new_n, &went);
        if (answer != AQL_RECORD_DONE) {
            fprintf(stderr, "records: a record is refused with %u\n", (unsigned)answer);
            return 1;
        }
        /* another program would now write new_n as the block size, and so many bytes of `edited` */
        print_edited(new_n, n, went);
    }
    if (got != 0)
        fprintf(stderr, "records FILE: FILE is BAM without BGZF, with records of at most %u bytes\n", ROOM);
    return got != 0;
}
