/* Prints a line for each record of a BAM file, as htslib reads it: the number of bases, whether there is an MM, MN or `-`, and the calls of MM and ML. A call
 * is its place in the stored SEQ, its base, strand and code, and its value (-1 without ML). htslib.py compiles this program and runs it. */
#include <inttypes.h>
#include <stdio.h>

#include <htslib/sam.h>

#define MOST 16 /* calls on one base */

/* Prints the calls; `refused` where htslib does not read the tag. */
static void print_calls(bam1_t *record)
{
    hts_base_mod_state *state = hts_base_mod_state_alloc();
    hts_base_mod found[MOST];
    int place, i, count = state == NULL ? -1 : bam_parse_basemod(record, state);
    while (count >= 0 && (count = bam_next_basemod(record, state, found, MOST, &place)) > 0)
        for (i = 0; i < count; i++)
            printf("\t%d:%c:%d:%c:%d", place, found[i].canonical_base, found[i].strand, found[i].modified_base, found[i].qual);
    printf(count < 0 ? "\trefused\n" : "\n");
    hts_base_mod_state_free(state);
}

int main(int count, char **words)
{
    samFile *file = count == 2 ? sam_open(words[1], "r") : NULL;
    sam_hdr_t *header = file == NULL ? NULL : sam_hdr_read(file);
    bam1_t *record = bam_init1();
    int got = header == NULL || record == NULL ? -2 : 0;
    while (got >= 0 && (got = sam_read1(file, header, record)) >= 0) {
        const uint8_t *mn = bam_aux_get(record, "MN");
        printf("%d\t%d\t", record->core.l_qseq, bam_aux_get(record, "MM") != NULL);
        if (mn == NULL)
            printf("-");
        else
            printf("%" PRId64, bam_aux2i(mn));
        print_calls(record);
    }
    return got != -1; /* -1 is the end of the file */
}
