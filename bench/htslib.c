/* htslib's side. A record with a tag is made once; reading it lists the place and the value of each call. */
#include <stdlib.h>
#include <string.h>
#include <htslib/sam.h>

struct reader {
    bam1_t *record;
    hts_base_mod_state *state;
};

/* Makes a record of these bases with MM (text that ends in a 0 byte) and ML; NULL if htslib makes none. */
void *hts_side_open(const char *seq, size_t bases, const char *mm, const uint8_t *ml, size_t values) {
    struct reader *r = malloc(sizeof *r);
    r->record = bam_init1();
    r->state = hts_base_mod_state_alloc();
    uint8_t *array = malloc(5 + values);
    uint32_t count = values;
    array[0] = 'C';
    memcpy(array + 1, &count, 4);
    memcpy(array + 5, ml, values);
    int failed = bam_set1(r->record, 1, "r", 4, -1, -1, 0, 0, NULL, -1, -1, 0, bases, seq, NULL, 64 + strlen(mm) + values) < 0
                 || bam_aux_append(r->record, "MM", 'Z', strlen(mm) + 1, (const uint8_t *)mm)
                 || bam_aux_append(r->record, "ML", 'B', 5 + values, array);
    free(array);
    return failed ? NULL : r;
}

/* Reads the tag: writes the places and values of its calls, and returns how many there are; -1 if htslib refuses the tag. */
long hts_side_read(void *side, uint32_t *places, uint8_t *values) {
    struct reader *r = side;
    hts_base_mod mods[8];
    long calls = 0;
    int place, n;
    if (bam_parse_basemod(r->record, r->state) < 0) return -1;
    while ((n = bam_next_basemod(r->record, r->state, mods, 8, &place)) > 0)
        for (int i = 0; i < n; i++, calls++) {
            places[calls] = place;
            values[calls] = mods[i].qual;
        }
    return n < 0 ? -1 : calls;
}
