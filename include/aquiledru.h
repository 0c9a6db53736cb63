/* Aquiledru: SAM base-modification tags (MM and ML), every function proved.
 *
 * How the calls are made
 *
 * - Numbers. A call that can refuse returns a number of the table below. If it is not 0, nothing that was lent has changed: no row, no length. If it is
 *   0, the answer fills the front of each output row and the rest of the row stays as it was; the lengths say how much is filled. A call that can't
 *   refuse returns what its comment says: a byte, a yes or no, a length, or nothing.
 * - Rows. A row is a pointer and its number of entries (not of bytes). NULL with 0 entries is an empty row. The bytes of an input may be anything; no
 *   zero byte ends a text, neither one that is read nor one that is written. No call keeps a pointer, allocates, or has any state.
 * - Orientation. MM and ML are always in the read's own orientation. So is SEQ, with one byte for each base, except in the part "Reads as a BAM record
 *   stores them": those calls take SEQ packed, two bases to a byte, and if `reverse` is not 0 (the record's flag 0x10) reverse-complemented, and count
 *   everything in the stored read. aql_unpack gives the bases of a stored read as the other calls take them.
 * - What the caller owes, since no call can check it: a pointer leads to as many entries as its length or room says; a pointer to one number or to an
 *   array is not NULL; what a call may write (a row, a number or an array without const) overlaps nothing else that is given to the same call; during
 *   the call nobody else writes to any of it or reads what the call may write; the stack has room for the call. Rows that are only read may overlap one
 *   another.
 * - Stack. No theorem bounds it, and a program can end at its stack's guard page. tools/stack-use reads the stack off the machine code, without that of C's
 *   memcpy and memset; docs/STACK.md has the bytes of each call. A call takes at most:
 *     40,000 bytes: aql_stored_drop_masked_modifications, aql_stored_drop_modifications_at, aql_stored_trim_clipped_modifications, aql_stored_mask,
 *                   aql_stored_drop_calls;
 *     20,000 bytes: aql_drop_modifications_at, aql_session_mask, aql_session_drop_calls, aql_stored_check_tag, aql_stored_read_calls, aql_stored_tally,
 *                   aql_stored_open, aql_stored_cut, aql_transcript, aql_duplex_methylation_tags;
 *      3,200 bytes: aql_drop_masked_modifications, aql_trim_clipped_modifications, aql_session_cut, aql_build_mm_ml_tags, aql_build_mm_tag_no_ml;
 *        600 bytes: every other.
 * - Yes and no. A uint8_t that asks for a yes is yes for every value but 0; so is each byte of informative and of read_aligned. An answered yes is 1, a
 *   no 0.
 * - Patterns are given by a read's SAM flags: with 0x80 clear the read shows C to T, with 0x80 set G to A. The other flags are ignored.
 * - Places count from 0, in SEQ and on the reference; groups count from 1.
 * - `has_ml` 0 is a tag without ML: the rows lent for ML and their lengths are then ignored, neither read nor written, and 8 and 9 do not arise. If
 *   `has_ml` is not 0, an ML row of 0 bytes (its pointer may be NULL) is an empty ML. A tag that lists a call is then refused with 8.
 *
 * docs/PROVED.md says what is proved of each call, docs/DIFFERENCES.md where the answers differ from the Rust original and from SAMtags.
 */
#ifndef AQUILEDRU_H
#define AQUILEDRU_H

#include <stddef.h>
#include <stdint.h>

#ifdef __cplusplus
extern "C" {
#endif

/* The version, which `tagedit --version` prints and CHANGELOG.md describes. */
#define AQL_VERSION "0.3.0"

/* The numbers. With any number except 0 everything that was lent is unchanged. If several apply, the first in this order is returned: 13, 1, 2, 21, 11,
 * 3, 4; then the text from the left, 5 at a header and at each entry 6, 7, 8, 10; after the last group 9, or in a build 20; last 12. The last line of a
 * call's comment lists every number that the call can return; each of them is returned for some input. */
enum {
    AQL_DONE = 0,
    AQL_TOO_LONG = 1,            /* an input is longer than the domain allows */
    AQL_LENGTHS_DISAGREE = 2,    /* lengths that must be equal are not; a session's row is shorter than its length; packed bytes are not as many as the
                                    bases take, or at a step on a stored read fewer */
    AQL_MM_NOT_ASCII = 3,        /* a byte above 127 in MM */
    AQL_MM_NOT_CLOSED = 4,       /* the last byte of MM is not ';', or MM is empty */
    AQL_SHORT_HEADER = 5,        /* a group's header is shorter than two bytes */
    AQL_BAD_SKIP = 6,            /* a skip is empty or has a byte that is no digit */
    AQL_SKIP_TOO_FAR = 7,        /* a skip passes the last tracked base, however large the number is */
    AQL_ML_TOO_SHORT = 8,        /* ML has fewer bytes left than a call takes */
    AQL_ML_LEFT_OVER = 9,        /* ML has bytes left over after the last group */
    AQL_DROP_WITHOUT_MARK = 10,  /* a drop names a listed call of a group whose header does not end in '?' */
    AQL_NO_WINDOW = 11,          /* after is no window of before, its start is unknown, or a session's cut takes more bases than SEQ has */
    AQL_NO_ROOM = 12,            /* the finished answer needs more room than was lent */
    AQL_BAD_NUMBER = 13,         /* unknown CIGAR kind or mode; alignment start negative or too large; strands not 1 or 2; in a transcript a bad line */
    AQL_NO_CALLS = 20,           /* a build has no call, or no chemistry is chosen; no refusal */
    AQL_UNCHANGED = 21           /* a cut leaves SEQ as it is; no refusal */
};

/* The domain. A longer input is refused with 1. Any length is allowed for output rows, the rows of a session, lists of places, the reference, and
 * ref_bases. */
#define AQL_MAX_SEQ 16000u        /* bases of SEQ, packed or not, before, after, consensus, and of the read of a CIGAR; entries of an evidence column */
#define AQL_MAX_MM 65536u         /* bytes of MM; bytes of ML */
#define AQL_MAX_READS 4096u       /* reads of one count */
#define AQL_MAX_READ_BASES 1048576u /* bases of these reads together; one of them may have more than AQL_MAX_SEQ */
#define AQL_MAX_CIGAR 65535u      /* words of a CIGAR */

/* The chemistry; any other number is refused with 13. A methylated base shows as unconverted in EM-Seq and as converted in TAPS. */
enum {
    AQL_MODE_DISABLED = 0,
    AQL_MODE_EM_SEQ = 1,
    AQL_MODE_TAPS = 2
};

/* The place of a base that has none on the reference. A reference base that is missing is byte 0. */
#define AQL_MISSING_PLACE (-1)

/* --- Bytes and patterns ------------------------------------------------------------------------------------------------------------ */

/* Returns the byte in upper case: a to z become A to Z, any other byte stays. */
uint8_t aql_to_ascii_uppercase(uint8_t b);

/* Returns 1 if the two bytes are the same in upper case, else 0. */
uint8_t aql_eq_ignore_ascii_case(uint8_t a, uint8_t b);

/* Returns 0 for C to T (0x80 of the flags clear), 1 for G to A. */
uint8_t aql_pattern_from_read_flags(uint16_t read_flags);

/* Writes the pattern's three bases: the reference base that makes a position informative, and the bases that a read shows there unconverted and
 * converted. They are C, C, T for C to T, and G, G, A for G to A. */
void aql_pattern_bases(uint16_t read_flags, uint8_t *reference, uint8_t *unconverted, uint8_t *converted);

/* Returns the letter of the pattern's MM group: 'C' or 'G'. */
uint8_t aql_pattern_letter(uint16_t read_flags);

/* Returns the strand sign of the pattern's MM group: '+' for C to T, '-' for G to A. */
uint8_t aql_pattern_sign(uint16_t read_flags);

/* Tells whether a chemistry is chosen. Returns 0, and writes 0 to *enabled for AQL_MODE_DISABLED and 1 for the other two modes; returns 13 for an unknown
 * mode.
 * Answers 0, 13. */
uint8_t aql_mode_is_enabled(uint8_t mode, uint8_t *enabled);

/* --- Alignment --------------------------------------------------------------------------------------------------------------------- */

/* Finds the reference place of each base of a read. cigar holds BAM operation words: length times 16 plus kind, and the kinds 0 to 8 are M I D N S H P =
 * X. alignment_start is the alignment's first place on the reference, counted from 0 as in BAM; POS in SAM text is 1 more. M, = and X give each base a
 * place, I and S give AQL_MISSING_PLACE, D and N pass over places, H and P do nothing. The places come in the read's own orientation: with is_reverse
 * they are those of the forward read in reverse order. A place can be above 2,147,483,647.
 * Returns 0, writes the number of bases to *n and that many places to the front of positions; 13 for an unknown kind or a start outside 0 to
 * 2,147,483,647; 1 if there are more than 65,535 words or 16,000 bases; 12 if positions has no room.
 * Answers 0, 1, 12, 13. */
uint8_t aql_query_to_ref_positions(const uint32_t *cigar, size_t cigar_len, int64_t alignment_start, uint8_t is_reverse,
                                   int64_t *positions, size_t positions_room, size_t *n);

/* Returns 1 if pos is part of a CpG of its strand, in upper or lower case: on the top strand a C with a G at pos + 1, on the bottom strand a G with a C
 * at pos - 1. Returns 0 otherwise, also if one of the two places is off the reference. */
uint8_t aql_is_cpg_context(const uint8_t *ref_seq, size_t ref_seq_len, size_t pos, uint8_t is_top_strand);

/* Copies the reference's bases at a row of places, in the case that they have there. A place that is negative or off the reference gives byte 0.
 * Returns 0, writes the number of places to *n and that many bytes to the front of bases; 12 if bases has no room. Both input rows may have any length.
 * Answers 0, 12. */
uint8_t aql_fetch_ref_bases_at_positions(const int64_t *ref_positions, size_t ref_positions_len, const uint8_t *reference, size_t reference_len,
                                         uint8_t *bases, size_t bases_room, size_t *n);

/* --- The evidence of one position -------------------------------------------------------------------------------------------------- */

/* Starts the evidence of a position: writes 0 to both counts and returns informative as 1 or 0. */
uint8_t aql_evidence_new(uint8_t informative, uint32_t *unconverted, uint32_t *converted);

/* Counts one base of a read. The pattern's unconverted or converted base, in upper or lower case, raises its count by one, at most to 4,294,967,295; any
 * other base raises none. Whether the position is informative plays no part. */
void aql_evidence_counted(uint8_t base, uint16_t read_flags, uint32_t *unconverted, uint32_t *converted);

/* Gates a position: writes 0 to both counts if informative is 0, and leaves them unchanged otherwise. */
void aql_evidence_gated(uint8_t informative, uint32_t *unconverted, uint32_t *converted);

/* --- The evidence of a consensus, in three columns --------------------------------------------------------------------------------- */

/* Counts the evidence of a consensus of consensus_len bases. Base i of each read and entry i of ref_bases belong to position i of the consensus.
 * A position is informative if its reference base is the pattern's, in upper or lower case; a position past the end of ref_bases is not. A read counts at a
 * position if it reaches it, the position is informative, and the read's aligned byte there is a yes. With count_all_positions a read counts wherever it
 * reaches. The two columns of counts say how many of the reads that count show the unconverted and the converted base there, in upper or
 * lower case.
 * The reads are in read_bases one after the other, each with as many bases as its entry of read_lengths says. read_aligned has a byte for each base,
 * also with count_all_positions, when the bytes are ignored. Bases of a read and entries of ref_bases beyond the consensus are ignored.
 * Returns 0, writes consensus_len to *n and that many entries to each column, a yes as 1; 1 if consensus_len is over 16,000, there are more than 4,096
 * reads, or read_bases or read_aligned has more than 1,048,576 entries; 2 if the entries of read_lengths do not add up to read_bases_len, or
 * read_aligned_len is not read_bases_len; 12 if a column has no room.
 * Answers 0, 1, 2, 12. */
uint8_t aql_annotate_simplex_methylation(size_t consensus_len, const uint32_t *read_lengths, size_t read_lengths_len,
                                         const uint8_t *read_bases, size_t read_bases_len, const uint8_t *ref_bases, size_t ref_bases_len,
                                         uint16_t read_flags, const uint8_t *read_aligned, size_t read_aligned_len, uint8_t count_all_positions,
                                         uint8_t *informative, size_t informative_room, uint32_t *unconverted, size_t unconverted_room,
                                         uint32_t *converted, size_t converted_room, size_t *n);

/* Writes 0 to both counts of each position that is not informative.
 * Returns 0 and writes the number of positions to *n; 1 if a column has more than 16,000 entries; 2 if the columns differ in length.
 * Answers 0, 1, 2. */
uint8_t aql_gate_to_informative(const uint8_t *informative, size_t informative_len, uint32_t *unconverted, size_t unconverted_len,
                                uint32_t *converted, size_t converted_len, size_t *n);

/* Copies the first len positions, or all if there are fewer, to three other columns. An informative byte is copied as 1 or 0.
 * Returns 0 and writes the number of copied positions to *n; 1 if a column to copy has more than 16,000 entries; 2 if these columns differ in length; 12
 * if a column for the copy has no room.
 * Answers 0, 1, 2, 12. */
uint8_t aql_truncate(size_t len, const uint8_t *informative, size_t informative_len, const uint32_t *unconverted, size_t unconverted_len,
                     const uint32_t *converted, size_t converted_len, uint8_t *kept_informative, size_t kept_informative_room,
                     uint32_t *kept_unconverted, size_t kept_unconverted_room, uint32_t *kept_converted, size_t kept_converted_room, size_t *n);

/* Copies the unconverted counts as the cu tag holds them: 32,767 for any count above it. The counts of positions that are not informative are copied
 * too; of the other two columns only the lengths are looked at.
 * Returns 0, writes the number of positions to *n and that many entries to the front of counts; 1 and 2 as aql_gate_to_informative; 12 if counts has no
 * room.
 * Answers 0, 1, 2, 12. */
uint8_t aql_unconverted_counts(const uint8_t *informative, size_t informative_len, const uint32_t *unconverted, size_t unconverted_len,
                               const uint32_t *converted, size_t converted_len, int16_t *counts, size_t counts_room, size_t *n);

/* Copies the converted counts as the ct tag holds them; otherwise as aql_unconverted_counts.
 * Answers 0, 1, 2, 12. */
uint8_t aql_converted_counts(const uint8_t *informative, size_t informative_len, const uint32_t *unconverted, size_t unconverted_len,
                             const uint32_t *converted, size_t converted_len, int16_t *counts, size_t counts_room, size_t *n);

/* Restores a consensus in place: at the informative positions, C to T writes C over T and t, and G to A writes G over A and a. Every other base stays.
 * Returns 0 and writes the number of bases to *n; 1 if there are more than 16,000 bases or entries of informative; 2 if their numbers differ.
 * Answers 0, 1, 2. */
uint8_t aql_restore_unconverted_bases(uint8_t *consensus_bases, size_t consensus_bases_len, uint16_t read_flags,
                                      const uint8_t *informative, size_t informative_len, size_t *n);

/* --- Building ---------------------------------------------------------------------------------------------------------------------- */

/* Builds a strand's MM text and ML from a consensus and its evidence. The text is one group: C+m? for C to T or G-m? for G to A, then a comma and a skip
 * for each call, then ';'. A base of the pattern's letter, in upper or lower case, is listed as a call if its position is informative and its counts are
 * not both 0. ML has one value for each call: 256 times the unconverted (EM-Seq) or converted (TAPS) count, divided by the sum of both counts, rounded
 * down, at most 255.
 * The readers below track upper-case letters only, so a tag built on lower-case bases may be refused there, or read at other places.
 * The text takes at most 5 bytes and 2 for each base of the consensus, ML at most 1 for each base.
 * Returns 0 and writes the lengths of text and ML to *mm_len and *ml_len; 13 for an unknown mode; 1 if the consensus or a column is over 16,000; 2 if
 * consensus and columns differ in length; 20 if there is no call, or the mode is AQL_MODE_DISABLED; 12 if mm or ml has no room.
 * Answers 0, 1, 2, 12, 13, 20. */
uint8_t aql_build_mm_ml_tags(const uint8_t *consensus_bases, size_t consensus_bases_len, const uint8_t *informative, size_t informative_len,
                             const uint32_t *unconverted, size_t unconverted_len, const uint32_t *converted, size_t converted_len,
                             uint16_t read_flags, uint8_t mode, uint8_t *mm, size_t mm_room, uint8_t *ml, size_t ml_room,
                             size_t *mm_len, size_t *ml_len);

/* Builds a strand's MM text alone, the same text as aql_build_mm_ml_tags, as the am and bm tags hold it. Returns as aql_build_mm_ml_tags does.
 * Answers 0, 1, 2, 12, 13, 20. */
uint8_t aql_build_mm_tag_no_ml(const uint8_t *consensus_bases, size_t consensus_bases_len, const uint8_t *informative, size_t informative_len,
                               const uint32_t *unconverted, size_t unconverted_len, const uint32_t *converted, size_t converted_len,
                               uint16_t read_flags, uint8_t mode, uint8_t *mm, size_t mm_room, size_t *mm_len);

/* The entries of the array of lengths that the duplex call fills: SEQ, MM and ML, the combined counts (cu, ct), the first strand's text and counts (am,
 * au, at), the second strand's (bm, bu, bt). AQL_DUPLEX_LENGTHS is how many entries there are. */
enum {
    AQL_DUPLEX_SEQ = 0,
    AQL_DUPLEX_MM = 1,
    AQL_DUPLEX_ML = 2,
    AQL_DUPLEX_UNCONVERTED = 3,
    AQL_DUPLEX_CONVERTED = 4,
    AQL_DUPLEX_FIRST_MM = 5,
    AQL_DUPLEX_FIRST_UNCONVERTED = 6,
    AQL_DUPLEX_FIRST_CONVERTED = 7,
    AQL_DUPLEX_SECOND_MM = 8,
    AQL_DUPLEX_SECOND_UNCONVERTED = 9,
    AQL_DUPLEX_SECOND_CONVERTED = 10,
    AQL_DUPLEX_LENGTHS = 11
};

/* Writes SEQ, tags and counts of a record with one strand or two. SEQ is the consensus restored by each strand (aql_restore_unconverted_bases). Each
 * strand's text and ML are built over this SEQ (aql_build_mm_ml_tags); mm and ml are those of both strands joined, C to T first, strands of one pattern
 * in the given order. unconverted and converted are the sums of the strands' counts (cu, ct). Each strand's own text and counts are am, au, at for the
 * first and bm, bu, bt for the second. Counts above 32,767 are written as 32,767. The counts of positions that are not informative are included.
 * With one strand the second's inputs are ignored, its lengths are 0 and its rows stay as they were.
 * A strand without a call has an empty text and adds nothing to mm and ml. So without any call, or with AQL_MODE_DISABLED, all texts and ML are empty;
 * the call still returns 0, with SEQ restored and the counts written.
 * For n bases mm takes at most 4 n + 10 bytes, ml 2 n, each strand's own text 2 n + 5; seq and each row of counts take n.
 * Returns 0 and writes the length of each part to its entry of lengths; 13 for an unknown mode or strands that are not 1 or 2; 1 if the consensus or a
 * strand's column is over 16,000; 2 if the consensus and a strand's columns differ in length; 12 if a row has no room.
 * Answers 0, 1, 2, 12, 13. */
uint8_t aql_duplex_methylation_tags(const uint8_t *bases, size_t bases_len, size_t strands, uint8_t mode,
                                    uint16_t first_flags, const uint8_t *first_informative, size_t first_informative_len,
                                    const uint32_t *first_unconverted, size_t first_unconverted_len,
                                    const uint32_t *first_converted, size_t first_converted_len,
                                    uint16_t second_flags, const uint8_t *second_informative, size_t second_informative_len,
                                    const uint32_t *second_unconverted, size_t second_unconverted_len,
                                    const uint32_t *second_converted, size_t second_converted_len,
                                    uint8_t *seq, size_t seq_room, uint8_t *mm, size_t mm_room, uint8_t *ml, size_t ml_room,
                                    int16_t *unconverted, size_t unconverted_room, int16_t *converted, size_t converted_room,
                                    uint8_t *first_mm, size_t first_mm_room, int16_t *first_unconverted_counts, size_t first_unconverted_counts_room,
                                    int16_t *first_converted_counts, size_t first_converted_counts_room,
                                    uint8_t *second_mm, size_t second_mm_room, int16_t *second_unconverted_counts,
                                    size_t second_unconverted_counts_room, int16_t *second_converted_counts, size_t second_converted_counts_room,
                                    size_t lengths[AQL_DUPLEX_LENGTHS]);

/* --- Reading ----------------------------------------------------------------------------------------------------------------------- */

/* How a tag is read. MM is groups, each closed by ';'. A group's header is what comes before its first comma, and each comma leads an entry: a skip in
 * plain decimal. The header's first byte, in upper case, is the group's base. The group tracks the places of SEQ that hold exactly this byte, so no
 * lower-case letter; a group on N tracks every place. An entry passes over as many tracked places as its skip says, and its call is at the next one. The
 * header's second byte is not checked. The codes are the rest of the header, without '.' and '?' at its end: if they are all digits, or there are none,
 * a call takes one ML value, otherwise one for each byte of the codes. Two groups may list the same place. */

/* Reads a tag and counts its groups and calls. Returns 0 and writes both numbers to *groups and *calls; 1 if an input is too long; 3 to 9 for the first
 * thing that is wrong in MM or ML.
 * Answers 0, 1, 3 to 9. */
uint8_t aql_check_tag(const uint8_t *seq, size_t seq_len, const uint8_t *mm, size_t mm_len, const uint8_t *ml, size_t ml_len, uint8_t has_ml,
                      size_t *groups, size_t *calls);

/* Lists the calls of a tag in three columns: the group's number from 1, the place in SEQ, and where the call's values start in ML (0 without ML). The
 * calls come group by group, and in each group by rising place. A call's values end where those of the next call start, or with ML.
 * Returns 0 and writes how many groups and calls there are to *groups and *calls; the calls fill the front of each column. 1 and 3 to 9 as
 * aql_check_tag, which also tells how much room is needed; 12 if a column has no room.
 * Answers 0, 1, 3 to 9, 12. */
uint8_t aql_read_calls(const uint8_t *seq, size_t seq_len, const uint8_t *mm, size_t mm_len, const uint8_t *ml, size_t ml_len, uint8_t has_ml,
                       uint32_t *call_groups, size_t call_groups_room, uint32_t *call_places, size_t call_places_room,
                       uint32_t *call_starts, size_t call_starts_room, size_t *groups, size_t *calls);

/* Reads a tag and counts how many values of its ML are above (from 128 on) and how many below (under 128). It has no has_ml: ml is always taken as the
 * ML.
 * Returns 0 and writes both numbers to *above and *below, which add up to ml_len; 1 and 3 to 9 as aql_check_tag.
 * Answers 0, 1, 3 to 9. */
uint8_t aql_tally(const uint8_t *seq, size_t seq_len, const uint8_t *mm, size_t mm_len, const uint8_t *ml, size_t ml_len,
                  size_t *above, size_t *below);

/* --- Rewriting a tag, from one row to another -------------------------------------------------------------------------------------- */

/* What every edit does, here and in a session. The tag is read as above, on SEQ before the edit, and written anew. Headers stay as spelled. Skips are
 * counted anew and written without leading zeros, also if no call goes, so that MM can change in spelling alone. A call that goes takes its ML values
 * with it. A group that loses all its calls stays. The edited text and ML are never longer than what came in. */

/* Rewrites a tag after SEQ was masked from `before` to `after`. A tracked base whose byte in `after` is no longer the group's base loses its call and
 * counts in no later skip. This holds for any other byte, not only N: a lower-case letter masks too. A group on N keeps every call and counts every
 * base. A group may lose calls whatever mark its header ends in. If `after` gains a group's base, that base is not counted, and later calls are then
 * read at other places; no number says so.
 * Returns 0 and writes the lengths of the edited text and ML to *mm_out_len and *ml_out_len; 1 if an input is too long; 2 if before and after differ in
 * length; 3 to 9 as aql_check_tag; 12 if mm_out or ml_out has no room, which cannot be if they have the room of mm and ml. Without ML *ml_out_len is 0.
 * Answers 0, 1 to 9, 12. */
uint8_t aql_drop_masked_modifications(const uint8_t *before, size_t before_len, const uint8_t *after, size_t after_len,
                                      const uint8_t *mm, size_t mm_len, const uint8_t *ml, size_t ml_len, uint8_t has_ml,
                                      uint8_t *mm_out, size_t mm_out_room, uint8_t *ml_out, size_t ml_out_room,
                                      size_t *mm_out_len, size_t *ml_out_len);

/* Drops the calls at the places, in every group. SEQ stays, so that their bases still count in later skips. Places may come in any order and more than
 * once; a place past SEQ's end, or without a call, does nothing.
 * Returns as aql_drop_masked_modifications does, without 2; 10 at a call that would go from a group whose header does not end in '?'.
 * Answers 0, 1, 3 to 10, 12. */
uint8_t aql_drop_modifications_at(const uint8_t *seq, size_t seq_len, const uint32_t *places, size_t places_len,
                                  const uint8_t *mm, size_t mm_len, const uint8_t *ml, size_t ml_len, uint8_t has_ml,
                                  uint8_t *mm_out, size_t mm_out_room, uint8_t *ml_out, size_t ml_out_room,
                                  size_t *mm_out_len, size_t *ml_out_len);

/* Rewrites a tag after SEQ was cut from `before` to `after`, the part of `before` that begins at start. In `after` a base may be masked by N or n; every
 * other byte is the one that `before` has there, in the same case. A base that was cut off loses its call and counts in no later skip. So does a masked
 * base, except in a group on N, which keeps its call and counts it. start_known 0 says that the start is not known, and start is ignored. If both are
 * equally long, the start is 0, whatever is given.
 * Returns as aql_drop_masked_modifications does, without 2; 21 if after equals before (the tag is then not read); 11 if the start is unknown or past the
 * end of before, or after is no window of before from there, so also if after is the longer one. 1 comes before 21, and 21 before 11.
 * Answers 0, 1, 3 to 9, 11, 12, 21. */
uint8_t aql_trim_clipped_modifications(const uint8_t *before, size_t before_len, const uint8_t *after, size_t after_len,
                                       uint8_t start_known, size_t start,
                                       const uint8_t *mm, size_t mm_len, const uint8_t *ml, size_t ml_len, uint8_t has_ml,
                                       uint8_t *mm_out, size_t mm_out_room, uint8_t *ml_out, size_t ml_out_room,
                                       size_t *mm_out_len, size_t *ml_out_len);

/* --- The edit session, in the caller's own rows ------------------------------------------------------------------------------------- */

/* A session is SEQ, MM and ML in three rows of the caller's, and an array of lengths that says how many entries of each row it holds. A row may be
 * longer; what lies past its length is neither read nor written. Without ML its row and its length are ignored and stay as they were.
 * AQL_SESSION_LENGTHS is how many lengths there are.
 * After a step that returns 0, the front of each row holds the edited SEQ, MM or ML, and the array holds the new lengths; entries past a new length stay
 * as they were. A step that returns any other number has changed nothing. Every step checks lengths and tag anew, so that the caller may change rows and
 * lengths between steps, and a step needs no opening before it. Places are those of the SEQ that the step finds. */
enum {
    AQL_SESSION_SEQ = 0,
    AQL_SESSION_MM = 1,
    AQL_SESSION_ML = 2,
    AQL_SESSION_LENGTHS = 3
};

/* Opens a session: checks its lengths and reads its tag. Returns 0 and writes how many groups and calls the tag has to *groups and *calls; 1 if a length
 * is over the domain, 2 if one is over its row, then 3 to 9 as aql_check_tag.
 * Answers 0, 1 to 9. */
uint8_t aql_session_open(const uint8_t *seq, size_t seq_room, const uint8_t *mm, size_t mm_room, const uint8_t *ml, size_t ml_room, uint8_t has_ml,
                         const size_t lengths[AQL_SESSION_LENGTHS], size_t *groups, size_t *calls);

/* Masks: writes N to the listed places of SEQ, in any order and more than once; those past its end are ignored. The calls on the masked bases go, and
 * the masked bases count in no later skip. A group on N keeps its calls and counts every base. Returns 0 and writes the new lengths; 1 to 9 as
 * aql_session_open.
 * Answers 0, 1 to 9. */
uint8_t aql_session_mask(uint8_t *seq, size_t seq_room, uint8_t *mm, size_t mm_room, uint8_t *ml, size_t ml_room, uint8_t has_ml,
                         size_t lengths[AQL_SESSION_LENGTHS], const uint32_t *places, size_t places_len);

/* Drops the calls at the listed places, in every group. SEQ stays, so that their bases still count in later skips. Places may come in any order and more
 * than once; a place past SEQ's end, or without a call, does nothing.
 * Returns as aql_session_mask does; 10 at a call that would go from a group whose header does not end in '?'.
 * Answers 0, 1 to 10. */
uint8_t aql_session_drop_calls(const uint8_t *seq, size_t seq_room, uint8_t *mm, size_t mm_room, uint8_t *ml, size_t ml_room, uint8_t has_ml,
                               size_t lengths[AQL_SESSION_LENGTHS], const uint32_t *places, size_t places_len);

/* Cuts `front` bases off the front of SEQ and `back` bases off its back; what is left moves to the front of SEQ's row. The cut bases lose their calls
 * and count in no later skip, in a group on N too. All of SEQ may be cut.
 * Returns as aql_session_mask does; 21 if both are 0 (the tag is then not read), 11 if they are together more than SEQ holds. 1 and 2 come before 21.
 * Answers 0, 1 to 9, 11, 21. */
uint8_t aql_session_cut(uint8_t *seq, size_t seq_room, uint8_t *mm, size_t mm_room, uint8_t *ml, size_t ml_room, uint8_t has_ml,
                        size_t lengths[AQL_SESSION_LENGTHS], uint32_t front, uint32_t back);

/* --- Reads as a BAM record stores them ---------------------------------------------------------------------------------------------- */

/* How a read is stored. A packed SEQ has two bases in each byte, the first of them in the high half. A half is a code from 0 to 15: the place of the
 * base's letter in =ACMGRSVTWYHKDBN. n bases take (n + 1) / 2 bytes. If n is odd, the low half of the last byte is spare: it is never read, and is
 * written as 0. A reverse read is stored reverse-complemented, that is turned: its bases in reverse order, and each of them complemented, by the letters
 * =TGKCYSBAWRDMHVN in the order above. The bases in read orientation are the unpacked bases, turned if `reverse` is not 0.
 * MM and ML stay in read orientation and are never turned. Everything else is counted in the stored read: with `reverse` place p of n bases is the place
 * n - 1 - p in read orientation, so that front and back of a cut change ends, and the start s of a window of k bases is n - k - s (unknown, if the
 * window does not fit). A call here does what the call of the same name does on the bases in read orientation, and what it gives of SEQ and of places is
 * turned back. With `reverse` 0 the same calls serve a forward read.
 * Numbers are returned in the same order: 1 by the stated number of bases, and 2 if the packed bytes are not as many as these bases take, also if there
 * are more of them. */

/* Turns a packed SEQ: writes its reverse complement, packed, to the front of out. Turned twice, it is what it was, with a spare half of 0.
 * Returns 0 and writes the number of bytes to *out_len; 1 if there are more than 16,000 bases; 2 if packed_len is not (bases + 1) / 2; 12 if out has no
 * room.
 * Answers 0, 1, 2, 12. */
uint8_t aql_turn(const uint8_t *packed, size_t packed_len, size_t bases, uint8_t *out, size_t out_room, size_t *out_len);

/* Writes the letters of a stored read to the front of seq, one byte for each base, in read orientation.
 * Returns 0 and writes the number of bases to *seq_len; 1 and 2 as aql_turn; 12 if seq has no room.
 * Answers 0, 1, 2, 12. */
uint8_t aql_unpack(const uint8_t *packed, size_t packed_len, size_t bases, uint8_t reverse, uint8_t *seq, size_t seq_room, size_t *seq_len);

/* Reads the tag of a stored read and counts its groups and calls, as aql_check_tag does.
 * Returns 0 and writes both numbers to *groups and *calls; 1 if there are more than 16,000 bases, or MM or ML is too long; 2 as aql_turn; 3 to 9 as
 * aql_check_tag.
 * Answers 0, 1 to 9. */
uint8_t aql_stored_check_tag(const uint8_t *packed, size_t packed_len, size_t bases, uint8_t reverse,
                             const uint8_t *mm, size_t mm_len, const uint8_t *ml, size_t ml_len, uint8_t has_ml, size_t *groups, size_t *calls);

/* Lists the calls of a stored read's tag in three columns, as aql_read_calls does. The places are those of the stored read. The calls come in the order
 * of the tag, so that with `reverse` the places of a group fall.
 * Returns as aql_stored_check_tag does, and fills the front of each column; 12 if a column has no room.
 * Answers 0, 1 to 9, 12. */
uint8_t aql_stored_read_calls(const uint8_t *packed, size_t packed_len, size_t bases, uint8_t reverse,
                              const uint8_t *mm, size_t mm_len, const uint8_t *ml, size_t ml_len, uint8_t has_ml,
                              uint32_t *call_groups, size_t call_groups_room, uint32_t *call_places, size_t call_places_room,
                              uint32_t *call_starts, size_t call_starts_room, size_t *groups, size_t *calls);

/* Reads the tag of a stored read and counts the values of its ML, as aql_tally does.
 * Returns 0 and writes both numbers to *above and *below; 1 to 9 as aql_stored_check_tag.
 * Answers 0, 1 to 9. */
uint8_t aql_stored_tally(const uint8_t *packed, size_t packed_len, size_t bases, uint8_t reverse,
                         const uint8_t *mm, size_t mm_len, const uint8_t *ml, size_t ml_len, size_t *above, size_t *below);

/* Rewrites the tag of a stored read after its SEQ was masked from `before` to `after`, as aql_drop_masked_modifications does.
 * Returns as aql_drop_masked_modifications does; 1 also if a stated number of bases is over 16,000; 2 if the bytes of before or of after are not as many
 * as its bases take, or the two differ in their number of bases.
 * Answers 0, 1 to 9, 12. */
uint8_t aql_stored_drop_masked_modifications(const uint8_t *before, size_t before_len, size_t before_bases,
                                             const uint8_t *after, size_t after_len, size_t after_bases, uint8_t reverse,
                                             const uint8_t *mm, size_t mm_len, const uint8_t *ml, size_t ml_len, uint8_t has_ml,
                                             uint8_t *mm_out, size_t mm_out_room, uint8_t *ml_out, size_t ml_out_room,
                                             size_t *mm_out_len, size_t *ml_out_len);

/* Drops the calls at the places of the stored read, in every group, as aql_drop_modifications_at does. A place past SEQ's end does nothing.
 * Returns as aql_drop_modifications_at does; 1 and 2 as aql_stored_check_tag.
 * Answers 0, 1 to 10, 12. */
uint8_t aql_stored_drop_modifications_at(const uint8_t *packed, size_t packed_len, size_t bases, uint8_t reverse,
                                         const uint32_t *places, size_t places_len,
                                         const uint8_t *mm, size_t mm_len, const uint8_t *ml, size_t ml_len, uint8_t has_ml,
                                         uint8_t *mm_out, size_t mm_out_room, uint8_t *ml_out, size_t ml_out_room,
                                         size_t *mm_out_len, size_t *ml_out_len);

/* Rewrites the tag of a stored read after its SEQ was cut from `before` to `after`, as aql_trim_clipped_modifications does. start is counted from the
 * stored front of `before`. The two are compared by their bases, so that a spare half plays no part.
 * Returns as aql_trim_clipped_modifications does; 1 also if a stated number of bases is over 16,000; 2 if the bytes of before or of after are not as many
 * as its bases take; 21 if both have the same bases. 2 comes before 21.
 * Answers 0, 1 to 9, 11, 12, 21. */
uint8_t aql_stored_trim_clipped_modifications(const uint8_t *before, size_t before_len, size_t before_bases,
                                              const uint8_t *after, size_t after_len, size_t after_bases, uint8_t reverse,
                                              uint8_t start_known, size_t start,
                                              const uint8_t *mm, size_t mm_len, const uint8_t *ml, size_t ml_len, uint8_t has_ml,
                                              uint8_t *mm_out, size_t mm_out_room, uint8_t *ml_out, size_t ml_out_room,
                                              size_t *mm_out_len, size_t *ml_out_len);

/* A session on a stored read is a packed SEQ, MM and ML in three rows of the caller's, and the array of lengths: its entry AQL_SESSION_SEQ is the number
 * of bases, the other two are those of any session. After a step that returns 0, the front of packed holds the edited SEQ, packed anew, with a spare half
 * of 0 (after a drop too), and the bytes past it stay as they were. So after a cut the row has more bytes than the bases take, and the next step goes on:
 * a step asks for no fewer bytes, while the opening asks for exactly as many. A step that returns any other number has changed nothing, the spare half
 * included. */

/* Opens a session on a stored read: checks its lengths and reads its tag. Returns 0 and writes how many groups and calls the tag has to *groups and
 * *calls; 1 if a length is over the domain; 2 if packed_len is not as many bytes as the bases take, or the length of MM or ML is over its row; then 3 to
 * 9 as aql_check_tag.
 * Answers 0, 1 to 9. */
uint8_t aql_stored_open(const uint8_t *packed, size_t packed_len, uint8_t reverse, const uint8_t *mm, size_t mm_room,
                        const uint8_t *ml, size_t ml_room, uint8_t has_ml, const size_t lengths[AQL_SESSION_LENGTHS], size_t *groups, size_t *calls);

/* Masks the listed places of the stored read, as aql_session_mask does. Returns 0 and writes the new lengths; 1 to 9 as aql_stored_open, but 2 for
 * packed only if it has fewer bytes than the bases take.
 * Answers 0, 1 to 9. */
uint8_t aql_stored_mask(uint8_t *packed, size_t packed_room, uint8_t reverse, uint8_t *mm, size_t mm_room, uint8_t *ml, size_t ml_room, uint8_t has_ml,
                        size_t lengths[AQL_SESSION_LENGTHS], const uint32_t *places, size_t places_len);

/* Drops the calls at the listed places of the stored read, as aql_session_drop_calls does. SEQ keeps its bases, and its spare half becomes 0.
 * Returns as aql_stored_mask does; 10 as aql_session_drop_calls.
 * Answers 0, 1 to 10. */
uint8_t aql_stored_drop_calls(uint8_t *packed, size_t packed_room, uint8_t reverse, uint8_t *mm, size_t mm_room, uint8_t *ml, size_t ml_room,
                              uint8_t has_ml, size_t lengths[AQL_SESSION_LENGTHS], const uint32_t *places, size_t places_len);

/* Cuts `front` bases off the front of the stored read and `back` bases off its back, as aql_session_cut does; what is left moves to the front of packed.
 * Returns as aql_stored_mask does; 21 and 11 as aql_session_cut.
 * Answers 0, 1 to 9, 11, 21. */
uint8_t aql_stored_cut(uint8_t *packed, size_t packed_room, uint8_t reverse, uint8_t *mm, size_t mm_room, uint8_t *ml, size_t ml_room, uint8_t has_ml,
                       size_t lengths[AQL_SESSION_LENGTHS], uint32_t front, uint32_t back);

/* --- The program tagedit as a function ---------------------------------------------------------------------------------------------- */

/* The most bytes that tagedit prints, whatever the input. */
#define AQL_TRANSCRIPT_OUT 81925u

/* Writes what tagedit prints on standard output for a whole input to the front of out, and returns its length; the rest of out stays. docs/SCOPE.md
 * describes the lines. An input of more than 65,536 bytes gives the line AN1 alone. seq, mm and ml are rows to work in: they may hold anything before the
 * call, and their contents after it are unspecified. */
size_t aql_transcript(const uint8_t *input, size_t input_len, uint8_t seq[16000], uint8_t mm[65536], uint8_t ml[32768],
                      uint8_t out[AQL_TRANSCRIPT_OUT]);

#ifdef __cplusplus
}
#endif

#endif
