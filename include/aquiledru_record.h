/* Aquiledru's record layer: the base-modification tags of one BAM record, edited in step with its SEQ, every function proved.
 *
 * This is a library of its own, librecord_lib.a, and needs nothing of aquiledru.h and libtaglib.a. A program may include both headers and link both
 * archives, in any order.
 *
 * A record is that of SAM v1, section 4.2, without the block size before it: the fixed 32 bytes, the read name, the CIGAR words, the packed SEQ, the
 * qualities, and the optional fields. The caller has already masked or cut SEQ in the record. A call reads the record, and writes it to another row with
 * its tags edited to fit. It changes the fields MM, ML, MN, am and bm alone: all other bytes stay as they came, in their order, and an edited field stays
 * where it was. The new length is also the record's new block size.
 *
 * How the calls are made
 *
 * - Numbers. Each call returns a number of the table below. If it is 0, the new record fills the front of `out`, and the rest of `out` stays as it was;
 *   *out_len is the new record's length, and *went is 1 if a field was removed and 0 if none was. If it is not 0, nothing is written: no byte of `out`,
 *   neither *out_len nor *went.
 * - Rows. A row is a pointer and its number of entries (not of bytes). NULL with 0 entries is an empty row. The bytes of an input may be anything. No call
 *   keeps a pointer, allocates, or has any state.
 * - Room. A mask or a drop never makes a record longer, and a cut makes it longer by at most AQL_RECORD_GROWTH bytes. So bam_len + AQL_RECORD_GROWTH bytes
 *   are always enough. Only the length of the finished record counts: `out` may be shorter than the record that came.
 * - What the caller owes, since no call can check it: a pointer leads to as many entries as its length or room says; out_len and went are not NULL; `out`,
 *   *out_len and *went overlap neither one another nor anything else that is given to the same call, so that no record can be edited in place; during the
 *   call nobody else writes to any of it or reads what the call may write; the stack has room for the call. Rows that are only read may overlap one
 *   another.
 * - Stack. No theorem bounds it, and a program can end at its stack's guard page. tools/stack-use reads the stack off the machine code, without that of C's
 *   memcpy and memset; docs/STACK.md has the bytes of each call. A call takes at most:
 *     54,000 bytes: every call.
 * - Yes and no. A uint8_t that asks for a yes is yes for every value but 0.
 * - Orientation. `before`, places and start are those of the stored read; places and start count from 0. MM and ML are always in read orientation, and the
 *   call itself turns the others to it: SEQ, places and start if the record is reverse, that is if its flag 0x10 is set, and so `before`, but in a cut if
 *   before_reverse is yes.
 * - Letters. `before` has a byte for each base, which is compared with SEQ's letter as it is; SEQ's letters are those of =ACMGRSVTWYHKDBN by their codes,
 *   so in upper case. Turned, A and T, C and G, R and Y, K and M, B and V, D and H become each other in the same case, U becomes A and u becomes a, and
 *   any other byte stays.
 *
 * What becomes of the tags
 *
 * - A record without MM, am and bm, of whatever type, stays as it came, with its ML and MN.
 * - The first field of a name counts. Further fields of that name stay as they came, and are not looked at, with one exception: if a cut removes the first
 *   MN together with MM, then the next MN is the first one left, and gets SEQ's length.
 * - MN is the field MN if it is of an integer type (c, C, s, S, i or I); a negative one agrees with no length. If it is not the length that the tags were
 *   written for, then MM, ML, MN, am and bm all go, whatever their types. An MN of another type is not compared, and goes where MN goes.
 * - MM of type Z is edited together with an ML of type B:C, and alone if there is no ML. If ML is of another type, or the edit refuses, then MM, ML and MN
 *   go. MM of another type stays, and so does its ML. am and bm of type Z are each edited without ML, and go alone if the edit refuses.
 * - A tag is edited as by aql_drop_masked_modifications, aql_drop_modifications_at and aql_trim_clipped_modifications of aquiledru.h, in read orientation.
 *   The edit refuses where these calls refuse the tag.
 *
 * docs/PROVED.md says what is proved of each call, docs/DIFFERENCES.md where the answers differ from the Rust original.
 */
#ifndef AQUILEDRU_RECORD_H
#define AQUILEDRU_RECORD_H

#include <stddef.h>
#include <stdint.h>

#ifdef __cplusplus
extern "C" {
#endif

/* The numbers; 0, 1 and 12 are those of aquiledru.h. If several apply, the first in this order is returned: 14, 15, 1, 12. Each call can return every one
 * of them. */
enum {
    AQL_RECORD_DONE = 0,
    AQL_RECORD_TOO_LONG = 1,   /* SEQ or `before` has more than AQL_RECORD_MAX_SEQ bases, an MM, am or bm of type Z has more than AQL_RECORD_MAX_MM bytes
                                  without its NUL, or an ML of type B:C more than AQL_RECORD_MAX_MM values; also if nothing would be edited */
    AQL_RECORD_NO_ROOM = 12,   /* the new record is longer than `out` */
    AQL_RECORD_SHORT = 14,     /* the record has fewer than 32 bytes, or fewer than its name, CIGAR, SEQ and qualities take */
    AQL_RECORD_BAD_FIELDS = 15 /* the optional fields do not parse: fewer than three bytes are left for a name and a type; the type is none of
                                  A c C s S i I f Z H B, or the subtype of an array none of c C s S i I f; a text has no NUL; a value goes past the end */
};

/* The domain. A longer input is refused with 1. Any length is allowed for the record itself, for `out` and for a list of places. */
#define AQL_RECORD_MAX_SEQ 16000u /* bases of SEQ and of `before` */
#define AQL_RECORD_MAX_MM 65536u  /* bytes of MM, of am and of bm; values of ML */

/* How many bytes a new record is longer than the old one at most. */
#define AQL_RECORD_GROWTH 3u

/* Edits the tags after bases of SEQ were masked: `before` has SEQ's letters before that, as stored. First MN is compared with the length of SEQ. Then
 * nothing changes if `before` has SEQ's letters now. If `before` has another length than SEQ, every edit refuses.
 * Returns 0 and writes the new record, its length and whether a field went; 14, 15, 1 and 12 as above.
 * Answers 0, 1, 12, 14, 15. */
uint8_t aql_mask_record(const uint8_t *bam, size_t bam_len, const uint8_t *before, size_t before_len,
                        uint8_t *out, size_t out_room, size_t *out_len, size_t *went);

/* Drops the calls at the listed places of the stored read. Places may come in any order and more than once; a place past SEQ's end, or without a call, does
 * nothing. Without a place the record stays as it came, whatever its MN; with places, also past the end, MN is compared with the length of SEQ. A tag that
 * would lose a call from a group whose header does not end in '?' goes.
 * Returns 0 and writes the new record, its length and whether a field went; 14, 15, 1 and 12 as above.
 * Answers 0, 1, 12, 14, 15. */
uint8_t aql_drop_record(const uint8_t *bam, size_t bam_len, const uint32_t *places, size_t places_len,
                        uint8_t *out, size_t out_room, size_t *out_len, size_t *went);

/* Edits the tags after SEQ was cut: `before` has its letters before that, as they were stored, and before_reverse says whether the record was reverse
 * then. start is where SEQ begins in `before`, counted from the stored front; with start_known 0 it is ignored.
 * If neither `before` nor SEQ has a base, the record stays as it came, whatever its MN. Otherwise MN is first compared with the length of `before`. Then
 * the record stays as it came if SEQ is the same as `before` in read orientation. Otherwise SEQ must be a window of `before`, base by base the same or N;
 * if it is not, or its place is not known, then MM, ML, MN, am and bm all go. With the same length the window begins at 0, whatever start and
 * before_reverse are; with another length its place is known if start is known and before_reverse is as the record's flag 0x10.
 * After a cut to another length, MN (if it is still there) is SEQ's length, of type i, where it stood. This alone can make a record longer.
 * Returns 0 and writes the new record, its length and whether a field went; 14, 15, 1 and 12 as above.
 * Answers 0, 1, 12, 14, 15. */
uint8_t aql_cut_record(const uint8_t *bam, size_t bam_len, const uint8_t *before, size_t before_len, uint8_t before_reverse,
                       uint8_t start_known, size_t start, uint8_t *out, size_t out_room, size_t *out_len, size_t *went);

#ifdef __cplusplus
}
#endif

#endif
