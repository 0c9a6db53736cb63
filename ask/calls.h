/* The requests, one function each; main.c has their names. */
#ifndef ASK_CALLS_H
#define ASK_CALLS_H

#include "request.h"

/* The evidence of a consensus: three columns, read from three fields; and the arguments that a call takes for it. */
struct columns {
    struct row *informative, *unconverted, *converted;
};
struct columns read_columns(struct request *q, size_t k);
#define COLUMNS(c) U8((c).informative), U32((c).unconverted), U32((c).converted)

/* The calls of a tag in three columns, with room for those that a text of so many bytes can list (an entry has at least two bytes); the arguments that a
 * call takes for them; and the fields of the answer, for an ML of so many values. */
struct listing {
    struct row *groups, *places, *starts, *group_count, *call_count;
};
struct listing output_calls(struct request *q, size_t text);
#define LISTING(c) U32((c).groups), U32((c).places), U32((c).starts), as_size((c).group_count), as_size((c).call_count)
void put_calls(struct listing c, uint8_t has_ml, size_t ml);

/* A tag, from two fields, and the rows that the edited tag is written to. An edited tag is never longer than the tag that came in. The arguments that an
 * edit takes for it; and the edit's answer. */
struct tag {
    uint8_t has_ml;
    struct row *mm, *ml, *mm_out, *ml_out, *mm_len, *ml_len;
};
struct tag read_tag(struct request *q, size_t k);
#define TAG(t) U8((t).mm), U8((t).ml), (t).has_ml, U8((t).mm_out), U8((t).ml_out), as_size((t).mm_len), as_size((t).ml_len)
void put_edited(struct tag t, uint8_t number);

/* The start of a window. If it is not known, some number is passed, which the call must ignore. */
size_t read_start(struct request *q, size_t k, uint8_t *known);

/* alignment.c */
void ask_q(struct request *q);
void ask_cpg(struct request *q);
void ask_pat(struct request *q);
void ask_fetch(struct request *q);

/* evidence.c */
void ask_ann(struct request *q);
void ask_gate(struct request *q);
void ask_trunc(struct request *q);
void ask_cnt(struct request *q);
void ask_rest(struct request *q);

/* building.c */
void ask_build(struct request *q);
void ask_buildmm(struct request *q);
void ask_dup(struct request *q);

/* reading.c */
void ask_calls(struct request *q);
void ask_tally(struct request *q);

/* rewriting.c */
void ask_mask(struct request *q);
void ask_drop(struct request *q);
void ask_cut(struct request *q);

/* session.c */
void ask_step(struct request *q);

/* stored.c */
void ask_turn(struct request *q);
void ask_unpack(struct request *q);
void ask_stored_calls(struct request *q);
void ask_stored_mask(struct request *q);
void ask_stored_drop(struct request *q);
void ask_stored_cut(struct request *q);
void ask_stored_session(struct request *q);

/* records.c */
void ask_record_mask(struct request *q);
void ask_record_drop(struct request *q);
void ask_record_cut(struct request *q);

#endif
