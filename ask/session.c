/* STEP: one step of an edit session, in the caller's own rows. */
#include "calls.h"

/* STEP seq mm ml lens kind args */
void ask_step(struct request *q)
{
    uint8_t has_ml, number;
    struct row *seq = read_bytes(q, 0, BASES), *mm = read_bytes(q, 1, BYTES), *ml = read_ml(q, 2, &has_ml);
    struct row *lengths = read_lengths(q, 3, AQL_SESSION_LENGTHS);
    struct row *given = read_places(q, 5);
    int masks = field_spells(q, 4, "MK"), drops = field_spells(q, 4, "DR"), cuts = field_spells(q, 4, "CU");
    if (!(masks || drops || (cuts && given->n == 2)))
        q->malformed = 1;
    if (!ready(q))
        return;
    if (masks)
        number = aql_session_mask(U8(seq), U8(mm), U8(ml), has_ml, as_size(lengths), U32(given));
    else if (drops)
        number = aql_session_drop_calls(U8(seq), U8(mm), U8(ml), has_ml, as_size(lengths), U32(given));
    else
        number = aql_session_cut(U8(seq), U8(mm), U8(ml), has_ml, as_size(lengths), as_u32(given)[0], as_u32(given)[1]);
    if (!answered(number))
        return;
    /* The whole rows are printed. The bytes past the new lengths are unchanged, which rows_wrote checks too. */
    put_whole(seq, drops ? 0 : written(lengths, AQL_SESSION_SEQ));
    put_whole(mm, written(lengths, AQL_SESSION_MM));
    if (has_ml)
        put_whole(ml, written(lengths, AQL_SESSION_ML));
    else
        put_dash();
    put_sizes(lengths, AQL_SESSION_LENGTHS);
}
