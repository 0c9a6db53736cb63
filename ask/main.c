/* `ask`: answers requests on standard input, one on each line, through the C library's archive. So the library that labs link can be compared with the
 * Rust, with a model, or with anybody's own cases. oracle/README.md describes the requests; tools/ask builds and starts the program.
 *
 * A new request is a function in its family's file, its name in calls.h and a line of the table below; for the load also a line of oracle/src/form.rs.
 *
 * Each request is one turn. An argument gives the number of the first turn. The turn's number decides where the untouchable page is (rows.h), which rows
 * without entries are NULL, and the bits that a call must ignore. The run ends with status 70 if a call touches that page.
 */
#include "calls.h"

struct call {
    const char *name;
    size_t least, most; /* fields */
    size_t rooms;       /* how many numbers of room a request may give */
    void (*ask)(struct request *q);
};

static const struct call calls[] = {
    {"Q", 3, 3, 1, ask_q},         {"CPG", 3, 3, 0, ask_cpg},     {"PAT", 1, 1, 0, ask_pat},         {"FETCH", 2, 2, 1, ask_fetch},
    {"ANN", 6, 6, 1, ask_ann},     {"GATE", 4, 4, 0, ask_gate},   {"TRUNC", 5, 5, 1, ask_trunc},     {"CNT", 4, 4, 1, ask_cnt},
    {"REST", 3, 3, 0, ask_rest},   {"BUILD", 6, 6, 2, ask_build}, {"BUILDMM", 6, 6, 1, ask_buildmm}, {"DUP", 2, 14, 2, ask_dup},
    {"CALLS", 3, 3, 1, ask_calls}, {"TALLY", 3, 3, 0, ask_tally}, {"MASK", 4, 4, 2, ask_mask},       {"DROP", 4, 4, 2, ask_drop},
    {"CUT", 5, 5, 2, ask_cut},     {"STEP", 6, 6, 0, ask_step},
    {"K1.TURN", 2, 2, 1, ask_turn},         {"K1.UNPACK", 3, 3, 1, ask_unpack},     {"K1.CALLS", 5, 5, 1, ask_stored_calls},
    {"K1.PMASK", 7, 7, 2, ask_stored_mask}, {"K1.PDROP", 7, 7, 2, ask_stored_drop}, {"K1.PCUT", 8, 8, 2, ask_stored_cut},
    {"K1.PSES", 6, MOST_FIELDS, 0, ask_stored_session},
    {"K2.RMASK", 3, 3, 0, ask_record_mask}, {"K2.RDROP", 3, 3, 0, ask_record_drop}, {"K2.RCUT", 5, 5, 0, ask_record_cut},
};

/* ---- One request */

/* Splits a line at its tabs; the first part is the name. */
static void split(const uint8_t *line, size_t n, struct field *name, struct request *q)
{
    static struct field fields[MOST_FIELDS];
    size_t from = 0, to, part;
    q->fields = fields;
    q->malformed = 0;
    q->differs = 0;
    q->wrote = 0;
    q->count = 0;
    for (part = 0; from <= n; part++, from = to + 1) {
        struct field f = {line + from, 0};
        for (to = from; to < n && line[to] != '\t'; to++)
            f.n++;
        if (part == 0)
            *name = f;
        else if (q->count < MOST_FIELDS)
            q->fields[q->count++] = f;
        else
            q->malformed = 1;
    }
}

static const struct call *call_of(struct field name)
{
    size_t i;
    for (i = 0; i < sizeof calls / sizeof *calls; i++)
        if (name.n == strlen(calls[i].name) && memcmp(name.at, calls[i].name, name.n) == 0)
            return &calls[i];
    return NULL;
}

/* Takes the room off the end of the fields, if the request gives any. */
static void read_rooms(struct request *q, size_t rooms)
{
    struct row *lent;
    size_t i;
    for (i = 0; i < MOST_ROOMS; i++)
        q->rooms[i] = AMPLE;
    if (q->count == 0 || q->fields[q->count - 1].n == 0 || q->fields[q->count - 1].at[0] != '@')
        return;
    q->fields[q->count - 1].at++;
    q->fields[q->count - 1].n--;
    lent = read_lengths(q, q->count - 1, rooms);
    q->count--;
    if (rooms == 0 || q->malformed)
        q->malformed = 1;
    else
        memcpy(q->rooms, lent->bytes, rooms * sizeof *q->rooms);
}

static void respond(const uint8_t *line, size_t n, uint64_t turn)
{
    struct request q;
    struct field name;
    const struct call *call;
    rows_begin(turn);
    reply_begin();
    split(line, n, &name, &q);
    call = call_of(name);
    if (call != NULL) {
        read_rooms(&q, call->rooms);
        if (q.count < call->least || q.count > call->most)
            q.malformed = 1;
    }
    if (call != NULL && !q.malformed)
        call->ask(&q);
    if (call == NULL || q.malformed)
        add_text("?");
    else if (rows_wrote() || q.wrote)
        add_text("\tWROTE");
    if (q.differs)
        add_text("\tDIFFER");
    reply_end();
}

/* ---- All lines */

/* The length of the longest line that is accepted, with its end. */
#define INPUT 1048576u

static uint8_t input[INPUT];
static uint64_t turns;

/* Answers each line that ends within the first `filled` bytes. Returns the start of the line that does not end there. */
static size_t respond_to_all(size_t filled)
{
    size_t from = 0, to;
    for (to = 0; to < filled; to++)
        if (input[to] == '\n') {
            respond(input + from, to - from, turns++);
            from = to + 1;
        }
    return from;
}

/* Moves what is left to the front of the input. */
static size_t to_front(size_t from, size_t filled)
{
    size_t i;
    for (i = from; i < filled; i++)
        input[i - from] = input[i];
    return filled - from;
}

/* The end of the first line, or `filled` if the line goes on. */
static size_t line_end(size_t filled)
{
    size_t i = 0;
    while (i < filled && input[i] != '\n')
        i++;
    return i;
}

/* Writes the answers before each wait for more input, so that a caller who asks one request at a time gets its answer. */
static void serve(void)
{
    size_t filled = 0;
    int passing = 0; /* inside a line that was too long and is already answered */
    long n;
    while (reply_flush(), (n = read(STANDARD_INPUT, input + filled, INPUT - filled)) > 0) {
        filled += (size_t)n;
        if (passing) {
            size_t end = line_end(filled);
            passing = end == filled;
            filled = to_front(passing ? end : end + 1, filled);
        }
        filled = to_front(respond_to_all(filled), filled);
        if (filled == INPUT) {
            respond(input, 0, turns++);
            passing = 1;
            filled = 0;
        }
    }
    if (filled > 0)
        respond(input, filled, turns++);
    reply_flush();
}

static void on_touch(int number)
{
    (void)number;
    reply_abandon();
    stop("ask: the next request's call touched a byte outside its rows");
}

/* Reads the number of the first turn. Returns whether the word is a number. */
static int first_turn(const char *word)
{
    size_t i;
    for (i = 0; '0' <= word[i] && word[i] <= '9'; i++)
        turns = 10 * turns + (uint64_t)(word[i] - '0');
    return i > 0 && word[i] == 0;
}

int main(int count, char **words)
{
    static const char usage[] = "ask [TURN] < requests > answers\n";
    if (count > 2 || (count == 2 && !first_turn(words[1]))) {
        write(STANDARD_ERROR, usage, sizeof usage - 1);
        return 2;
    }
    signal(SIGSEGV, on_touch);
    signal(SIGBUS, on_touch);
    serve();
    return 0;
}
