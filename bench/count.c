/* A QEMU plugin that counts the instructions of the program that QEMU runs, in buckets. The program chooses the bucket: after its system call 8888
 * with k, instructions count in bucket k. No kernel knows that number, so the same program runs without the plugin too.
 *
 * out=FILE: writes a line for each bucket to FILE, with its number and count. where=K: writes instead the blocks in which the instructions of bucket K
 * were run, the costliest first, with their code.
 *
 * The declarations are those of qemu-plugin.h, version 1 (QEMU 4.2 to 8.2), which Debian does not package. */
#include <stdbool.h>
#include <stdint.h>
#include <stdio.h>
#include <stdlib.h>
#include <string.h>

typedef uint64_t qemu_plugin_id_t;
typedef struct {
    const char *target_name;
    struct { int min, cur; } version;
    bool system_emulation;
    union { struct { int smp_vcpus, max_vcpus; } system; };
} qemu_info_t;
struct qemu_plugin_tb;
struct qemu_plugin_insn;
enum qemu_plugin_cb_flags { QEMU_PLUGIN_CB_NO_REGS };
extern void qemu_plugin_register_vcpu_tb_trans_cb(qemu_plugin_id_t, void (*)(qemu_plugin_id_t, struct qemu_plugin_tb *));
extern void qemu_plugin_register_vcpu_tb_exec_cb(struct qemu_plugin_tb *, void (*)(unsigned, void *), enum qemu_plugin_cb_flags, void *);
extern size_t qemu_plugin_tb_n_insns(const struct qemu_plugin_tb *);
extern struct qemu_plugin_insn *qemu_plugin_tb_get_insn(const struct qemu_plugin_tb *, size_t);
extern uint64_t qemu_plugin_insn_vaddr(const struct qemu_plugin_insn *);
extern const char *qemu_plugin_insn_symbol(const struct qemu_plugin_insn *);
extern char *qemu_plugin_insn_disas(const struct qemu_plugin_insn *);
extern void qemu_plugin_register_vcpu_syscall_cb(qemu_plugin_id_t, void (*)(qemu_plugin_id_t, unsigned, int64_t, uint64_t, uint64_t, uint64_t,
                                                                            uint64_t, uint64_t, uint64_t, uint64_t, uint64_t));
extern void qemu_plugin_register_atexit_cb(qemu_plugin_id_t, void (*)(qemu_plugin_id_t, void *), void *);

#define EXPORTED __attribute__((visibility("default")))
EXPORTED int qemu_plugin_version = 1;

#define BUCKETS 1024
#define CHOOSE_BUCKET 8888
#define SHOWN_BLOCKS 400
static uint64_t counted[BUCKETS];
static unsigned bucket;
static unsigned shown_bucket; /* 0 if only counts are wanted */
static FILE *out;

/* A block of instructions as QEMU translated it. A block that begins with the last instruction of the block that ran before it has the same instruction
 * once more, and a processor counts it once: QEMU runs an instruction with a rep prefix as a loop of blocks, one for each element. And an instruction that
 * crosses a page is listed twice, at the end of one block, which does not run it, and at the front of the next. */
struct block {
    uint64_t first, last, length;
    uint64_t runs; /* in the bucket that is shown */
    const char *symbol;
    char **code;
    struct block *before;
};
static uint64_t ran_last;
static struct block *blocks;

static void block_runs(unsigned cpu, void *data) {
    struct block *b = data;
    counted[bucket] += b->length;
    if (b->first == ran_last) counted[bucket]--;
    if (bucket == shown_bucket) b->runs++;
    ran_last = b->last;
}

/* Blocks are kept to the end, since QEMU keeps their translation. */
static void block_translated(qemu_plugin_id_t id, struct qemu_plugin_tb *tb) {
    size_t n = qemu_plugin_tb_n_insns(tb);
    struct qemu_plugin_insn *first = qemu_plugin_tb_get_insn(tb, 0);
    struct block *b = calloc(1, sizeof *b);
    b->length = n;
    b->first = qemu_plugin_insn_vaddr(first);
    b->last = qemu_plugin_insn_vaddr(qemu_plugin_tb_get_insn(tb, n - 1));
    if (shown_bucket) {
        b->symbol = qemu_plugin_insn_symbol(first);
        b->code = calloc(n, sizeof *b->code);
        for (size_t i = 0; i < n; i++) b->code[i] = qemu_plugin_insn_disas(qemu_plugin_tb_get_insn(tb, i));
    }
    b->before = blocks;
    blocks = b;
    qemu_plugin_register_vcpu_tb_exec_cb(tb, block_runs, QEMU_PLUGIN_CB_NO_REGS, b);
}

static void system_call(qemu_plugin_id_t id, unsigned cpu, int64_t number, uint64_t a1, uint64_t a2, uint64_t a3, uint64_t a4, uint64_t a5,
                        uint64_t a6, uint64_t a7, uint64_t a8) {
    if (number == CHOOSE_BUCKET && a1 < BUCKETS) bucket = a1;
}

static void write_counts(void) {
    for (int k = 1; k < BUCKETS; k++)
        if (counted[k]) fprintf(out, "%d %llu\n", k, (unsigned long long)counted[k]);
}

static struct block *costliest(void) {
    struct block *found = blocks;
    for (struct block *b = blocks; b; b = b->before)
        if (b->runs * b->length > found->runs * found->length) found = b;
    return found;
}

static void write_blocks(void) {
    for (int shown = 0; shown < SHOWN_BLOCKS; shown++) {
        struct block *b = costliest();
        if (!b || !b->runs) return;
        fprintf(out, "%5.1f %% %s: %llu instructions, %llu times\n", 100.0 * b->runs * b->length / counted[shown_bucket],
                b->symbol && *b->symbol ? b->symbol : "(no name)", (unsigned long long)b->length, (unsigned long long)b->runs);
        for (uint64_t i = 0; i < b->length; i++) fprintf(out, "            %s\n", b->code[i]);
        b->runs = 0;
    }
}

static void finished(qemu_plugin_id_t id, void *data) {
    if (shown_bucket) write_blocks();
    else write_counts();
    fflush(out);
}

EXPORTED int qemu_plugin_install(qemu_plugin_id_t id, const qemu_info_t *info, int argc, char **argv) {
    out = stderr;
    for (int i = 0; i < argc; i++) {
        if (!strncmp(argv[i], "out=", 4) && !(out = fopen(argv[i] + 4, "w"))) return -1;
        if (!strncmp(argv[i], "where=", 6)) shown_bucket = atoi(argv[i] + 6);
    }
    qemu_plugin_register_vcpu_tb_trans_cb(id, block_translated);
    qemu_plugin_register_vcpu_syscall_cb(id, system_call);
    qemu_plugin_register_atexit_cb(id, finished, NULL);
    return 0;
}
