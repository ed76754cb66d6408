/* A plugin of qemu-user (QEMU 7.2, plugin interface 1) that counts how often each instruction is executed. At the end it writes a line `ADDRESS COUNT`
 * (decimal) for every instruction of every translated block to the file that its argument counts=NAME names: several lines if it stands in several blocks.
 *
 * Debian does not package qemu-plugin.h: what is used of it is declared here. */
#include <inttypes.h>
#include <stdio.h>
#include <stdlib.h>
#include <string.h>

typedef uint64_t plugin_id;
struct qemu_plugin_tb;
struct qemu_plugin_insn;
struct qemu_info_t;
enum qemu_plugin_op { QEMU_PLUGIN_INLINE_ADD_U64 };
extern void qemu_plugin_register_vcpu_tb_trans_cb(plugin_id id, void (*call)(plugin_id id, struct qemu_plugin_tb *tb));
extern void qemu_plugin_register_vcpu_tb_exec_inline(struct qemu_plugin_tb *tb, enum qemu_plugin_op op, void *counter, uint64_t step);
extern void qemu_plugin_register_atexit_cb(plugin_id id, void (*call)(plugin_id id, void *data), void *data);
extern size_t qemu_plugin_tb_n_insns(const struct qemu_plugin_tb *tb);
extern struct qemu_plugin_insn *qemu_plugin_tb_get_insn(const struct qemu_plugin_tb *tb, size_t at);
extern uint64_t qemu_plugin_insn_vaddr(const struct qemu_plugin_insn *insn);

int qemu_plugin_version = 1;

/* a translated block: how often it was executed, and where its instructions stand */
struct block {
    struct block *before;
    uint64_t executed;
    size_t length;
    uint64_t at[];
};

static struct block *last;
static FILE *out;

static void translated(plugin_id id, struct qemu_plugin_tb *tb) {
    (void)id;
    size_t length = qemu_plugin_tb_n_insns(tb);
    struct block *one = malloc(sizeof *one + length * sizeof one->at[0]);
    if (!one) abort();
    one->executed = 0;
    one->length = length;
    for (size_t k = 0; k < length; k++) one->at[k] = qemu_plugin_insn_vaddr(qemu_plugin_tb_get_insn(tb, k));
    one->before = last;
    last = one;
    qemu_plugin_register_vcpu_tb_exec_inline(tb, QEMU_PLUGIN_INLINE_ADD_U64, &one->executed, 1);
}

static void ended(plugin_id id, void *data) {
    (void)id, (void)data;
    for (const struct block *one = last; one; one = one->before)
        for (size_t k = 0; one->executed && k < one->length; k++) fprintf(out, "%" PRIu64 " %" PRIu64 "\n", one->at[k], one->executed);
    if (fclose(out)) perror("count: the counts could not be written");
}

int qemu_plugin_install(plugin_id id, const struct qemu_info_t *info, int argc, char **argv) {
    (void)info;
    if (argc != 1 || strncmp(argv[0], "counts=", 7) || !(out = fopen(argv[0] + 7, "w"))) return 1;
    qemu_plugin_register_vcpu_tb_trans_cb(id, translated);
    qemu_plugin_register_atexit_cb(id, ended, NULL);
    return 0;
}
