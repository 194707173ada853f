/* A plugin of qemu-user that counts the instructions executed between marks.
 *
 *   qemu-x86_64 -plugin ./counter.so,out=FILE,mark=0xADDRESS PROGRAM
 *
 * Each time that the program enters the function at ADDRESS, a line of FILE gets the instructions executed so far. Debian has no
 * header of qemu's plugins, so the prototypes that are used stand here; PLUGIN_VERSION is the interface's that qemu takes. */
#include <inttypes.h>
#include <stddef.h>
#include <stdint.h>
#include <stdio.h>
#include <stdlib.h>
#include <string.h>

struct qemu_plugin_tb;
struct qemu_plugin_insn;
enum qemu_plugin_cb_flags { QEMU_PLUGIN_CB_NO_REGS };
void qemu_plugin_register_vcpu_tb_trans_cb(uint64_t id, void (*)(uint64_t id, struct qemu_plugin_tb *));
void qemu_plugin_register_vcpu_insn_exec_cb(struct qemu_plugin_insn *, void (*)(unsigned, void *), enum qemu_plugin_cb_flags, void *);
void qemu_plugin_register_atexit_cb(uint64_t id, void (*)(uint64_t id, void *), void *);
size_t qemu_plugin_tb_n_insns(const struct qemu_plugin_tb *);
struct qemu_plugin_insn *qemu_plugin_tb_get_insn(const struct qemu_plugin_tb *, size_t);
uint64_t qemu_plugin_insn_vaddr(const struct qemu_plugin_insn *);

#define EXPORT __attribute__((visibility("default")))
EXPORT int qemu_plugin_version = PLUGIN_VERSION;

static FILE *out;
static uint64_t mark, executed;

static void at_instruction(unsigned processor, void *unused)
{
    (void)processor, (void)unused;
    executed++;
}

static void at_mark(unsigned processor, void *unused)
{
    fprintf(out, "%" PRIu64 "\n", executed);
    at_instruction(processor, unused);
}

/* Instruction by instruction: what qemu says of a whole block counts one too many where the block ends at the end of a page. */
static void translated(uint64_t id, struct qemu_plugin_tb *block)
{
    (void)id;
    for (size_t i = 0; i < qemu_plugin_tb_n_insns(block); i++) {
        struct qemu_plugin_insn *instruction = qemu_plugin_tb_get_insn(block, i);
        qemu_plugin_register_vcpu_insn_exec_cb(instruction, qemu_plugin_insn_vaddr(instruction) == mark ? at_mark : at_instruction,
                                               QEMU_PLUGIN_CB_NO_REGS, NULL);
    }
}

static void ended(uint64_t id, void *unused)
{
    (void)id, (void)unused;
    fclose(out);
}

EXPORT int qemu_plugin_install(uint64_t id, const void *info, int argc, char **argv)
{
    (void)info;
    for (int i = 0; i < argc; i++) {
        if (strncmp(argv[i], "out=", 4) == 0)
            out = fopen(argv[i] + 4, "w");
        else if (strncmp(argv[i], "mark=", 5) == 0)
            mark = strtoull(argv[i] + 5, NULL, 0);
    }
    if (!out || !mark)
        return -1;
    qemu_plugin_register_vcpu_tb_trans_cb(id, translated);
    qemu_plugin_register_atexit_cb(id, ended, NULL);
    return 0;
}
