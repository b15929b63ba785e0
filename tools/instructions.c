/* A plugin for qemu's emulators: tells how many instructions a program ran, in callgrind's words. For tools/instructions.
 * Debian ships no qemu-plugin.h: what is used of it stands here, version 1 of the interface, as qemu 7.2 has it. */
#include <inttypes.h>
#include <stddef.h>
#include <stdio.h>

struct qemu_info;
struct qemu_plugin_tb;
typedef uint64_t qemu_plugin_id_t;
enum qemu_plugin_op { QEMU_PLUGIN_INLINE_ADD_U64 };

void qemu_plugin_register_vcpu_tb_trans_cb(qemu_plugin_id_t id, void (*call)(qemu_plugin_id_t, struct qemu_plugin_tb *));
size_t qemu_plugin_tb_n_insns(const struct qemu_plugin_tb *block);
void qemu_plugin_register_vcpu_tb_exec_inline(struct qemu_plugin_tb *block, enum qemu_plugin_op op, void *place, uint64_t value);
void qemu_plugin_register_atexit_cb(qemu_plugin_id_t id, void (*call)(qemu_plugin_id_t, void *), void *data);
void qemu_plugin_outs(const char *text);

extern int qemu_plugin_version;
int qemu_plugin_install(qemu_plugin_id_t id, const struct qemu_info *info, int argc, char **argv);

int qemu_plugin_version = 1;
static uint64_t instructions;
static int several;

static void translated(qemu_plugin_id_t id, struct qemu_plugin_tb *block) {
    (void)id;
    /* A block of several may be left before its end, and would be counted whole. */
    if (qemu_plugin_tb_n_insns(block) != 1) several = 1;
    qemu_plugin_register_vcpu_tb_exec_inline(block, QEMU_PLUGIN_INLINE_ADD_U64, &instructions, 1);
}

static void ended(qemu_plugin_id_t id, void *data) {
    char line[64];
    (void)id, (void)data;
    snprintf(line, sizeof line, "Collected : %" PRIu64 "\n", instructions);
    qemu_plugin_outs(several ? "not counted: qemu does not run one instruction at a time\n" : line);
}

int qemu_plugin_install(qemu_plugin_id_t id, const struct qemu_info *info, int argc, char **argv) {
    (void)info, (void)argc, (void)argv;
    qemu_plugin_register_vcpu_tb_trans_cb(id, translated);
    qemu_plugin_register_atexit_cb(id, ended, NULL);
    return 0;
}
