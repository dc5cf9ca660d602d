// A plug-in for qemu-user: prints how many instructions the program executed, as the last line of standard error.
// The header is not packaged, so what is used of it is declared here; it is the same in versions 1 to 4 of the interface.
#include <inttypes.h>
#include <stddef.h>
#include <stdio.h>

typedef uint64_t id_type;
struct qemu_plugin_tb;
struct qemu_plugin_insn;
enum flags { NO_REGISTERS };

void qemu_plugin_register_vcpu_tb_trans_cb(id_type, void (*)(id_type, struct qemu_plugin_tb *));
size_t qemu_plugin_tb_n_insns(const struct qemu_plugin_tb *);
struct qemu_plugin_insn *qemu_plugin_tb_get_insn(const struct qemu_plugin_tb *, size_t);
void qemu_plugin_register_vcpu_insn_exec_cb(struct qemu_plugin_insn *, void (*)(unsigned, void *), enum flags, void *);
void qemu_plugin_register_atexit_cb(id_type, void (*)(id_type, void *), void *);

int qemu_plugin_version = API;

static uint64_t executed;

static void at_instruction(unsigned cpu, void *unused) {
    executed++;
}

// Each by itself: qemu lists in a block an instruction that it then leaves to the next, since it lies across two pages.
static void at_translation(id_type id, struct qemu_plugin_tb *block) {
    for (size_t k = 0; k < qemu_plugin_tb_n_insns(block); k++) {
        qemu_plugin_register_vcpu_insn_exec_cb(qemu_plugin_tb_get_insn(block, k), at_instruction, NO_REGISTERS, NULL);
    }
}

static void at_exit(id_type id, void *unused) {
    fprintf(stderr, "%" PRIu64 "\n", executed);
}

int qemu_plugin_install(id_type id, const void *info, int argc, char **argv) {
    qemu_plugin_register_vcpu_tb_trans_cb(id, at_translation);
    qemu_plugin_register_atexit_cb(id, at_exit, NULL);
    return 0;
}
