/* Counts the guest instructions that a program executes under qemu's user emulation: the same number on every run and every
   machine. The count is told at each getppid of the program, which marks a place in it, and at its end. A plugin, built by
   bench/instructions. */
#include <inttypes.h>
#include <stddef.h>
#include <stdio.h>

/* what is used of the plugin interface, declared here so that no header of qemu is needed */
typedef uint64_t plugin_id;
struct qemu_plugin_tb;
typedef struct qemu_info qemu_info_t;
size_t qemu_plugin_tb_n_insns(const struct qemu_plugin_tb *block);
void qemu_plugin_register_vcpu_tb_trans_cb(plugin_id id, void (*seen)(plugin_id, struct qemu_plugin_tb *));
void qemu_plugin_register_vcpu_tb_exec_inline(struct qemu_plugin_tb *block, int add, void *to, uint64_t number);
void qemu_plugin_register_vcpu_syscall_cb(plugin_id id, void (*asked)(plugin_id, unsigned, int64_t, uint64_t, uint64_t, uint64_t,
                                                                      uint64_t, uint64_t, uint64_t, uint64_t, uint64_t));
void qemu_plugin_register_atexit_cb(plugin_id id, void (*ended)(plugin_id, void *), void *data);
void qemu_plugin_outs(const char *text);

#define SHOWN __attribute__((visibility("default")))

SHOWN int qemu_plugin_version = 1;

static uint64_t executed;

/* each time a block is entered, its length is added */
static void block_seen(plugin_id id, struct qemu_plugin_tb *block) {
    (void)id;
    qemu_plugin_register_vcpu_tb_exec_inline(block, 0, &executed, qemu_plugin_tb_n_insns(block));
}

static void tell(void) {
    char line[48];
    snprintf(line, sizeof line, "%" PRIu64 "\n", executed);
    qemu_plugin_outs(line);
}

enum { GETPPID = 110 }; /* on x86-64 */

static void system_asked(plugin_id id, unsigned cpu, int64_t number, uint64_t a, uint64_t b, uint64_t c, uint64_t d, uint64_t e,
                         uint64_t f, uint64_t g, uint64_t h) {
    (void)id, (void)cpu, (void)a, (void)b, (void)c, (void)d, (void)e, (void)f, (void)g, (void)h;
    if (number == GETPPID) tell();
}

static void program_ended(plugin_id id, void *data) {
    (void)id;
    (void)data;
    tell();
}

SHOWN int qemu_plugin_install(plugin_id id, const qemu_info_t *info, int argc, char **argv) {
    (void)info;
    (void)argc;
    (void)argv;
    qemu_plugin_register_vcpu_tb_trans_cb(id, block_seen);
    qemu_plugin_register_vcpu_syscall_cb(id, system_asked);
    qemu_plugin_register_atexit_cb(id, program_ended, NULL);
    return 0;
}
