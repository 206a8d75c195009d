/* A plug-in for qemu-x86_64 that counts the instructions of the program that runs in it, and says how many at its end on stderr.
 *
 *   cc -O2 -shared -fPIC instructions.c -o instructions.so && qemu-x86_64 -plugin instructions.so PROGRAM
 *
 * Times in an emulator say little of the machine that it stands for. The number of instructions is the program's own, wherever it runs. The emulator's header
 * is often not there where the emulator is, so what is used of it is declared here (qemu-plugin.h, version 1). */
#include <inttypes.h>
#include <stddef.h>
#include <stdint.h>
#include <stdio.h>

enum { ADD = 0 };

typedef uint64_t plugin;
struct block; /* instructions that run from the first to the last */

size_t qemu_plugin_tb_n_insns(const struct block *);
void qemu_plugin_register_vcpu_tb_trans_cb(plugin, void (*)(plugin, struct block *));
void qemu_plugin_register_vcpu_tb_exec_inline(struct block *, int operation, void *to, uint64_t number);
void qemu_plugin_register_atexit_cb(plugin, void (*)(plugin, void *), void *);

int qemu_plugin_version = 1;
static uint64_t instructions;

/* Each time that the block runs, as many more. */
static void see_block(plugin self, struct block *seen) {
    (void)self;
    qemu_plugin_register_vcpu_tb_exec_inline(seen, ADD, &instructions, qemu_plugin_tb_n_insns(seen));
}

static void say(plugin self, void *nothing) {
    (void)self, (void)nothing;
    fprintf(stderr, "%" PRIu64 "\n", instructions);
}

int qemu_plugin_install(plugin self, const void *about, int argc, char **argv) {
    (void)about, (void)argc, (void)argv;
    qemu_plugin_register_vcpu_tb_trans_cb(self, see_block);
    qemu_plugin_register_atexit_cb(self, say, NULL);
    return 0;
}
