/* Counts the instructions that an emulated program runs between two marks: a plugin for QEMU's user emulation.
 *
 *     qemu-x86_64 -plugin insn.so,out=FILE PROGRAM
 *
 * A mark is the system call MARK, which no kernel has, with one argument: 0 begins to count, any other number ends the
 * count and puts a line "number count" into FILE. The same program gives the same counts every time.
 * The interface is declared here, because Debian packages no header for it. */
#include <inttypes.h>
#include <stddef.h>
#include <stdio.h>
#include <string.h>

#ifndef VERSION
#define VERSION 1 /* of the plugin interface; later emulators want a greater one */
#endif
#define MARK 0x70616368

typedef uint64_t plugin_id;
struct qemu_plugin_tb;
typedef void on_translation(plugin_id, struct qemu_plugin_tb *);
typedef void on_execution(unsigned int cpu, void *data);
typedef void on_system_call(plugin_id, unsigned int cpu, int64_t number, uint64_t, uint64_t, uint64_t, uint64_t, uint64_t,
                            uint64_t, uint64_t, uint64_t);
extern void qemu_plugin_register_vcpu_tb_trans_cb(plugin_id, on_translation *);
extern void qemu_plugin_register_vcpu_tb_exec_cb(struct qemu_plugin_tb *, on_execution *, int flags, void *data);
extern void qemu_plugin_register_vcpu_syscall_cb(plugin_id, on_system_call *);
extern size_t qemu_plugin_tb_n_insns(const struct qemu_plugin_tb *);

#define PUBLIC __attribute__((visibility("default")))
PUBLIC int qemu_plugin_version = VERSION;

static uint64_t count, begun;
static FILE *out;

/* A block of instructions is about to run from its first to its last; a system call is always the last of a block. */
static void executed(unsigned int cpu, void *length) {
    (void)cpu;
    count += (uintptr_t)length;
}

static void translated(plugin_id id, struct qemu_plugin_tb *block) {
    (void)id;
    qemu_plugin_register_vcpu_tb_exec_cb(block, executed, 0, (void *)(uintptr_t)qemu_plugin_tb_n_insns(block));
}

static void called(plugin_id id, unsigned int cpu, int64_t number, uint64_t label, uint64_t a2, uint64_t a3, uint64_t a4,
                   uint64_t a5, uint64_t a6, uint64_t a7, uint64_t a8) {
    (void)id, (void)cpu, (void)a2, (void)a3, (void)a4, (void)a5, (void)a6, (void)a7, (void)a8;
    if (number != MARK) return;
    if (label == 0) {
        begun = count;
    } else {
        fprintf(out, "%" PRIu64 " %" PRIu64 "\n", label, count - begun);
        fflush(out);
    }
}

PUBLIC int qemu_plugin_install(plugin_id id, const void *info, int argc, char **argv) {
    (void)info;
    for (int i = 0; i < argc; i++)
        if (strncmp(argv[i], "out=", 4) == 0) out = fopen(argv[i] + 4, "w");
    if (!out) {
        fprintf(stderr, "insn: the plugin wants out=FILE, a file that can be written\n");
        return 1;
    }
    qemu_plugin_register_vcpu_tb_trans_cb(id, translated);
    qemu_plugin_register_vcpu_syscall_cb(id, called);
    return 0;
}
