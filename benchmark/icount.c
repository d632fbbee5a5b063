// A plugin of qemu-user's: how many guest instructions run between two marks in the guest's code.
// A mark is a no-op of eight bytes, nopl 0x5eed00NN(%rax,%rax,1), with NN = 1 to start and NN = 2 to stop. Every stop writes one line, the number
// of instructions that ran between the two, without the marks.
// usage: qemu-x86_64 -plugin libicount.so,out=FILE PROGRAM
// Debian 12 packages no qemu-plugin.h, so what is used of it (API version 1) is declared here.
#include <stddef.h>
#include <stdint.h>
#include <stdio.h>
#include <string.h>

#define EXPORTED __attribute__((visibility("default")))

typedef uint64_t plugin_id;
struct qemu_plugin_tb;
struct qemu_plugin_insn;

void qemu_plugin_register_vcpu_tb_trans_cb(plugin_id, void (*)(plugin_id, struct qemu_plugin_tb *));
void qemu_plugin_register_vcpu_insn_exec_cb(struct qemu_plugin_insn *, void (*)(unsigned, void *), int registers, void *);
void qemu_plugin_register_vcpu_insn_exec_inline(struct qemu_plugin_insn *, int operation, void *, uint64_t);
void qemu_plugin_register_atexit_cb(plugin_id, void (*)(plugin_id, void *), void *);
size_t qemu_plugin_tb_n_insns(const struct qemu_plugin_tb *);
struct qemu_plugin_insn *qemu_plugin_tb_get_insn(const struct qemu_plugin_tb *, size_t);
const void *qemu_plugin_insn_data(const struct qemu_plugin_insn *);
size_t qemu_plugin_insn_size(const struct qemu_plugin_insn *);

enum { NO_REGISTERS = 0, ADD = 0 };

EXPORTED int qemu_plugin_version = 1;

static uint64_t executed, executed_at_start;
static FILE *out;

static void start(unsigned cpu, void *unused) {
    (void)cpu, (void)unused;
    executed_at_start = executed;
}

// The start's own instruction is in the difference, or the stop's: one of the two marks, and not the other.
static void stop(unsigned cpu, void *unused) {
    (void)cpu, (void)unused;
    fprintf(out, "%llu\n", (unsigned long long)(executed - executed_at_start - 1));
}

// 1 or 2 for a mark, 0 for any other instruction.
static int mark(const struct qemu_plugin_insn *insn) {
    const unsigned char *byte = qemu_plugin_insn_data(insn);
    if (qemu_plugin_insn_size(insn) != 8) return 0;
    if (memcmp(byte, "\x0f\x1f\x84\x00", 4) != 0 || memcmp(byte + 5, "\x00\xed\x5e", 3) != 0) return 0;
    return byte[4];
}

static void translated(plugin_id id, struct qemu_plugin_tb *block) {
    (void)id;
    size_t n = qemu_plugin_tb_n_insns(block);
    for (size_t i = 0; i < n; i++) {
        struct qemu_plugin_insn *insn = qemu_plugin_tb_get_insn(block, i);
        switch (mark(insn)) {
        case 1: qemu_plugin_register_vcpu_insn_exec_cb(insn, start, NO_REGISTERS, NULL); break;
        case 2: qemu_plugin_register_vcpu_insn_exec_cb(insn, stop, NO_REGISTERS, NULL); break;
        }
        qemu_plugin_register_vcpu_insn_exec_inline(insn, ADD, &executed, 1);
    }
}

static void ended(plugin_id id, void *unused) {
    (void)id, (void)unused;
    fclose(out);
}

EXPORTED int qemu_plugin_install(plugin_id id, const void *info, int argc, char **argv) {
    (void)info;
    if (argc != 1 || strncmp(argv[0], "out=", 4) != 0) {
        fprintf(stderr, "icount: one word is needed, out=FILE\n");
        return 1;
    }
    out = fopen(argv[0] + 4, "w");
    if (!out) {
        perror(argv[0] + 4);
        return 1;
    }
    qemu_plugin_register_vcpu_tb_trans_cb(id, translated);
    qemu_plugin_register_atexit_cb(id, ended, NULL);
    return 0;
}
