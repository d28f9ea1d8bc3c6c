// A plugin for Debian's qemu-x86_64: counts the instructions that a program runs and, with stack=on, the bytes of stack that it reaches.
// Usage: qemu-x86_64 -plugin FILE.so,out=NAME[,stack=on] PROGRAM
// NAME gets a line of two numbers: the instructions, each turn of a repeated one counted; the bytes of stack, or 0. Debian has no header for
// the emulator's plugins: what is used of their interface, version 1, is declared here.
#include <stdbool.h>
#include <stddef.h>
#include <stdint.h>
#include <stdio.h>
#include <string.h>

typedef uint64_t plugin_id;
struct qemu_plugin_tb;
struct qemu_plugin_insn;
enum { ADD_U64 = 0, NO_REGISTERS = 0, READ_AND_WRITE = 3 };

void qemu_plugin_register_vcpu_tb_trans_cb(plugin_id id, void (*seen)(plugin_id, struct qemu_plugin_tb *));
void qemu_plugin_register_atexit_cb(plugin_id id, void (*ended)(plugin_id, void *), void *data);
size_t qemu_plugin_tb_n_insns(const struct qemu_plugin_tb *block);
struct qemu_plugin_insn *qemu_plugin_tb_get_insn(const struct qemu_plugin_tb *block, size_t at);
void qemu_plugin_register_vcpu_insn_exec_inline(struct qemu_plugin_insn *insn, int operation, void *number, uint64_t addend);
void qemu_plugin_register_vcpu_mem_cb(struct qemu_plugin_insn *insn, void (*touched)(unsigned, uint32_t, uint64_t, void *), int flags,
                                      int kind, void *data);

__attribute__((visibility("default"))) int qemu_plugin_version = 1;

static uint64_t instructions, top, lowest;
static bool with_stack;
static char out[4096];

// The first access of a program is to its stack, near the top; of the rest, what lies less than 8 MiB below is the stack's.
static void touched(unsigned cpu, uint32_t info, uint64_t address, void *data) {
    if (top == 0) top = lowest = address;
    if (address < lowest && top - address < (8u << 20)) lowest = address;
}

static void seen(plugin_id id, struct qemu_plugin_tb *block) {
    for (size_t i = 0; i < qemu_plugin_tb_n_insns(block); i++) {
        struct qemu_plugin_insn *insn = qemu_plugin_tb_get_insn(block, i);
        qemu_plugin_register_vcpu_insn_exec_inline(insn, ADD_U64, &instructions, 1);
        if (with_stack) qemu_plugin_register_vcpu_mem_cb(insn, touched, NO_REGISTERS, READ_AND_WRITE, NULL);
    }
}

static void ended(plugin_id id, void *data) {
    FILE *file = fopen(out, "w");
    if (file == NULL) return;
    fprintf(file, "%llu %llu\n", (unsigned long long)instructions, (unsigned long long)(top - lowest));
    fclose(file);
}

__attribute__((visibility("default"))) int qemu_plugin_install(plugin_id id, const void *info, int count, char **words) {
    for (int i = 0; i < count; i++) {
        if (strncmp(words[i], "out=", 4) == 0) snprintf(out, sizeof out, "%s", words[i] + 4);
        if (strcmp(words[i], "stack=on") == 0) with_stack = true;
    }
    qemu_plugin_register_vcpu_tb_trans_cb(id, seen);
    qemu_plugin_register_atexit_cb(id, ended, NULL);
    return 0;
}
