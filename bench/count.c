/* A plugin for the emulator qemu: counts the instructions that a program runs and prints their number at its end. It is for a machine that is not x86-64, where valgrind
   cannot run the programs. The functions are those of qemu-plugin.h, version 1, which Debian does not package. */
#include <inttypes.h>
#include <stdint.h>
#include <stdio.h>

struct block;
struct instruction;

extern void qemu_plugin_register_vcpu_tb_trans_cb(uint64_t id, void (*made)(uint64_t, struct block *));
extern size_t qemu_plugin_tb_n_insns(const struct block *block);
extern struct instruction *qemu_plugin_tb_get_insn(const struct block *block, size_t index);
extern void qemu_plugin_register_vcpu_insn_exec_inline(struct instruction *instruction, int operation, void *number, uint64_t more);
extern void qemu_plugin_register_atexit_cb(uint64_t id, void (*ended)(uint64_t, void *), void *data);

enum { ADD = 0 };

int qemu_plugin_version = 1;

static uint64_t count;

static void made(uint64_t id, struct block *block) {
    (void)id;
    for (size_t i = 0; i < qemu_plugin_tb_n_insns(block); i++) qemu_plugin_register_vcpu_insn_exec_inline(qemu_plugin_tb_get_insn(block, i), ADD, &count, 1);
}

static void ended(uint64_t id, void *data) {
    (void)id;
    (void)data;
    fprintf(stderr, "instructions: %" PRIu64 "\n", count);
}

int qemu_plugin_install(uint64_t id, const void *info, int argc, char **argv) {
    (void)info;
    (void)argc;
    (void)argv;
    qemu_plugin_register_vcpu_tb_trans_cb(id, made);
    qemu_plugin_register_atexit_cb(id, ended, NULL);
    return 0;
}
