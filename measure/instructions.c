/* Counts the instructions of a program that the emulator runs, and prints the number to standard error. Built as a shared
 * object for `qemu-x86_64 -plugin`; declared here is what it uses of that interface, version 1, whose header no package has. */
#include <stdint.h>
#include <stdio.h>

#define EXPORT __attribute__((visibility("default")))
#define ADD_U64 0

typedef uint64_t id;
typedef struct block block;
typedef struct instruction instruction;

size_t qemu_plugin_tb_n_insns(const block *translated);
instruction *qemu_plugin_tb_get_insn(const block *translated, size_t i);
void qemu_plugin_register_vcpu_insn_exec_inline(instruction *one, int operation, void *word, uint64_t amount);
void qemu_plugin_register_vcpu_tb_trans_cb(id plugin, void (*call)(id, block *));
void qemu_plugin_register_atexit_cb(id plugin, void (*call)(id, void *), void *data);

EXPORT int qemu_plugin_version = 1;

static uint64_t count;

/* One by one: a block's own number also counts an instruction that lies across two pages and is left to the next block. */
static void translated(id plugin, block *b) {
    size_t i, n = qemu_plugin_tb_n_insns(b);
    (void)plugin;
    for (i = 0; i < n; i++) qemu_plugin_register_vcpu_insn_exec_inline(qemu_plugin_tb_get_insn(b, i), ADD_U64, &count, 1);
}

static void ended(id plugin, void *data) {
    (void)plugin;
    (void)data;
    fprintf(stderr, "%llu\n", (unsigned long long)count);
}

EXPORT int qemu_plugin_install(id plugin, const void *info, int count_of_words, char **words) {
    (void)info;
    (void)count_of_words;
    (void)words;
    qemu_plugin_register_vcpu_tb_trans_cb(plugin, translated);
    qemu_plugin_register_atexit_cb(plugin, ended, NULL);
    return 0;
}
