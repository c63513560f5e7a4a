/* A plugin of QEMU's user mode, version 1 of its interface, that counts the instructions which a program executes. At the end it
 * prints a line `instructions COUNT` on standard error. Debian ships no header for plugins, so what is used of it is declared here. */
#include <inttypes.h>
#include <stddef.h>
#include <stdio.h>

#define SHOWN __attribute__((visibility("default")))

struct block;
enum operation { ADD };
void qemu_plugin_register_vcpu_tb_trans_cb(uint64_t id, void (*done)(uint64_t, struct block *));
void qemu_plugin_register_vcpu_tb_exec_inline(struct block *block, enum operation operation, void *number, uint64_t by);
size_t qemu_plugin_tb_n_insns(const struct block *block);
void qemu_plugin_register_atexit_cb(uint64_t id, void (*done)(uint64_t, void *), void *data);

SHOWN int qemu_plugin_version = 1;
static uint64_t count;

/* Each run of a block adds as many as it has. */
static void translated(uint64_t id, struct block *block) {
    (void)id;
    qemu_plugin_register_vcpu_tb_exec_inline(block, ADD, &count, qemu_plugin_tb_n_insns(block));
}

static void ended(uint64_t id, void *data) {
    (void)id;
    (void)data;
    fprintf(stderr, "instructions %" PRIu64 "\n", count);
}

SHOWN int qemu_plugin_install(uint64_t id, const void *info, int words, char **word) {
    (void)info;
    (void)words;
    (void)word;
    qemu_plugin_register_vcpu_tb_trans_cb(id, translated);
    qemu_plugin_register_atexit_cb(id, ended, NULL);
    return 0;
}
