/* A plugin for Debian's qemu-user 7.2 (apt-get install qemu-user): counts the guest's instructions and
   writes the count to standard error at the end. Debian ships neither plugins nor qemu-plugin.h, so the
   few declarations of its version 1 stand here.
     gcc -O2 -shared -fPIC count.c -o count.so
     qemu-x86_64 -plugin ./count.so -d plugin -L /usr/x86_64-linux-gnu PROGRAM
   With any argument (-plugin ./count.so,each=on) it writes a line for each instruction too: its address, and how often it ran.

   Each instruction is counted by itself. A block's length, added once for each run of the block, is one too many where its last instruction lies
   across two pages: the emulator takes that one out of the block again, and the block's length still has it. */
#include <stddef.h>
#include <stdint.h>
#include <stdio.h>
#include <stdlib.h>

typedef uint64_t qemu_plugin_id_t;
struct qemu_plugin_tb;
struct qemu_plugin_insn;
typedef void (*tb_cb)(qemu_plugin_id_t, struct qemu_plugin_tb *);
typedef void (*end_cb)(qemu_plugin_id_t, void *);
enum op { QEMU_PLUGIN_INLINE_ADD_U64 };
void qemu_plugin_register_vcpu_tb_trans_cb(qemu_plugin_id_t, tb_cb);
void qemu_plugin_register_vcpu_insn_exec_inline(struct qemu_plugin_insn *, enum op, void *, uint64_t);
void qemu_plugin_register_atexit_cb(qemu_plugin_id_t, end_cb, void *);
size_t qemu_plugin_tb_n_insns(const struct qemu_plugin_tb *);
struct qemu_plugin_insn *qemu_plugin_tb_get_insn(const struct qemu_plugin_tb *, size_t);
uint64_t qemu_plugin_insn_vaddr(const struct qemu_plugin_insn *);

__attribute__((visibility("default"))) int qemu_plugin_version = 1;
static uint64_t count;
static int listed;

struct place {
    uint64_t at, times;
    struct place *next;
};
static struct place *all;

static void block(qemu_plugin_id_t id, struct qemu_plugin_tb *tb) {
    for (size_t i = 0; i < qemu_plugin_tb_n_insns(tb); i++) {
        struct qemu_plugin_insn *one = qemu_plugin_tb_get_insn(tb, i);
        uint64_t *counter = &count;
        if (listed) {
            struct place *p = malloc(sizeof *p);
            *p = (struct place){qemu_plugin_insn_vaddr(one), 0, all};
            all = p;
            counter = &p->times;
        }
        qemu_plugin_register_vcpu_insn_exec_inline(one, QEMU_PLUGIN_INLINE_ADD_U64, counter, 1);
    }
}
static void end(qemu_plugin_id_t id, void *p) {
    for (struct place *q = all; q; q = q->next) {
        count += q->times;
        fprintf(stderr, "at %lx %lu\n", (unsigned long)q->at, (unsigned long)q->times);
    }
    fprintf(stderr, "instructions %lu\n", (unsigned long)count);
}

__attribute__((visibility("default"))) int qemu_plugin_install(qemu_plugin_id_t id, const void *info, int n, char **a) {
    listed = n > 0;
    qemu_plugin_register_vcpu_tb_trans_cb(id, block);
    qemu_plugin_register_atexit_cb(id, end, NULL);
    return 0;
}
