// A plugin of qemu-user: at each write of no bytes it says how many instructions have been executed.
// Debian's qemu-user takes plugins and has no header for them, so what is used is declared here.
#include <inttypes.h>
#include <stdio.h>

typedef uint64_t word;
struct block;
int qemu_plugin_version = 1;
void qemu_plugin_register_vcpu_tb_trans_cb(word, void (*)(word, struct block *));
void qemu_plugin_register_vcpu_tb_exec_inline(struct block *, int, void *, word);
void qemu_plugin_register_vcpu_syscall_cb(word, void (*)(word, unsigned, int64_t, word, word, word, word, word, word, word, word));
size_t qemu_plugin_tb_n_insns(const struct block *);

enum { ADD = 0, WRITE = 1 };
static word executed;

static void translated(word id, struct block *b) {
    (void)id;
    qemu_plugin_register_vcpu_tb_exec_inline(b, ADD, &executed, qemu_plugin_tb_n_insns(b));
}

static void called(word id, unsigned cpu, int64_t call, word file, word from, word size, word d, word e, word f, word g, word h) {
    (void)id, (void)cpu, (void)file, (void)from, (void)d, (void)e, (void)f, (void)g, (void)h;
    if (call == WRITE && size == 0) fprintf(stderr, "%" PRIu64 "\n", executed);
}

int qemu_plugin_install(word id, const void *info, int count, char **words) {
    (void)info, (void)count, (void)words;
    qemu_plugin_register_vcpu_tb_trans_cb(id, translated);
    qemu_plugin_register_vcpu_syscall_cb(id, called);
    return 0;
}
