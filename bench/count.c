/* A plugin of the emulator, qemu-x86_64 of Debian 12 (7.2): it counts the instructions that a program executes, which
 * are the same at every run, whatever else the machine does. The program asks for the number so far by a system call
 * that Linux does not have: syscall(9999, &number) stores it. Without the plugin the number stays as it was.
 * tools/run-counted builds and lends it. Debian has no header for plugins, so what is used is declared here. */
#include <stddef.h>
#include <stdint.h>

enum { ASKED = 9999, ADD = 0, PAGE = 4096 };

typedef struct qemu_plugin_tb translation;
typedef struct qemu_plugin_insn instruction;
typedef void on_translation(uint64_t id, translation *block);
typedef void on_call(uint64_t id, unsigned cpu, int64_t number, uint64_t first, uint64_t, uint64_t, uint64_t, uint64_t,
                     uint64_t, uint64_t, uint64_t);

extern size_t qemu_plugin_tb_n_insns(const translation *block);
extern instruction *qemu_plugin_tb_get_insn(const translation *block, size_t place);
extern uint64_t qemu_plugin_insn_vaddr(const instruction *);
extern size_t qemu_plugin_insn_size(const instruction *);
extern void qemu_plugin_register_vcpu_tb_trans_cb(uint64_t id, on_translation *);
extern void qemu_plugin_register_vcpu_tb_exec_inline(translation *block, int operation, void *counter, uint64_t amount);
extern void qemu_plugin_register_vcpu_syscall_cb(uint64_t id, on_call *);

int qemu_plugin_version = 1;
int qemu_plugin_install(uint64_t id, const void *info, int count, char **words);

static uint64_t executed;

/* A block of code is translated once; from then on each of its runs adds its instructions. An instruction that crosses
 * a page is left to the next block, and yet told as the last of this one. */
static void count_block(uint64_t id, translation *block) {
    size_t count = qemu_plugin_tb_n_insns(block);
    (void)id;
    if (count > 1) {
        const instruction *last = qemu_plugin_tb_get_insn(block, count - 1);
        if (qemu_plugin_insn_vaddr(last) % PAGE + qemu_plugin_insn_size(last) > PAGE) count--;
    }
    qemu_plugin_register_vcpu_tb_exec_inline(block, ADD, &executed, count);
}

/* In qemu-user the program's addresses are the emulator's own. */
static void answer(uint64_t id, unsigned cpu, int64_t number, uint64_t first, uint64_t a, uint64_t b, uint64_t c,
                   uint64_t d, uint64_t e, uint64_t f, uint64_t g) {
    (void)id, (void)cpu, (void)a, (void)b, (void)c, (void)d, (void)e, (void)f, (void)g;
    if (number == ASKED) *(uint64_t *)(uintptr_t)first = executed;
}

int qemu_plugin_install(uint64_t id, const void *info, int count, char **words) {
    (void)info, (void)count, (void)words;
    qemu_plugin_register_vcpu_tb_trans_cb(id, count_block);
    qemu_plugin_register_vcpu_syscall_cb(id, answer);
    return 0;
}
