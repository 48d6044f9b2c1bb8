/* Counts the instructions that a program executes within one function and what that calls: a plugin of QEMU in user mode, for its plugin
   interface 1 (Debian 12's qemu-user, 7.2). The count begins where FUNCTION is entered and ends at the next instruction of CALLER, so it
   is what callgrind's --toggle-collect=FUNCTION collects, and the same at every run.
   Build: cc -O2 -shared -fPIC -o libcount.so count.c
   Run:   qemu-x86_64 -plugin ./libcount.so,function=FUNCTION,caller=CALLER,out=FILE PROGRAM..
   FILE gets `total N` and a line `N SYMBOL` for each symbol that has a share. Debian packages no header, so what is used is declared here. */
#include <stddef.h>
#include <stdint.h>
#include <stdio.h>
#include <stdlib.h>
#include <string.h>

struct qemu_plugin_tb;
struct qemu_plugin_insn;
size_t qemu_plugin_tb_n_insns(const struct qemu_plugin_tb *block);
struct qemu_plugin_insn *qemu_plugin_tb_get_insn(const struct qemu_plugin_tb *block, size_t i);
const char *qemu_plugin_insn_symbol(const struct qemu_plugin_insn *insn);
uint64_t qemu_plugin_insn_vaddr(const struct qemu_plugin_insn *insn);
void qemu_plugin_register_vcpu_insn_exec_cb(struct qemu_plugin_insn *insn, void (*call)(unsigned, void *), int flags, void *data);
void qemu_plugin_register_vcpu_insn_exec_inline(struct qemu_plugin_insn *insn, int op, void *number, uint64_t by);
void qemu_plugin_register_vcpu_tb_trans_cb(uint64_t id, void (*call)(uint64_t, struct qemu_plugin_tb *));
void qemu_plugin_register_atexit_cb(uint64_t id, void (*call)(uint64_t, void *), void *data);
__attribute__((visibility("default"))) int qemu_plugin_version = 1;

enum { SYMBOLS = 16384, ADD = 0, NO_REGISTERS = 0 };

/* Of each symbol: all that was executed, that at the last entry, and the sum of what was executed between. */
static struct { char *name; uint64_t now, at_entry, within; } symbols[SYMBOLS];
static int count;
static int inside;
static uint64_t entry_address, entries;
static const char *function = "", *caller = "", *out_path = "/dev/stderr";

static int symbol(const char *name) {
    for (int i = 0; i < count; i++)
        if (!strcmp(symbols[i].name, name)) return i;
    if (count == SYMBOLS) return SYMBOLS - 1;
    symbols[count].name = strdup(name);
    return count++;
}

static void enter(unsigned cpu, void *data) {
    (void)cpu; (void)data;
    if (inside) return;
    inside = 1;
    entries++;
    for (int i = 0; i < count; i++) symbols[i].at_entry = symbols[i].now;
}

static void leave(unsigned cpu, void *data) {
    (void)cpu; (void)data;
    if (!inside) return;
    inside = 0;
    for (int i = 0; i < count; i++) symbols[i].within += symbols[i].now - symbols[i].at_entry;
}

/* A call on an instruction comes before its own count, so the first instruction of FUNCTION counts and CALLER's does not. A symbol that is
   met only after the entry has nothing at the entry, since its numbers start at 0. */
static void translate(uint64_t id, struct qemu_plugin_tb *block) {
    (void)id;
    size_t n = qemu_plugin_tb_n_insns(block);
    for (size_t i = 0; i < n; i++) {
        struct qemu_plugin_insn *insn = qemu_plugin_tb_get_insn(block, i);
        const char *name = qemu_plugin_insn_symbol(insn);
        if (!name) name = "(elsewhere: the C library)";
        if (!strcmp(name, function)) {
            uint64_t at = qemu_plugin_insn_vaddr(insn);
            if (!entry_address) entry_address = at;
            if (at == entry_address) qemu_plugin_register_vcpu_insn_exec_cb(insn, enter, NO_REGISTERS, NULL);
        }
        if (!strcmp(name, caller)) qemu_plugin_register_vcpu_insn_exec_cb(insn, leave, NO_REGISTERS, NULL);
        qemu_plugin_register_vcpu_insn_exec_inline(insn, ADD, &symbols[symbol(name)].now, 1);
    }
}

static int larger(const void *a, const void *b) {
    uint64_t x = symbols[*(const int *)a].within, y = symbols[*(const int *)b].within;
    return (x < y) - (x > y);
}

static void finish(uint64_t id, void *data) {
    (void)id; (void)data;
    static int order[SYMBOLS];
    uint64_t total = 0;
    FILE *out = fopen(out_path, "w");
    if (!out) return;
    for (int i = 0; i < count; i++) {
        order[i] = i;
        total += symbols[i].within;
    }
    qsort(order, count, sizeof *order, larger);
    fprintf(out, "total %llu\nentries %llu\n", (unsigned long long)total, (unsigned long long)entries);
    for (int i = 0; i < count && symbols[order[i]].within; i++)
        fprintf(out, "%llu %s\n", (unsigned long long)symbols[order[i]].within, symbols[order[i]].name);
    fclose(out);
}

__attribute__((visibility("default"))) int qemu_plugin_install(uint64_t id, const void *info, int argc, char **argv) {
    (void)info;
    for (int i = 0; i < argc; i++) {
        if (!strncmp(argv[i], "function=", 9)) function = strdup(argv[i] + 9);
        if (!strncmp(argv[i], "caller=", 7)) caller = strdup(argv[i] + 7);
        if (!strncmp(argv[i], "out=", 4)) out_path = strdup(argv[i] + 4);
    }
    qemu_plugin_register_vcpu_tb_trans_cb(id, translate);
    qemu_plugin_register_atexit_cb(id, finish, NULL);
    return 0;
}
