/* A plugin of qemu-user that counts what an x86-64 program executes; tools/benchmark/count builds and loads it.
 *
 * A window holds the instructions of bench_begin and what follows it, up to the call of bench_end, as with callgrind. For a program of one
 * thread and one process.
 *
 * Debian 12 has no package of qemu's header for plugins. What is used of the interface, version 1 (qemu 6.0 to 8.2), is declared here.
 */
#include <inttypes.h>
#include <stdbool.h>
#include <stdio.h>
#include <stdlib.h>
#include <string.h>

typedef uint64_t plugin_id;
struct qemu_plugin_tb;
struct qemu_plugin_insn;
enum { NO_REGISTERS = 0, ADD = 0 };
void qemu_plugin_register_vcpu_tb_trans_cb(plugin_id id, void (*translated)(plugin_id, struct qemu_plugin_tb *));
void qemu_plugin_register_atexit_cb(plugin_id id, void (*ended)(plugin_id, void *), void *data);
void qemu_plugin_register_vcpu_insn_exec_cb(struct qemu_plugin_insn *, void (*executed)(unsigned, void *), int registers, void *data);
void qemu_plugin_register_vcpu_insn_exec_inline(struct qemu_plugin_insn *, int operation, void *counter, uint64_t amount);
size_t qemu_plugin_tb_n_insns(const struct qemu_plugin_tb *);
struct qemu_plugin_insn *qemu_plugin_tb_get_insn(const struct qemu_plugin_tb *, size_t place);
uint64_t qemu_plugin_insn_vaddr(const struct qemu_plugin_insn *);
const char *qemu_plugin_insn_symbol(const struct qemu_plugin_insn *);

#define SHOWN __attribute__((visibility("default")))
SHOWN int qemu_plugin_version = 1;

/* A function whose call is a mark. Control comes to its entry first, so the first of its addresses that is translated is the entry. */
struct mark {
    const char *name;
    void (*called)(unsigned, void *);
    uint64_t entry;
};

static uint64_t executed, executed_at_begin;
static bool inside;
static uint64_t *windows;
static size_t windows_count, windows_room;
static char *out;

static void begin_called(unsigned processor, void *data) {
    (void)processor, (void)data;
    inside = true;
    executed_at_begin = executed;
}

static void end_called(unsigned processor, void *data) {
    (void)processor, (void)data;
    if (!inside) return;
    inside = false;
    if (windows_count == windows_room) {
        windows_room = windows_room ? 2 * windows_room : 1024;
        windows = realloc(windows, windows_room * sizeof *windows);
        if (!windows) {
            fprintf(stderr, "count: no memory for %zu windows\n", windows_room);
            exit(2);
        }
    }
    windows[windows_count++] = executed - executed_at_begin;
}

static struct mark marks[] = {{"bench_begin", begin_called, 0}, {"bench_end", end_called, 0}};

static void watch(struct qemu_plugin_insn *instruction) {
    const char *symbol = qemu_plugin_insn_symbol(instruction);
    for (size_t i = 0; symbol && i < sizeof marks / sizeof *marks; i++) {
        if (strcmp(symbol, marks[i].name) != 0) continue;
        uint64_t address = qemu_plugin_insn_vaddr(instruction);
        if (!marks[i].entry) marks[i].entry = address;
        if (marks[i].entry == address) qemu_plugin_register_vcpu_insn_exec_cb(instruction, marks[i].called, NO_REGISTERS, NULL);
    }
}

/* One addition for each instruction, which qemu compiles into the block, so that a block left early counts what it executed. */
static void block_translated(plugin_id id, struct qemu_plugin_tb *block) {
    (void)id;
    size_t count = qemu_plugin_tb_n_insns(block);
    for (size_t i = 0; i < count; i++) {
        struct qemu_plugin_insn *instruction = qemu_plugin_tb_get_insn(block, i);
        watch(instruction);
        qemu_plugin_register_vcpu_insn_exec_inline(instruction, ADD, &executed, 1);
    }
}

static void program_ended(plugin_id id, void *data) {
    (void)id, (void)data;
    FILE *file = fopen(out, "w");
    if (!file) {
        perror(out);
        return;
    }
    for (size_t i = 0; i < windows_count; i++) fprintf(file, "window %zu %" PRIu64 "\n", i + 1, windows[i]);
    fprintf(file, "total %" PRIu64 "\n", executed);
    fclose(file);
}

SHOWN int qemu_plugin_install(plugin_id id, const void *machine, int words_count, char **words) {
    (void)machine;
    for (int i = 0; i < words_count; i++) {
        if (strncmp(words[i], "out=", 4) == 0) out = strdup(words[i] + 4);
    }
    if (!out) {
        fprintf(stderr, "count: the plugin needs out=FILE\n");
        return 1;
    }
    qemu_plugin_register_vcpu_tb_trans_cb(id, block_translated);
    qemu_plugin_register_atexit_cb(id, program_ended, NULL);
    return 0;
}
