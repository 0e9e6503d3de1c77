/* A plugin of the emulator's, for host/speed where there is no callgrind: the instructions executed from each call of the function `measured`
 * to its return, one line of the log for each. Its log has to be on (-d plugin): only then does the emulator know the names of functions.
 * What it uses of qemu-plugin.h is declared here, so that it needs no header. */
typedef unsigned long id;
struct qemu_plugin_tb;
struct qemu_plugin_insn;
typedef void (*on_block)(id plugin, struct qemu_plugin_tb *block);
typedef void (*on_run)(unsigned cpu, void *block);
enum { NO_REGISTERS };
void qemu_plugin_register_vcpu_tb_trans_cb(id plugin, on_block call);
void qemu_plugin_register_vcpu_tb_exec_cb(struct qemu_plugin_tb *block, on_run call, int registers, void *with);
unsigned long qemu_plugin_tb_n_insns(const struct qemu_plugin_tb *block);
struct qemu_plugin_insn *qemu_plugin_tb_get_insn(const struct qemu_plugin_tb *block, unsigned long place);
unsigned long qemu_plugin_insn_vaddr(const struct qemu_plugin_insn *instruction);
unsigned long qemu_plugin_insn_size(const struct qemu_plugin_insn *instruction);
const char *qemu_plugin_insn_symbol(const struct qemu_plugin_insn *instruction);
void qemu_plugin_outs(const char *text);
int snprintf(char *to, unsigned long room, const char *form, ...);
int strcmp(const char *a, const char *b);
void *malloc(unsigned long bytes);

__attribute__((visibility("default"))) int qemu_plugin_version = 1;

/* A run of instructions without a jump in it, as the emulator has it. */
struct block {
    unsigned long first, end, instructions;
    int measured;
};
static unsigned long count, back, last_end, entry;
static int counting;

static void runs(unsigned cpu, void *with) {
    const struct block *b = with;
    char line[32];
    (void)cpu;
    if (counting && b->first == back) {
        counting = 0;
        snprintf(line, sizeof line, "%lu\n", count);
        qemu_plugin_outs(line);
    } else if (!counting && b->measured) {
        /* The block before ended with the call: its end is where the function returns to. */
        counting = 1;
        count = 0;
        back = last_end;
    }
    if (counting)
        count += b->instructions;
    last_end = b->end;
}

static void seen(id plugin, struct qemu_plugin_tb *block) {
    unsigned long n = qemu_plugin_tb_n_insns(block);
    struct qemu_plugin_insn *first = qemu_plugin_tb_get_insn(block, 0), *last = qemu_plugin_tb_get_insn(block, n - 1);
    const char *name = qemu_plugin_insn_symbol(first);
    struct block *b = malloc(sizeof *b);
    (void)plugin;
    b->first = qemu_plugin_insn_vaddr(first);
    b->end = qemu_plugin_insn_vaddr(last) + qemu_plugin_insn_size(last);
    b->instructions = n;
    /* The lowest block of that name that was ever run is its entry: nothing jumps into it before. */
    if (name && strcmp(name, "measured") == 0 && !entry)
        entry = b->first;
    b->measured = entry && b->first == entry;
    qemu_plugin_register_vcpu_tb_exec_cb(block, runs, NO_REGISTERS, b);
}

__attribute__((visibility("default"))) int qemu_plugin_install(id plugin, const void *about, int words, char **word) {
    (void)about, (void)words, (void)word;
    qemu_plugin_register_vcpu_tb_trans_cb(plugin, seen);
    return 0;
}
