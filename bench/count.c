/*
**  A plugin for the emulator: counts the instructions that a program executes, and prints the count on
**  standard error when the program ends.
**
**  Each block of instructions adds its length when it is entered. run.sh makes every block one
**  instruction long, so none is left halfway.
*/
#include "qemu.h"

#include <inttypes.h>
#include <stdio.h>

int qemu_plugin_version = 1;     /* the interface's edition in QEMU up to 8 */

static uint64_t executed;

static void entered(unsigned int cpu, void *length)
{
    (void)cpu;
    executed += (uintptr_t)length;
}

static void translated(qemu_plugin_id_t id, struct qemu_plugin_tb *block)
{
    (void)id;
    qemu_plugin_register_vcpu_tb_exec_cb(block, entered, QEMU_PLUGIN_CB_NO_REGS,
                                         (void *)(uintptr_t)qemu_plugin_tb_n_insns(block));
}

static void ended(qemu_plugin_id_t id, void *nothing)
{
    (void)id;
    (void)nothing;
    fprintf(stderr, "%" PRIu64 "\n", executed);
}

int qemu_plugin_install(qemu_plugin_id_t id, const qemu_info_t *info, int count, char **words)
{
    (void)info;
    (void)count;
    (void)words;
    qemu_plugin_register_vcpu_tb_trans_cb(id, translated);
    qemu_plugin_register_atexit_cb(id, ended, NULL);
    return 0;
}
