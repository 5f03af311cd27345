/* Which blocks of the archive's code were reached.
 *
 * The archive is made without coverage. So its code, which run.sh links into a section of its own, gets a breakpoint at the first
 * instruction of each block. The first time that a block is reached, the signal's handler puts the instruction back and tells
 * libFuzzer, to which a block is a branch like those that the compiler counts. From then on the block runs as it is in the archive. */
#define _GNU_SOURCE
#include "fuzz.h"
#include <signal.h>
#include <stdio.h>
#include <stdlib.h>
#include <sys/mman.h>
#include <ucontext.h>

enum { MOST_CODE = 1 << 17, MOST_BLOCKS = 1 << 13, BREAKPOINT = 0xCC };

/* The linker's names for the section. */
extern uint8_t __start_rf_code[], __stop_rf_code[];

/* What libFuzzer reads after each call. */
__attribute__((section("__libfuzzer_extra_counters"))) static volatile uint8_t reached_now[MOST_BLOCKS];
/* For each offset the number of the block that begins there, from 1 on, and the byte under its breakpoint. */
static uint16_t block_at[MOST_CODE];
static uint8_t byte_at[MOST_CODE];
static size_t blocks, reached;

static void on_breakpoint(int number, siginfo_t *info, void *context) {
    (void)info;
    greg_t *place = &((ucontext_t *)context)->uc_mcontext.gregs[REG_RIP];
    uint8_t *instruction = (uint8_t *)*place - 1;
    size_t offset = instruction - __start_rf_code;
    if (instruction < __start_rf_code || instruction >= __stop_rf_code || block_at[offset] == 0) {
        signal(number, SIG_DFL);
        return;
    }
    *instruction = byte_at[offset];
    *place = (greg_t)instruction;
    reached_now[block_at[offset] - 1] = 1;
    reached++;
}

/* Lets the code's pages be written. */
static void open_code(void) {
    uintptr_t from = (uintptr_t)__start_rf_code & ~(uintptr_t)(PAGE - 1);
    if (mprotect((void *)from, (uintptr_t)__stop_rf_code - from, PROT_READ | PROT_WRITE | PROT_EXEC) != 0) {
        perror("mprotect");
        exit(2);
    }
}

void blocks_initialize(const char *file) {
    if (file == NULL) {
        return;
    }
    struct sigaction action = {.sa_sigaction = on_breakpoint, .sa_flags = SA_SIGINFO};
    FILE *list = fopen(file, "r");
    if (list == NULL || sigaction(SIGTRAP, &action, NULL) != 0) {
        perror(file);
        exit(2);
    }
    open_code();
    size_t offset, size = __stop_rf_code - __start_rf_code;
    while (fscanf(list, "%zx", &offset) == 1) {
        if (offset >= size || offset >= MOST_CODE || blocks == MOST_BLOCKS) {
            fprintf(stderr, "%s: no room for block %zx\n", file, offset);
            exit(2);
        }
        block_at[offset] = ++blocks;
        byte_at[offset] = __start_rf_code[offset];
        __start_rf_code[offset] = BREAKPOINT;
    }
    fclose(list);
}

void blocks_print(void) {
    if (blocks > 0) {
        printf("\nblocks of the archive's code that were reached: %zu of %zu\n", reached, blocks);
    }
}
