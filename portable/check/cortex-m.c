/* The start of a check on a Cortex-M under an emulator: the vectors, the floating-point unit where there is one, then newlib's start and main.
 * Files are the emulator's by semihosting: `script` in, `answers` and `stack` out. -DEDGES runs edges in place of the script; with
 * -DSTART_ONLY the program has a main of its own. */
#include <stdint.h>
#include <stdio.h>
#include <stdlib.h>

void _start(void);
void _init(void) {}
void _fini(void) {}

/* Ends the emulator with status 1. */
static void fault(void) {
    for (;;) {
        register int r0 __asm("r0") = 0x18;
        register int r1 __asm("r1") = 0x20023;
        __asm volatile("bkpt 0xab" : : "r"(r0), "r"(r1));
    }
}

void reset(void) {
#ifdef __ARM_FP
    *(volatile uint32_t *)0xE000ED88 |= 0xF << 20;
    __asm volatile("dsb; isb");
#endif
    _start();
    fault();
}

extern uint8_t top_of_stack[];
__attribute__((section(".vectors"), used)) static const uintptr_t vectors[16] = {(uintptr_t)top_of_stack, (uintptr_t)reset, (uintptr_t)fault, (uintptr_t)fault,
    (uintptr_t)fault, (uintptr_t)fault, (uintptr_t)fault};

#if defined(START_ONLY)
#elif defined(EDGES)
int edges(void);
int main(void) { return edges(); }
#else
void tamburelvi_panicked(void) {
    puts("panicked");
    exit(3);
}

long measured_replay(int *stack);

int main(void) {
    static char in[65536], out[65536];
    if (!freopen("script", "r", stdin) || !freopen("answers", "w", stdout)) return 1;
    setvbuf(stdin, in, _IOFBF, sizeof in);
    setvbuf(stdout, out, _IOFBF, sizeof out);
    int stack;
    long lines = measured_replay(&stack);
    if (fclose(stdout)) return 1;
    FILE *said = fopen("stack", "w");
    if (!said || fprintf(said, "%ld %d\n", lines, stack) < 0 || fclose(said)) return 1;
    return 0;
}
#endif
