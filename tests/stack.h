/* Running a function on a small stack, for tests/host.c and tests/kinds.c. On a stack of its own and not in a thread: an emulator of x86-64 runs a program
 * half as fast from its second thread on. */
#include <stdint.h>
#include <stdio.h>
#include <stdlib.h>
#include <sys/mman.h>
#include <ucontext.h>

/* So many bytes, between as many on either side that may not be touched. */
static uint8_t *page(size_t length) {
    uint8_t *p = mmap(NULL, 3 * length, PROT_NONE, MAP_PRIVATE | MAP_ANONYMOUS, -1, 0);
    if (p == MAP_FAILED || mprotect(p + length, length, PROT_READ | PROT_WRITE)) {
        perror("mmap");
        exit(2);
    }
    return p + length;
}

/* Runs f on the stack, and comes back when it has ended. */
static void on_stack(uint8_t *stack, size_t length, void (*f)(void)) {
    ucontext_t here, there;
    if (getcontext(&there)) {
        perror("getcontext");
        exit(2);
    }
    there.uc_stack.ss_sp = stack;
    there.uc_stack.ss_size = length;
    there.uc_link = &here;
    makecontext(&there, f, 0);
    if (swapcontext(&here, &there)) {
        perror("swapcontext");
        exit(2);
    }
}
