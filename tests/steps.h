/* Counts what a call takes: the processor stops after each instruction, and the stops are counted, and among them those before a division
   of whole numbers. It is no clock: the counts are the same on a busy machine. */
#ifndef STEPS_H
#define STEPS_H
#define _GNU_SOURCE /* for the names of registers */
#include <signal.h>
#include <stdint.h>
#include <ucontext.h>

enum { TRAP_FLAG = 0x100 };

static volatile long steps, divisions;

/* Whether the instruction at this place is div or idiv: prefixes, the operation code, and in the next byte which of its kind it is. */
static int is_division(const uint8_t *at)
{
    while (*at == 0x66 || (*at & 0xf0) == 0x40) at++;
    return (*at == 0xf6 || *at == 0xf7) && (at[1] >> 3 & 7) >= 6;
}

static void stopped(int signal, siginfo_t *why, void *context)
{
    (void)signal, (void)why;
    steps++;
    divisions += is_division((const uint8_t *)((ucontext_t *)context)->uc_mcontext.gregs[REG_RIP]);
}

static void count_steps(void)
{
    struct sigaction stop = {.sa_sigaction = stopped, .sa_flags = SA_SIGINFO};
    sigaction(SIGTRAP, &stop, 0);
}

/* both counts, of what CALL does */
#define COUNTED(CALL)                                                                                  \
    do {                                                                                               \
        steps = divisions = 0;                                                                         \
        __asm__ volatile("pushfq; orq %0, (%%rsp); popfq" : : "i"(TRAP_FLAG) : "memory", "cc");        \
        CALL;                                                                                          \
        __asm__ volatile("pushfq; andq %0, (%%rsp); popfq" : : "i"(~TRAP_FLAG) : "memory", "cc");      \
    } while (0)

#endif
