/* The calls of the machine. docs/ASSEMBLY.md says what each does. */
#ifndef NAPHLUY_H
#define NAPHLUY_H

#include <stdint.h>

/* What write and reserve answer where the machine refuses. */
#define REFUSED 0xffffffffu

/* Ends the task for good. */
static inline __attribute__((noreturn)) void end(void)
{
    register uint32_t a7 __asm__("a7") = 0;
    for (;;)
        __asm__ volatile("ecall" : : "r"(a7) : "memory");
}

/* Appends bytes to the task's output, at most 256, and answers how many; or REFUSED. */
static inline uint32_t write(const void *bytes, uint32_t count)
{
    register uint32_t a0 __asm__("a0") = (uint32_t)bytes;
    register uint32_t a1 __asm__("a1") = count;
    register uint32_t a7 __asm__("a7") = 1;
    __asm__ volatile("ecall" : "+r"(a0) : "r"(a1), "r"(a7) : "memory");
    return a0;
}

/* Appends all of these bytes, 256 a call, and answers 0; or REFUSED where a call was refused: a task's output has 65,536 bytes at most. */
static inline uint32_t write_all(const void *bytes, uint32_t count)
{
    for (const char *at = (const char *)bytes; count;) {
        uint32_t part = count < 256 ? count : 256;
        if (write(at, part) == REFUSED)
            return REFUSED;
        at += part;
        count -= part;
    }
    return 0;
}

/* Sleeps until a tick. */
static inline void sleep_until(uint64_t tick)
{
    register uint32_t a0 __asm__("a0") = (uint32_t)tick;
    register uint32_t a1 __asm__("a1") = (uint32_t)(tick >> 32);
    register uint32_t a7 __asm__("a7") = 2;
    __asm__ volatile("ecall" : : "r"(a0), "r"(a1), "r"(a7) : "memory");
}

/* Gives up the rest of the budget. */
static inline void yield(void)
{
    register uint32_t a7 __asm__("a7") = 3;
    __asm__ volatile("ecall" : : "r"(a7) : "memory");
}

/* The tick of this call. */
static inline uint64_t now(void)
{
    register uint32_t a0 __asm__("a0");
    register uint32_t a1 __asm__("a1");
    register uint32_t a7 __asm__("a7") = 4;
    __asm__ volatile("ecall" : "=r"(a0), "=r"(a1) : "r"(a7) : "memory");
    return (uint64_t)a1 << 32 | a0;
}

/* Asks for a budget from the next fresh wake on, and answers 0; or REFUSED. */
static inline uint32_t reserve(uint32_t budget)
{
    register uint32_t a0 __asm__("a0") = budget;
    register uint32_t a7 __asm__("a7") = 5;
    __asm__ volatile("ecall" : "+r"(a0) : "r"(a7) : "memory");
    return a0;
}

#endif
