/* What picolibc asks of a machine: its standard streams and its end. */
#include <stdio.h>
#include <stdlib.h>

#include "calls.h"

/* in start.s: ends the task */
void __attribute__((noreturn)) finish(void);

static char held[256];
static unsigned count;

static int flush(FILE *file)
{
    (void)file;
    unsigned length = count;
    count = 0;
    return length && naphluy_write(held, length) == REFUSED ? EOF : 0;
}

static int put(char byte, FILE *file)
{
    held[count++] = byte;
    if ((byte == '\n' || count == sizeof held) && flush(file))
        return EOF;
    return (unsigned char)byte;
}

static FILE console = FDEV_SETUP_STREAM(put, NULL, flush, _FDEV_SETUP_WRITE);
FILE *const stdout = &console, *const stderr = &console, *const stdin = &console;

void __attribute__((noreturn)) _exit(int status)
{
    (void)status;
    flush(&console);
    finish();
}

/* picolibc's own abort ends with status 1, and so does assert: here it is a fault, which the run shows. */
void __attribute__((noreturn)) abort(void)
{
    flush(&console);
    for (;;)
        __asm__ volatile("ebreak");
}
