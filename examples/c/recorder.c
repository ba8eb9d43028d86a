/* A recorder: each 100 ticks it takes a sample, counts it by its size, and stores it in a ring. There is a fault in it: docs/GDB.md
   hunts it. */
#include "naphluy.h"

enum { SIZES = 8, SAMPLES = 256 };

struct recorder {
    uint8_t counts[SIZES]; /* how many samples came of each size, modulo 256: a count for each sixteen values */
    uint32_t *end;         /* where the ring ends */
    uint32_t *next;        /* where the next sample goes */
};

static uint32_t ring[SAMPLES];
static struct recorder recorder = {.end = ring + SAMPLES, .next = ring};

/* The next sample. There is no device to read; and one sample is 128 too high, as a bad contact makes it. */
static uint32_t sample(uint32_t number)
{
    static uint32_t value = 37;
    value = ((value << 2) + value + 29) & 127;
    return number == 99 ? value + 128 : value;
}

static void count(struct recorder *to, uint32_t value)
{
    to->counts[value >> 4]++;
}

static void store(struct recorder *to, uint32_t value)
{
    if (to->next >= to->end)
        to->next = ring;
    *to->next++ = value;
}

int main(void)
{
    uint64_t next = 0;
    for (uint32_t number = 0;; number++) {
        uint32_t value = sample(number);
        count(&recorder, value);
        store(&recorder, value);
        next += 100;
        sleep_until(next);
    }
}
