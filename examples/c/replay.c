/* A filter over recorded data: each period the median of the last five samples of `recording`, which `elf --data` replaces. */
#include "decimal.h"
#include "naphluy.h"

enum { PERIOD = 1000, SAMPLES = 200, LAST = 5 };

/* Two bytes a sample, the low one first. */
uint16_t recording[SAMPLES] = {1};

static uint32_t median(const uint16_t *samples)
{
    uint16_t sorted[LAST];
    for (int i = 0; i < LAST; i++) {
        int at = i;
        for (; at > 0 && sorted[at - 1] > samples[i]; at--)
            sorted[at] = sorted[at - 1];
        sorted[at] = samples[i];
    }
    return sorted[LAST / 2];
}

int main(void)
{
    uint64_t next = 0;
    for (int i = 0; i + LAST <= SAMPLES; i++) {
        char line[12], *end_of_line = put_decimal(line, median(recording + i));
        *end_of_line++ = '\n';
        write(line, end_of_line - line);
        next += PERIOD;
        sleep_until(next);
    }
    return 0;
}
