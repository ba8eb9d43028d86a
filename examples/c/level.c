/* The level of a tank: in each period one noisy sample, and the mean of the last eight as a line. */
#include "decimal.h"
#include "naphluy.h"

enum { PERIOD = 2000, SAMPLES = 8 };

static uint32_t samples[SAMPLES];
static uint32_t noise = 1;

/* A sample, 400 to 463 millimetres. */
static uint32_t sample(void)
{
    noise = noise * 1664525 + 1013904223;
    return 400 + (noise >> 26);
}

static uint32_t mean(void)
{
    uint32_t sum = 0;
    for (int i = 0; i < SAMPLES; i++)
        sum += samples[i];
    return sum / SAMPLES;
}

int main(void)
{
    uint64_t next = 0;
    for (int i = 0; i < SAMPLES; i++)
        samples[i] = 400;
    for (uint32_t job = 0;; job++) {
        char line[12], *end_of_line;
        samples[job % SAMPLES] = sample();
        end_of_line = put_decimal(line, mean());
        *end_of_line++ = '\n';
        write(line, end_of_line - line);
        next += PERIOD;
        sleep_until(next);
    }
}
