/* A tide gauge: in each period nine noisy samples of a sine, sorted, and their median as a line. It ends after a tide. */
#include <math.h>
#include <stdint.h>
#include <stdio.h>
#include <stdlib.h>

#include "calls.h"

enum { PERIOD = 200000, HOURS = 12, SAMPLES = 9 };

static int by_value(const void *one, const void *other)
{
    double a = *(const double *)one, b = *(const double *)other;
    return (a > b) - (a < b);
}

/* The level in metres: the tide, and waves of up to 20 centimetres. */
static double sample(int hour)
{
    return 2 + 1.5 * sin(hour * 2 * M_PI / HOURS) + (rand() % 41 - 20) / 100.0;
}

int main(void)
{
    double *samples = malloc(SAMPLES * sizeof *samples);
    uint64_t next = 0;
    for (int hour = 0; samples && hour < HOURS; hour++) {
        for (int i = 0; i < SAMPLES; i++)
            samples[i] = sample(hour);
        qsort(samples, SAMPLES, sizeof *samples, by_value);
        printf("%2d h %5.2f m\n", hour, samples[SAMPLES / 2]);
        next += PERIOD;
        sleep_until(next);
    }
    free(samples);
    return 0;
}
