/* A controller of a tank's temperature. In each period it samples the tank, computes the heating, and tells both in a line. */
#include "naphluy.h"

enum { PERIOD = 1000, JOBS = 8, COLD = 20 * 256, WANTED = 60 * 256 };

static int32_t temperature = COLD; /* in 1/256 of a degree */
static int32_t sum;                /* of the errors so far */

/* Puts a number in decimal, and answers where it ends. */
static char *put_number(char *text, uint32_t number)
{
    if (number > 9)
        text = put_number(text, number / 10);
    *text++ = '0' + number % 10;
    return text;
}

static void tell(uint32_t degrees, uint32_t percent)
{
    char line[32], *end_of_line = put_number(line, degrees);
    *end_of_line++ = ' ';
    end_of_line = put_number(end_of_line, percent);
    *end_of_line++ = '\n';
    write(line, end_of_line - line);
}

/* How much to heat, 0 to 100 percent. It is a function of its own in the image, where a debugger can stop. */
static __attribute__((noinline)) int32_t heating(int32_t measured)
{
    int32_t error = WANTED - measured;
    sum += error;
    int32_t percent = (3 * error + sum / 4) / 256;
    return percent < 0 ? 0 : percent > 100 ? 100 : percent;
}

/* The tank itself: it cools down, and the heater warms it. */
static void let_pass(int32_t percent)
{
    temperature += 24 * percent - (temperature - COLD) / 16;
}

int main(void)
{
    uint64_t next = 0;
    for (int job = 0; job < JOBS; job++) {
        int32_t percent = heating(temperature);
        tell(temperature / 256, percent);
        let_pass(percent);
        next += PERIOD;
        sleep_until(next);
    }
    return 0;
}
