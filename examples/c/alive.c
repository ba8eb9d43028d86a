/* A sign of life: in each period the number of its job, modulo 100, as a line. */
#include "decimal.h"
#include "naphluy.h"

enum { PERIOD = 5000, NUMBERS = 100 };

int main(void)
{
    uint64_t next = 0;
    for (uint32_t job = 0;; job = job + 1 < NUMBERS ? job + 1 : 0) {
        char line[12], *end_of_line = put_decimal(line, job);
        *end_of_line++ = '\n';
        write(line, end_of_line - line);
        next += PERIOD;
        sleep_until(next);
    }
}
