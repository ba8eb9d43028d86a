/* A pump that runs two periods of each five, and says so when it is switched. */
#include "naphluy.h"

enum { PERIOD = 10000, CYCLE = 5, ON = 2 };

int main(void)
{
    uint64_t next = 0;
    for (uint32_t job = 0;; job = job + 1 < CYCLE ? job + 1 : 0) {
        if (job == 0)
            write("on\n", 3);
        if (job == ON)
            write("off\n", 4);
        next += PERIOD;
        sleep_until(next);
    }
}
