/* A table of the squares of 1 to 40 in each period: more than one call of write takes. */
#include "decimal.h"
#include "naphluy.h"

enum { PERIOD = 50000, ROWS = 40 };

static char table[ROWS * 24];

static uint32_t put_table(void)
{
    char *at = table;
    for (uint32_t row = 1; row <= ROWS; row++) {
        at = put_decimal(at, row);
        *at++ = ' ';
        at = put_decimal(at, row * row);
        *at++ = '\n';
    }
    return at - table;
}

int main(void)
{
    uint64_t next = 0;
    for (;;) {
        write_all(table, put_table());
        next += PERIOD;
        sleep_until(next);
    }
}
