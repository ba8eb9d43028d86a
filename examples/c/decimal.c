#include "decimal.h"

char *put_decimal(char *text, uint32_t number)
{
    if (number > 9)
        text = put_decimal(text, number / 10);
    *text++ = '0' + number % 10;
    return text;
}
