/* Numbers as text. */
#ifndef DECIMAL_H
#define DECIMAL_H

#include <stdint.h>

/* Puts a number in decimal, at most ten bytes, and returns where it ends. */
char *put_decimal(char *text, uint32_t number);

#endif
