/* The machine's calls beside a C library, which has a write of its own: the machine's is naphluy_write. */
#ifndef CALLS_H
#define CALLS_H

#define write naphluy_write
#include "../c/naphluy.h"
#undef write

#endif
