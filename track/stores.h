/* Tells a store of so many bytes, wherever it is. */
#ifndef DYMELOR_STORES_H
#define DYMELOR_STORES_H

#include <stddef.h>

void dym_told_range(const volatile void *address, size_t length);

#endif
