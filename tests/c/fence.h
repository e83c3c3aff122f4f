/*
 * Memory that is lent beside pages that cannot be touched: an access outside a slice ends the program. A slice lies right before such pages, or right behind them.
 */
#ifndef FENCE_H
#define FENCE_H

#include <stddef.h>
#include <stdint.h>

enum { FENCED = 1 << 21, FENCES = 12 }; /* the longest slice, and how many there are at a time */

/* So many bytes in a slot of their own, at its end or at its front. What was there before is lost. */
uint8_t *fenced(unsigned slot, size_t len, int at_front);

#endif
