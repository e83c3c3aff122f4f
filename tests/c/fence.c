/* See fence.h. */
#define _DEFAULT_SOURCE
#include "fence.h"

#include <stdlib.h>
#include <sys/mman.h>

enum { UNTOUCHABLE = 1 << 20 }; /* bytes on each side of a slot */

uint8_t *fenced(unsigned slot, size_t len, int at_front)
{
    static uint8_t *slots[FENCES];
    if (slot >= FENCES || len > FENCED)
        abort();
    if (slots[slot] == NULL) {
        uint8_t *block = mmap(NULL, FENCED + 2 * UNTOUCHABLE, PROT_NONE, MAP_PRIVATE | MAP_ANONYMOUS | MAP_NORESERVE, -1, 0);
        if (block == MAP_FAILED || mprotect(block + UNTOUCHABLE, FENCED, PROT_READ | PROT_WRITE) != 0)
            exit(2);
        slots[slot] = block + UNTOUCHABLE;
    }
    return at_front ? slots[slot] : slots[slot] + FENCED - len;
}
