/* Which fault a test is run with: the one that the environment variable WRONG names. */
#ifndef WRONG_H
#define WRONG_H

#include <stdlib.h>
#include <string.h>

#include "kernelharp.h"

static inline const char *chosen_fault(void) {
    static const char *chosen;
    if (chosen == NULL)
        chosen = getenv("WRONG");
    if (chosen == NULL)
        chosen = "";
    return chosen;
}

static inline bool wrong(const char *fault) {
    return strcmp(chosen_fault(), fault) == 0;
}

/* Reads the byte before or after a buffer. */
static inline void peek(const char *fault_before, const char *fault_after, const void *buffer, size_t bytes) {
    const volatile uint8_t *at = (const volatile uint8_t *)buffer;
    if (wrong(fault_before) && bytes > 0)
        (void)at[-1];
    if (wrong(fault_after))
        (void)at[bytes];
}

#endif
