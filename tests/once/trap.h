/* Every access to the rings, trapped: a call that is lent them out of reach faults at each instruction that asks for
   them, and a copy of the instruction does the same within reach. */
#ifndef ONCE_TRAP_H
#define ONCE_TRAP_H

#include <stdbool.h>
#include <stdint.h>

enum { MOST_ACCESSES = 1024, WIDEST = 16 };

struct access {
    uintptr_t instruction;
    unsigned at, size;
    bool load, store;
    uint8_t loaded[WIDEST], stored[WIDEST];
};

struct trace {
    unsigned count;
    struct access list[MOST_ACCESSES];
};

/* Called with the number of an access, from 0, just before it. It may write the rings. */
typedef void meddler(unsigned number);

void trap_install(void);

/* From the one to the other, calls are lent `out_of_reach`. */
void trap_begin(struct trace *trace, meddler *meddle);
void trap_end(void);

#endif
