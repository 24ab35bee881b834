/* What a guest may do to its rings in the middle of a call. */
#ifndef ONCE_CHANGES_H
#define ONCE_CHANGES_H

#include "scenarios.h"

/* The bytes from `at` on become `bytes`. An index is read as a whole; a slot or page may be caught between two loads.
 */
struct change {
    const char *name;
    unsigned at, size;
    bool is_index;
    const uint8_t *bytes;
};

typedef void changer(const struct change *change);

/* Each change that may matter to the scenario, its bytes made from the rings as they are. */
void each_change(const struct scenario *scenario, changer *with);

#endif
