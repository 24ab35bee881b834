/* Lists of completions to look at: of every length, from every slot on, empty ones and refused ones. */
#ifndef ONCE_LISTS_H
#define ONCE_LISTS_H

#include "scenarios.h"

/* Each is made ready, for a port whose ring has that shape, and handed over; those of one name one after the other. */
void each_list(const struct taker *taker, const struct shape *shape);

/* The status, without its sign, that entry i of every list has coming. */
uint32_t status_in_list(unsigned i);

#endif
