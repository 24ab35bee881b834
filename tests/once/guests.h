/* The calls of the guest's half to look at: puttings and collectings of every kind, refused ones too. */
#ifndef ONCE_GUESTS_H
#define ONCE_GUESTS_H

#include "scenarios.h"

/* Each is made ready and handed over; calls of one name come one after the other. */
void each_guest_call(const struct taker *taker);

#endif
