/* Where a call finds the backend: which ports are open, whom the next turn serves, where the pointer stands, and how
 * far the indices are. The other ports have rings of every shape in turns. */
#ifndef ONCE_PLACE_H
#define ONCE_PLACE_H

#include "requests.h"

/* The other ports: closed; open with nothing to serve; or, in turns, open and broken. */
enum others { ALONE, ALL_OPEN, MIXED };

/* The slot is that of the port's next request; one beyond the ring stands for as many wraps before. */
struct place {
    unsigned port, pointer, slot, in_flight;
    enum others others;
};

/* Leaves the port, whose ring has that shape, with nothing to serve. */
void prepare(const struct place *place, const struct shape *shape, const struct disk *disk);

/* The shape of a port's ring that is none of the scenario's own. */
const struct shape *other_shape(unsigned port);

/* An untraced turn over a request of that port. The answer is the tag of a started one. */
uint32_t serve(unsigned port, const struct request *request);

/* Breaks an open port. */
void overrun(unsigned port);

/* rsp_event so that the next response of the port asks for a notification, or does not. */
void set_notify(unsigned port, bool notify);

/* The pointer goes to `pointer`; the port before it is served for that, and opened first where it is closed. */
void set_pointer(unsigned pointer);

void reset(void);
void fill_rings(void);

#endif
