/* Requests of every kind, with what the rules say of each, and the node sheets of the disks that they go to. */
#ifndef ONCE_REQUESTS_H
#define ONCE_REQUESTS_H

#include "bench.h"

enum { READ = 0, WRITE = 1, BARRIER = 2, FLUSH = 3, DISCARD = 5 };

struct disk {
    const char *mode, *barrier, *flush, *discard, *secure, *sector_size, *sectors;
};

struct segment {
    uint32_t frame;
    uint8_t first, last;
};

/* First and last sector of a frame. */
struct span {
    uint8_t first, last;
};

/* The first segments of a request are whole frames, or these parts of them, that may be read and written; the last one
 * is given. A discard has `sectors` in their place. */
struct request {
    const char *name;
    const struct disk *disk;
    uint8_t operation, n; /* n is the flag of a discard */
    uint64_t start;
    struct segment last;
    uint64_t sectors;
    uint32_t reason, status;  /* 0 where it starts */
    int32_t due;              /* the result that a started one is to be completed with */
    const struct span *parts; /* null: whole frames */
};

extern const struct request requests[];
extern const unsigned request_count;

/* A request that is answered at once, and one that starts, on any disk. */
extern const struct request dummy, held;

void grant_frames(void);
void open_port(unsigned port, const struct shape *shape, const struct disk *disk);
void put_request(unsigned port, uint32_t index, const struct request *request);
/* Whether its plan is a secure discard, should it start on that port. */
bool is_secure(unsigned port, const struct request *request);
/* A request's bytes in a slot of that layout, its id made from the index. */
void write_request(uint8_t *slot, const struct layout *layout, uint32_t index, const struct request *request);

#endif
