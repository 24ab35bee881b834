/*
 * The two halves of a ring on Xen's own macros, for one layout of the records. A ring is named by its port; its
 * requests are those of kinds.h.
 */
#ifndef MACROS_H
#define MACROS_H

#include "kinds.h"

enum { SHARE_BYTES = 8192, MOST_SLOTS = 64 };

typedef struct {
    uint64_t id;
    uint8_t operation;
    int16_t status;
} response;

typedef struct {
    /* The guest's. */
    void (*open_front)(uint32_t port, void *ring);    /* of as many pages as the guest has */
    bool (*put)(uint32_t port, uint32_t number);      /* a request; false: no room for it */
    bool (*push)(uint32_t port);                      /* publishes what was put; true: notify the back end */
    uint32_t (*collect)(uint32_t port, response *to); /* how many came; above MOST_SLOTS: more than there can be, and
                                                         none was read */
    bool (*ask)(uint32_t port, uint32_t later); /* to be notified of the next, or so much later; true: it is here */
    uint32_t (*outstanding)(uint32_t port);
    uint32_t (*slots)(uint32_t port); /* of the ring */

    /* The back end's. */
    void (*open_back)(uint32_t port, void *ring);
    bool (*take)(uint32_t port, uint32_t *number);         /* the next request; false: there is none */
    void (*respond)(uint32_t port, const response *given); /* not yet published */
    bool (*publish)(uint32_t port);                        /* all responses until now; true: notify the guest */
    bool (*rest)(uint32_t port);                           /* asks to be notified; true: a request is here */
} halves;

/* As the compiler lays them out; and as a compiler for i386 does. */
extern const halves as_compiled, as_i386;

#endif
