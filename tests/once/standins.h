/* Stand-ins for the calls: right answers by a careful host's means, each with one fault in how it goes about the rings.
   A check that lets one of them pass is no check. */
#ifndef ONCE_STANDINS_H
#define ONCE_STANDINS_H

#include "bench.h"

/* The archive for a null name; else the stand-in of that name. */
const struct backend *backend_named(const char *name);

/* One fault each. The first has none, and must pass. */
enum fault {
    NO_FAULT,
    REQ_PROD_TWICE,
    REQ_PROD_BY_BYTES,
    LOOKS_FURTHER,
    SLOT_FIRST,
    SLOT_OVERLAP,
    TAIL_OVERLAP,
    SLOT_TOO_FAR,
    SLOT_OF_112,
    SLOT_BY_LIBRARY,
    SECOND_LOOK,
    BOUNDARIES_AGAIN,
    FLAG_AGAIN,
    RSP_EVENT_FIRST,
    RSP_EVENT_TWICE,
    RSP_EVENT_ALWAYS,
    RSP_PROD_READ,
    BYTE_TOO_MANY,
    RESPONSE_OF_16,
    RSP_PROD_STORED_TWICE,
    RSP_PROD_FIRST,
    ARMED_ON_SERVICE,
    SECOND_HALF_LOADED,
    SECOND_HALF_STORED,
    SLOT_BY_32,
    SLOT_BY_64,
    RESPONSE_BY_32,
    RESPONSE_BY_64,
    /* Of lists of completions. */
    LIST_PUBLISHED_EACH,
    LIST_PUBLISHED_BEFORE_THE_LAST,
    LIST_PUBLISHED_BY_BYTES,
    LIST_EVENT_EACH,
    LIST_EVENT_BY_BYTES,
    LIST_RESPONSES_TWICE,
    LIST_SLOT_READ,
    LIST_EMPTY_PUBLISHES,
    LIST_EMPTY_LOOKS,
    LIST_REFUSED_LOOKS,
    LIST_DONE_UNTIL_THE_BAD,
    /* Of the guest's half. */
    PUT_BY_THE_PAGE,
    REQ_EVENT_FIRST,
    REQ_EVENT_TWICE,
    REQ_EVENT_WHERE_REFUSED,
    REQ_PROD_FIRST,
    PUT_TOO_FAR,
    PUT_TWICE,
    RSP_PROD_TWICE,
    RSP_PROD_BY_BYTES,
    RESPONSE_FIRST,
    RESPONSE_TWICE,
    RESPONSE_ALWAYS,
    RESPONSE_TOO_FAR,
    RESPONSE_SECOND_LOOK,
    ARMED_ON_COLLECTING,
};

extern enum fault fault;

/* Between the page that was lent and a copy of it, at a place in the rings: single loads and stores. */
extern uint8_t copy[KH_RINGS_BYTES];
extern uint8_t *live;

void take_byte(unsigned at);
void take32(unsigned at);
void take_words(unsigned at, unsigned bytes);
void give_byte(unsigned at);
void give32(unsigned at);

/* The guest's half, in standins_front.c. */
uint32_t standin_put(kh_guest *guest, uint8_t *page, size_t page_bytes, const uint64_t *request, uint64_t *answer);
uint32_t standin_collect(kh_guest *guest, uint8_t *page, size_t page_bytes, uint64_t *answer);

#endif
