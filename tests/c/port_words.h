/* What backend memory keeps of a port, one field to a word (crates/memory/src/lib.rt). */
#ifndef PORT_WORDS_H
#define PORT_WORDS_H

#include "kernelharp.h"

/* The bit of PAGES that says that the ring has a second page: as many as that page has slots. */
#define SECOND_PAGE KH_PAGE_SLOTS

enum tag_word { TAG_ID, TAG_OPERATION, TAG_SERIAL, TAG_EXPECTED, TAG_WORDS };

enum port_word {
    WRITABLE = 1,
    BARRIER,
    FLUSH,
    DISCARD,
    SECURE,
    SECTOR_SIZE, /* 0 to 3: 512 to 4,096 */
    SECTORS,
    LAYOUT, /* enum kh_abi */
    PAGES,  /* SECOND_PAGE: two, without that bit one */
    CONSUMED,
    PRODUCED,
    BUSY, /* a bit to a tag */
    TAGS, /* those of tag 0, and so on */
    PORT_WORDS = TAGS + TAG_WORDS * KH_TAGS
};

_Static_assert(KH_PORTS *PORT_WORDS + 1 == KH_MEMORY_WORDS, "the ports and the pointer");

static inline uint64_t *words_of_port(kh_memory *memory, uint64_t port) {
    return memory->words + PORT_WORDS * port;
}

static inline uint64_t *words_of_tag(kh_memory *memory, uint64_t port, uint64_t tag) {
    return words_of_port(memory, port) + TAGS + TAG_WORDS * tag;
}

#endif
