/*
 * Kernelharp: the request core of a Xen block backend, and the guest's half of its rings. C99 or later, and C++. The
 * archive is for x86-64 Linux only.
 *
 * The caller, a host or a guest, owns all memory and lends it to each call. Nothing is allocated, and nothing is kept
 * between calls but the backend memory, the meters and the guest memory. One backend, one thread at a time, and so with
 * a meter and a guest; two backends are two memories and know nothing of each other, and so are two guests.
 *
 * Every call on a backend or a guest, and kh_join_extents, returns 0 when it was done, else the number of a refusal: of
 * those that it lists, the first that applies. A refused call changes no byte behind any pointer, `answer` included. No
 * content of a buffer, no length and no number is an error of the caller: each has its refusal or its answer. The
 * caller's part is that each pointer has as many bytes behind it as its length, its type or its array says, that what
 * consists of words (memory, entries, requests, answers, meters, extents, machine frames, runs) is aligned for
 * uint64_t, and that the buffers of one call don't overlap. Rings, pages, grants and sheets may lie anywhere. A pointer
 * with length 0 may be null.
 *
 * A call sees each ring byte once, and guests may write their rings between calls. What is lent is either private
 * copies, which nobody else writes while the call runs, or, on x86-64 and with an archive that tests/once was run on,
 * the guests' pages themselves: a call then acts on the bytes that it loaded, each once, and stores a response before
 * the rsp_prod that publishes it. docs/HOST.md has both ways, and kernelharp_host.h does them. The same holds of a
 * guest's page and its backend.
 *
 * Names. What a call or a word of an answer says is KH_ and its own name (KH_NOT_BUSY, KH_READ_ONLY, KH_STARTED); the
 * Rattle sources have the same names without KH_, the Rust ones as NotBusy, ReadOnly. What is handed in has its kind
 * first (KH_NODE_MODE, KH_GRANT_READ, KH_DISCARD_SECURE), and so have the places of words (KH_TURN_PORT, KH_DONE_PORT,
 * KH_ENTRY_TAG, KH_EXTENT_FRAME, KH_REQUEST_ID). Calls on a guest are kh_guest_ and what they do. Sizes end in their
 * unit (KH_RING_BYTES), counts are plurals (KH_PORTS), and a page's indices are called as in ring.h.
 */
#ifndef KERNELHARP_H
#define KERNELHARP_H

#include <stdbool.h>
#include <stddef.h>
#include <stdint.h>

/* On what returns a refusal: who drops it is warned. */
#ifdef __GNUC__
#define KH_MUST_USE __attribute__((warn_unused_result))
#else
#define KH_MUST_USE
#endif

#ifdef __cplusplus
extern "C" {
#endif

/*
 * The version: major * 10000 + minor * 100 + patch. kh_version gives the archive's, kh_memory_words its
 * KH_MEMORY_WORDS, kh_guest_words its KH_GUEST_WORDS. A host asks for the first two at its start, a guest for the first
 * and the last, and makes no other call when one of them is not the header's: the header and the archive are then not
 * of one release, or not built for the same memory.
 */
#define KH_VERSION 1100 /* 0.11.0 */
uint32_t kh_version(void);
uint32_t kh_memory_words(void);
uint32_t kh_guest_words(void);

/* Sizes of what a host lends. */
#define KH_PORTS        8     /* ports 0 to 7, one guest disk each */
#define KH_MEMORY_WORDS 2153  /* backend memory, in words of 64 bits */
#define KH_RINGS_BYTES  65536 /* all rings: port k's share at KH_RING_BYTES * k */
#define KH_GRANTS_BYTES 8192  /* all grants: port k's at KH_PORT_GRANTS * k */
#define KH_TURN_WORDS   64    /* answer of kh_turn */
#define KH_DONE_WORDS   4     /* answer of kh_complete */
#define KH_MANY_WORDS   68    /* answer of kh_complete_many */
#define KH_JOIN_WORDS   1     /* answer of kh_join_extents */

/* Sizes of what a guest lends, see kh_guest. */
#define KH_GUEST_PAGE_BYTES 4096 /* its ring page */
#define KH_GUEST_WORDS      67   /* guest memory, in words of 64 bits */
#define KH_REQUEST_WORDS    41   /* a request for kh_guest_put */
#define KH_PUT_WORDS        1    /* answer of kh_guest_put */
#define KH_COLLECT_WORDS    4    /* answer of kh_guest_collect */

/*
 * A port's ring: a header of four 32-bit indices, then the slots. It has one page or two, as the port's sheet says, and
 * begins where the port's share of the rings does; two pages stand one after the other, and the second has no header of
 * its own. The second half of a one-page port's share is neither read nor written. Index i lives in slot i modulo
 * kh_slots(pages). A slot has a request, and later a response at its begin; the slot's other bytes stay. How long they
 * are is up to the guest's layout, see enum kh_abi; the header is the same in both.
 */
#define KH_PAGE_BYTES       4096
#define KH_RING_PAGES       2    /* pages of a ring, at most */
#define KH_RING_BYTES       8192 /* a port's share of the rings */
#define KH_REQ_PROD         0    /* the guest's: requests published */
#define KH_REQ_EVENT        4    /* the backend's: the guest notifies when req_prod gets here */
#define KH_RSP_PROD         8    /* the backend's: responses published */
#define KH_RSP_EVENT        12   /* the guest's: the backend notifies when rsp_prod gets here */
#define KH_HEADER_BYTES     64   /* slot s is at KH_HEADER_BYTES + kh_slot_bytes(abi) * s */
#define KH_PAGE_SLOTS       32   /* slots of a ring for each of its pages, in both layouts */
#define KH_SLOT_BYTES       112  /* a slot of a 64-bit guest; none is larger */
#define KH_SLOT32_BYTES     108  /* a slot of a 32-bit guest */
#define KH_RESPONSE_BYTES   16   /* a response to a 64-bit guest; none is larger */
#define KH_RESPONSE32_BYTES 12   /* a response to a 32-bit guest */

/*
 * How a guest lays out its requests and responses: its protocol. Ports of both layouts share a backend. A slot's bytes:
 *
 *                                       64-bit    32-bit
 *     request
 *       operation                       0         0
 *       number of segments, or flag     1         1
 *       id                              8         4
 *       start                           16        12
 *       segments, or sectors            24        20
 *     response
 *       id, operation, 0, status        0, 8, 9 and 10, in both
 *       zeros                           12 to 15  none
 *     bytes that a response leaves      16 to 111 12 to 107
 */
enum kh_abi {
    KH_BITS64 = 0, /* "x86_64-abi", and a sheet that names no protocol */
    KH_BITS32 = 1  /* "x86_32-abi" */
};

/* A port's grants: byte g speaks of frame g. Any other value is none; frames from KH_PORT_GRANTS up aren't granted. */
#define KH_PORT_GRANTS      1024
#define KH_GRANT_NONE       0
#define KH_GRANT_READ       1 /* the backend may read the frame */
#define KH_GRANT_READ_WRITE 2 /* read and write it */

#define KH_TAGS          64  /* requests that a port can have in flight, at most: kh_slots(pages), tags from 0 on */
#define KH_EXTENTS       11  /* extents that a plan can have */
#define KH_ENTRIES       64  /* entries that a list of completions can have, at most, whatever the ring */
#define KH_SECTOR_BYTES  512 /* a sector, in every number here, whatever the node sector-size says */
#define KH_FRAME_SECTORS 8   /* sectors of a frame */

/* The nodes of a sheet, see kh_open. */
enum kh_node {
    KH_NODE_MODE = 1,            /* "r" or "w"; must be there */
    KH_NODE_BARRIER = 2,         /* feature-barrier: "0" or "1"; absent means 0, here and in the next three */
    KH_NODE_FLUSH = 3,           /* feature-flush-cache */
    KH_NODE_DISCARD = 4,         /* feature-discard */
    KH_NODE_DISCARD_SECURE = 5,  /* discard-secure; where it is 0, a discard's flag is ignored */
    KH_NODE_SECTOR_SIZE = 6,     /* 512, 1024, 2048 or 4096; must be there */
    KH_NODE_SECTORS = 7,         /* of 512 bytes, 0 to 2^64 - 1; must be there */
    KH_NODE_PROTOCOL = 8,        /* "x86_64-abi", also when absent, or "x86_32-abi": enum kh_abi */
    KH_NODE_RING_PAGE_ORDER = 9, /* "0", also when absent: one page; "1": two */
    KH_NODES = 9
};

/* What a call returns. */
enum kh_refusal {
    KH_OK = 0,              /* done: no refusal */
    KH_WRONG_LENGTH = 1,    /* rings, grants or page of the wrong length (turn, complete, complete_many, guest_put,
                               guest_collect), or words of a list that are no whole entries (complete_many) */
    KH_NO_PORT = 2,         /* a port above 7 (open, close, complete, complete_many) */
    KH_NOT_CLOSED = 3,      /* the port is open or broken (open) */
    KH_IS_CLOSED = 4,       /* the port is closed (close, complete, complete_many) */
    KH_IN_FLIGHT = 5,       /* requests in flight (close) */
    KH_NOT_BUSY = 6,        /* tag beyond the ring's slots, not busy, or busy with another serial (complete, and of any
                               entry complete_many); a tag that the list names twice (complete_many) */
    KH_TOO_MANY = 7,        /* more entries than KH_ENTRIES (complete_many); comes before 6 */
    KH_TOO_FEW_FRAMES = 8,  /* fewer machine frames than extents (join_extents) */
    KH_TOO_FEW_RUNS = 9,    /* fewer records than runs (join_extents) */
    KH_NO_PLAN = 10,        /* extents that no plan has (join_extents); comes before 8 and 9 */
    KH_SHEET_SHAPE = 11,    /* sheet empty, more than 9 entries, a reserved byte not 0, wrong total length (open) */
    KH_SHEET_NODES = 12,    /* a node 0 or above 9, or no greater than the one before (open) */
    KH_SHEET_TEXT = 13,     /* nodes 1 to 5 and 8: any other text; 6, 7 and 9: no number (open) */
    KH_SHEET_NUMBER = 14,   /* nodes 6, 7 and 9: a number that is not allowed there (open) */
    KH_SHEET_MISSING = 15,  /* node 1, 6 or 7 missing (open) */
    KH_RING_FULL = 31,      /* 32 requests are outstanding (guest_put) */
    KH_ID_OUTSTANDING = 32, /* one with that id is outstanding (guest_put) */
    KH_BAD_REQUEST = 33,    /* it would get reason 21, 25 or 26, or a number doesn't fit its field (guest_put) */
    KH_BAD_RSP_PROD = 34,   /* rsp_prod is further ahead than there are requests outstanding (guest_collect) */
    KH_NOT_OUTSTANDING = 35 /* no outstanding request has the response's id and operation (guest_collect) */
};

/* What a turn did. */
enum kh_kind {
    KH_IDLE = 0,     /* no port had anything to serve */
    KH_STARTED = 1,  /* a request was taken and is now in flight; the answer is its plan */
    KH_ANSWERED = 2, /* a request was taken, failed a check, and has its response on the ring */
    KH_OVERRUN = 3   /* a guest's req_prod makes no sense; its port is broken and served no more */
};

enum kh_operation {
    KH_READ = 0,    /* disk to frames */
    KH_WRITE = 1,   /* frames to disk */
    KH_BARRIER = 2, /* a write with a barrier, or with no extents the barrier alone; its order is the host's business */
    KH_FLUSH = 3,
    KH_DISCARD = 5
};

/* Why a guest's request was answered at once: the first check that it failed. 23 is withdrawn and never given. */
enum kh_reason {
    KH_UNKNOWN_OPERATION = 21, /* status not supported, as with 22; error with all others */
    KH_FEATURE_OFF = 22,       /* the feature of a barrier, flush or discard is 0 */
    KH_READ_ONLY = 24,         /* write, barrier or discard in mode r */
    KH_WRONG_AMOUNT = 25,      /* number of segments not allowed for the operation, or a discard of 0 sectors */
    KH_WRONG_SEGMENT = 26,     /* a segment whose first is above its last, or its last above 7 */
    KH_NOT_GRANTED = 27,       /* a frame without its grant: a read takes KH_GRANT_READ_WRITE, others either */
    KH_PAST_END = 28,          /* start + count above the node sectors */
    KH_UNALIGNED = 29          /* start, count, or where a segment begins or ends, no multiple of sector-size / 512 */
};

/* A response's status, as on the ring. Answers of kh_turn, kh_complete and kh_complete_many hold its magnitude, those
   of kh_guest_collect its 16 bits: kh_read_collected gives it as a number. */
enum kh_status { KH_OKAY = 0, KH_ERROR = -1, KH_NOT_SUPPORTED = -2 };

/* The result of a completion that gives the status not supported (-EOPNOTSUPP). */
#define KH_RESULT_NOT_SUPPORTED (-95)

/* Words of kh_turn's answer. A word that the kind does not use is 0, also those that have no name. */
enum kh_turn_word {
    KH_TURN_KIND = 0,
    KH_TURN_PORT = 1, /* all kinds but idle */
    KH_TURN_TAG = 2,  /* started, to KH_TURN_EXTENT_COUNT */
    KH_TURN_SERIAL = 3,
    KH_TURN_OPERATION = 4,
    KH_TURN_START = 5,
    KH_TURN_COUNT = 6,
    KH_TURN_SECURE = 7, /* 1: a discard with flag bit 0 set, and discard-secure is 1; else 0 */
    KH_TURN_EXTENT_COUNT = 8,
    KH_TURN_REASON = 9,  /* answered, to KH_TURN_NOTIFY */
    KH_TURN_STATUS = 10, /* magnitude: 1 or 2 */
    KH_TURN_NOTIFY = 11, /* 0 or 1 */
    KH_TURN_EXTENTS = 16 /* started: extent i at KH_TURN_EXTENTS + KH_EXTENT_WORDS * i, i < KH_EXTENTS */
};

/* Words of an extent. */
enum kh_extent_word { KH_EXTENT_FRAME = 0, KH_EXTENT_FIRST = 1, KH_EXTENT_LENGTH = 2, KH_EXTENT_SECTOR = 3 };
#define KH_EXTENT_WORDS 4

/* Words of kh_complete's answer; word 3 is 0. */
enum kh_done_word {
    KH_DONE_PORT = 0,
    KH_DONE_STATUS = 1, /* magnitude: 0, 1 or 2 */
    KH_DONE_NOTIFY = 2  /* 0 or 1 */
};

/* Words of an entry of a list for kh_complete_many; entry i is at KH_ENTRY_WORDS * i. */
enum kh_entry_word {
    KH_ENTRY_TAG = 0,    /* above 2^32 - 1 it names nothing, and so does a serial */
    KH_ENTRY_SERIAL = 1, /* of the plan, as the tag */
    KH_ENTRY_RESULT = 2  /* what the I/O gave, (uint64_t)(int64_t)result */
};
#define KH_ENTRY_WORDS 3

/* Words of kh_complete_many's answer; word 3 is 0, and so are the statuses behind the last entry's. */
enum kh_many_word {
    KH_MANY_PORT = 0,
    KH_MANY_COUNT = 1,   /* entries, 0 to KH_ENTRIES */
    KH_MANY_NOTIFY = 2,  /* 0 or 1 */
    KH_MANY_STATUSES = 4 /* of entry i at KH_MANY_STATUSES + i, i < KH_ENTRIES; magnitude: 0, 1 or 2 */
};

/*
 * Backend memory. All zeros are the empty backend, eight closed ports: there is no call to set it up, and
 * `static kh_memory memory;` is one. What the words hold is the library's business.
 */
typedef struct kh_memory {
    uint64_t words[KH_MEMORY_WORDS];
} kh_memory;

/*
 * Opens a closed port for the disk that the sheet describes: indices 0, nothing in flight. The rings are not
 * touched.
 *
 * A sheet is one byte, the number of entries (0 to 9); for each entry 4 bytes: node, 0, length of its body (16 bits,
 * little-endian); then the bodies in that order, as text without a terminator, which end the sheet. Nodes rise
 * strictly. Numbers are decimal digits with no sign, and no leading zero but in "0" itself.
 *
 * Refusals: 2, 3, then of the sheet 11, 12, 13 or 14 (the first body at fault), 15.
 */
KH_MUST_USE uint32_t kh_open(kh_memory *memory, uint32_t port, const uint8_t *sheet, size_t sheet_bytes);

/* Closes a port, open or broken, that has no requests in flight. Refusals: 2, 4, 5. */
KH_MUST_USE uint32_t kh_close(kh_memory *memory, uint32_t port);

/*
 * Serves one port: the first with something to serve, in ring order from the port after the one served last (port 0 at
 * first). `answer` has KH_TURN_WORDS words, and all of them are written (kh_read_turn gives them as a struct).
 *
 * - idle: each open port's req_event is set so that its next request notifies, and that is the only change.
 * - started: the rings stay. The host does the plan's I/O and then calls kh_complete with port, tag and serial, or has
 *   these in a list for kh_complete_many.
 * - answered: the response is in its slot and rsp_prod is raised; no other ring byte changes. Notify: send the event.
 * - overrun: the rings stay. Completions of the port still work, and it can be closed.
 *
 * Refusals: 1.
 */
KH_MUST_USE uint32_t kh_turn(kh_memory *memory, uint8_t *rings, size_t rings_bytes, const uint8_t *grants,
                             size_t grants_bytes, uint64_t *answer);

/*
 * Answers a started request and frees its tag: the response is in its slot and rsp_prod is raised; no other ring byte
 * changes. `answer` has KH_DONE_WORDS words, and all of them are written (kh_read_completion gives them as a struct).
 *
 * `result` is what the I/O gave. The plan's count for read, write and barrier, and 0 for flush and discard, has the
 * status okay; KH_RESULT_NOT_SUPPORTED has not supported; anything else, a short count too, has error.
 *
 * A completion made twice is refused with 6, unless by then its tag and serial name a newer request (the port was
 * opened again, or 2^32 requests came since): then it counts as that request's own.
 *
 * Refusals: 1 (the rings), 2, 4, 6.
 */
KH_MUST_USE uint32_t kh_complete(kh_memory *memory, uint8_t *rings, size_t rings_bytes, uint32_t port, uint32_t tag,
                                 uint32_t serial, int32_t result, uint64_t *answer);

/*
 * Answers some started requests of one port, KH_ENTRIES at most, and frees their tags: the responses are in their slots
 * in the order of the list, and rsp_prod is raised once, after the last of them; no other ring byte changes. Rings and
 * memory are left as by kh_complete of one entry after the other, and a list of one is kh_complete.
 *
 * `entries` has entry_words words, KH_ENTRY_WORDS to an entry (kh_write_entry writes them); a result gives the status
 * that it has in kh_complete, and one that doesn't fit int32_t has error. `answer` has KH_MANY_WORDS words, and all of
 * them are written (kh_read_many gives them as a struct): the statuses are in the order of the list. Notify, one event
 * for all of them: exactly when rsp_event is the new rsp_prod or an index that it passed, so in 32 bits when
 * new - rsp_event < new - old. Here old is the number of responses before the call, whatever the ring says.
 *
 * An empty list is done where the port is open or broken: it neither reads nor writes a ring, and says no notify.
 *
 * Refusals: 1 (the rings, or entry_words no multiple of KH_ENTRY_WORDS), 2, 4, 7, 6. A single entry at fault, or a tag
 * that is named twice, is 6 for the whole list, and none of it is done.
 */
KH_MUST_USE uint32_t kh_complete_many(kh_memory *memory, uint8_t *rings, size_t rings_bytes, uint32_t port,
                                      const uint64_t *entries, size_t entry_words, uint64_t *answer);

/*
 * A port's meter: how many of its requests were taken, and how many were answered with each status. Meters are the
 * host's, one to a port; the backend knows none of them. All zeros are a new meter: the host zeroes one by a store of
 * its own, whenever it likes. Opening and closing the port leave it alone. Each number stops at 2^64 - 1 by itself.
 */
typedef struct kh_meter {
    uint64_t taken;         /* requests that turns started or answered */
    uint64_t okay;          /* responses with KH_OKAY, all of completions, alone or in a list */
    uint64_t error;         /* with KH_ERROR, of turns and completions */
    uint64_t not_supported; /* with KH_NOT_SUPPORTED, of both too */
} kh_meter;

/*
 * Raise a meter by what a turn, a completion or a list of them did. `returned` is what kh_turn, kh_complete or
 * kh_complete_many returned, `answer` its KH_TURN_WORDS, KH_DONE_WORDS or KH_MANY_WORDS words as they are then, and
 * `meter` that of the port which the answer names. The meter is the only thing that changes, and there are no refusals.
 *
 * - started: taken.
 * - answered: taken, and the number of its status.
 * - a completion that was done: the number of its status.
 * - a list that was done: for each of its entries, the number of its status.
 * - idle, overrun, and whatever was refused: none. An idle turn and a refusal name no port, so any meter will do; of a
 *   refused call no word is looked at.
 *
 * A host that hands over every answer, once and to the right meter, before it makes another call or zeroes the meter,
 * and that hands over nothing else, finds in each number the count since it zeroed the meter.
 *
 * Any words may be handed over: a kind that is none of the above raises nothing, a status word other than 0, 1 and 2
 * none of the last three numbers, and a count above KH_ENTRIES means KH_ENTRIES.
 */
void kh_meter_turn(kh_meter *meter, uint32_t returned, const uint64_t *answer);
void kh_meter_completion(kh_meter *meter, uint32_t returned, const uint64_t *answer);
void kh_meter_many(kh_meter *meter, uint32_t returned, const uint64_t *answer);

/* Sectors of machine frames that follow each other there and on the disk; from sector 7 on into the next frame. */
typedef struct kh_run {
    uint64_t frame;  /* machine frame that it begins in */
    uint64_t first;  /* first sector in that frame, 0 to 7 */
    uint64_t length; /* sectors, in as many frames as it takes */
    uint64_t sector; /* first sector on the disk */
} kh_run;

/*
 * Joins a plan's extents to runs, so that one transfer does for several of them. It has to do with no backend and no
 * ring, and keeps nothing.
 *
 * `extents` has extent_words words, KH_EXTENT_WORDS to a place: what a turn's answer has from KH_TURN_EXTENTS on, in
 * KH_EXTENTS places (kh_join_plan hands a plan over). A rest that is no whole place is none. `pieces` is the number of
 * extents, which are in the first places; no other place is looked at. `machine_frames` has the machine frame of each:
 * number i is that of extent i, whose own frame, a grant reference, is not looked at. More of them may be lent.
 *
 * An extent joins the one before where it begins right behind it: in the same machine frame, or where that one ends
 * with sector 7 and it begins with sector 0 of the frame that has the next number; there is none after 2^64 - 1. A run
 * goes on as long as the next extent joins: no extent is split, their order is kept, and there are no fewer runs to be
 * had. The runs are written to the front of `runs`, which has run_count records; the records behind them stay. `answer`
 * has KH_JOIN_WORDS words: the number of runs, which is 0 for no extents, and at most `pieces`.
 *
 * Refusals: 10, 8, 9, each judged of all extents before the next.
 *
 * - 10: more extents than places; an extent without sectors, or past sector 7 of its frame, or whose disk sector +
 *   length is above 2^64 - 1; one that does not begin on the disk where the one before ends. A plan's own extents are
 *   never refused with it.
 * - 8: fewer machine frames than extents.
 * - 9: fewer records than runs. As many records as extents are always enough.
 */
KH_MUST_USE uint32_t kh_join_extents(const uint64_t *extents, size_t extent_words, uint64_t pieces,
                                     const uint64_t *machine_frames, size_t frame_count, kh_run *runs, size_t run_count,
                                     uint64_t *answer);

/*
 * The guest's half of a ring: it puts requests into a page of the 64-bit layout, and collects their responses. It knows
 * nothing of a backend, and a backend nothing of it; both know the page.
 *
 * Guest memory has the guest's own two indices, requests put and responses collected, and of each outstanding request
 * (put, and its response not yet collected) the id and the operation; its ring has one page, so there are KH_PAGE_SLOTS
 * of them at most. All zeros are a fresh guest, which goes with a page of zeros: `static kh_guest guest;` is one. What
 * the words hold is the library's business.
 *
 * The guest never takes req_prod or rsp_event from the page: both are its own.
 */
typedef struct kh_guest {
    uint64_t words[KH_GUEST_WORDS];
} kh_guest;

/*
 * Words of a request for kh_guest_put. Only what the operation uses is looked at:
 *
 * - read, write, barrier: id, start, the number of segments and the segments below it; a barrier with none, no start
 * - flush: id, and the number of segments, which is 0
 * - discard: id, start, the flag's bit 0 and the sectors
 */
enum kh_request_word {
    KH_REQUEST_OPERATION = 0, /* enum kh_operation */
    KH_REQUEST_ID = 1,        /* the caller's choice; comes back with the response */
    KH_REQUEST_START = 2,     /* first sector on the disk */
    KH_REQUEST_SEGMENT_COUNT = 3,
    KH_REQUEST_FLAG = 4,    /* of a discard: KH_DISCARD_SECURE or not; its other bits don't count */
    KH_REQUEST_SECTORS = 5, /* of a discard */
    KH_REQUEST_SEGMENTS = 8 /* segment i at KH_REQUEST_SEGMENTS + KH_SEGMENT_WORDS * i, i < KH_SEGMENTS */
};
#define KH_SEGMENTS       11 /* segments that a request can have */
#define KH_DISCARD_SECURE 1  /* bit 0 of the flag; a backend whose discard-secure is 0 ignores it */

/* Words of a segment. */
enum kh_segment_word { KH_SEGMENT_FRAME = 0, KH_SEGMENT_FIRST = 1, KH_SEGMENT_LAST = 2 };
#define KH_SEGMENT_WORDS 3

/* Words of kh_guest_put's answer. */
enum kh_put_word {
    KH_PUT_NOTIFY = 0 /* 0 or 1 */
};

/* Words of kh_guest_collect's answer. */
enum kh_collect_word {
    KH_COLLECT_FOUND = 0, /* 1: a response; 0: there is none, and all words are 0 */
    KH_COLLECT_ID = 1,
    KH_COLLECT_OPERATION = 2,
    KH_COLLECT_STATUS = 3 /* its 16 bits as they stand in the page: 65535 is -1 */
};

/*
 * Puts a request, which is outstanding from then on: all KH_SLOT_BYTES bytes of its slot are written, those that it
 * doesn't use with zeros, and req_prod becomes the guest's index of the next. No other byte of the page changes.
 *
 * `page` is KH_GUEST_PAGE_BYTES long. `request` has KH_REQUEST_WORDS words (kh_write_request writes them from a
 * struct), `answer` has KH_PUT_WORDS: whether the backend is to be notified, exactly when req_event is the new
 * req_prod.
 *
 * Refusals: 1, 31, 32, 33. A request that is put can still be answered with a reason that is up to the disk, 22 to 24
 * and 27 to 29.
 */
KH_MUST_USE uint32_t kh_guest_put(kh_guest *guest, uint8_t *page, size_t page_bytes, const uint64_t *request,
                                  uint64_t *answer);

/*
 * Collects the next response, and its request is outstanding no more; the page stays. When there is none, rsp_event
 * becomes the guest's index + 1, so that the next response notifies, and that is the only change.
 *
 * `page` is KH_GUEST_PAGE_BYTES long. `answer` has KH_COLLECT_WORDS words, and all of them are written
 * (kh_read_collected gives them as a struct). A response's status and padding are not judged.
 *
 * Refusals: 1, 34, 35. A page that is refused with 34 or 35 was written by a backend that doesn't keep to its half.
 */
KH_MUST_USE uint32_t kh_guest_collect(kh_guest *guest, uint8_t *page, size_t page_bytes, uint64_t *answer);

/*
 * A disk and its guest, which kh_write_sheet makes a sheet of. All zeros are a read-only disk without features, for a
 * 64-bit guest with a ring of one page; sector_size and sectors have to be set.
 */
typedef struct kh_sheet {
    bool writable;        /* mode: "w", else "r" */
    bool barrier;         /* feature-barrier */
    bool flush;           /* feature-flush-cache */
    bool discard;         /* feature-discard */
    bool discard_secure;  /* discard-secure */
    uint32_t sector_size; /* 512, 1024, 2048 or 4096 */
    uint64_t sectors;     /* of 512 bytes, whatever the sector size */
    enum kh_abi abi;      /* protocol, as the guest's front end says: kh_read_protocol */
    uint32_t pages;       /* of the guest's ring, 1 or 2: ring-page-order is one less; 0 is taken for 1 */
} kh_sheet;

/* As long as kh_write_sheet makes a sheet, at most. */
#define KH_SHEET_BYTES 92

/* Adds a node to a sheet whose head is in `sheet`, and its text to the bodies so far. Returns how long these are. */
static inline size_t kh_add_text(uint8_t *sheet, uint8_t *bodies, size_t length, unsigned node, const char *text) {
    uint8_t *entry = sheet + 1 + 4 * sheet[0]++;
    size_t i;
    for (i = 0; text[i] != '\0'; i++)
        bodies[length + i] = (uint8_t)text[i];
    entry[0] = (uint8_t)node;
    entry[1] = 0;
    entry[2] = (uint8_t)i;
    entry[3] = 0;
    return length + i;
}

/* The same of a number, in decimal digits. */
static inline size_t kh_add_number(uint8_t *sheet, uint8_t *bodies, size_t length, unsigned node, uint64_t number) {
    char text[21];
    size_t i = sizeof text - 1;
    text[i] = '\0';
    do {
        text[--i] = (char)('0' + number % 10);
        number /= 10;
    } while (number > 0);
    return kh_add_text(sheet, bodies, length, node, text + i);
}

/*
 * Writes the sheet that kh_open takes, and returns its length; there is room for KH_SHEET_BYTES bytes. A feature that
 * is off has no node, nor have the 64-bit layout and a ring of one page. Numbers stand there as they are: kh_open
 * judges them.
 */
static inline size_t kh_write_sheet(const kh_sheet *sheet, uint8_t *bytes) {
    const bool features[] = {sheet->barrier, sheet->flush, sheet->discard, sheet->discard_secure};
    uint8_t bodies[KH_SHEET_BYTES];
    size_t length, head, i;
    bytes[0] = 0;
    length = kh_add_text(bytes, bodies, 0, KH_NODE_MODE, sheet->writable ? "w" : "r");
    for (i = 0; i < sizeof features / sizeof features[0]; i++)
        if (features[i])
            length = kh_add_text(bytes, bodies, length, KH_NODE_BARRIER + (unsigned)i, "1");
    length = kh_add_number(bytes, bodies, length, KH_NODE_SECTOR_SIZE, sheet->sector_size);
    length = kh_add_number(bytes, bodies, length, KH_NODE_SECTORS, sheet->sectors);
    if (sheet->abi == KH_BITS32)
        length = kh_add_text(bytes, bodies, length, KH_NODE_PROTOCOL, "x86_32-abi");
    if (sheet->pages > 1)
        length = kh_add_number(bytes, bodies, length, KH_NODE_RING_PAGE_ORDER, sheet->pages - 1);
    head = 1 + 4 * (size_t)bytes[0];
    for (i = 0; i < length; i++)
        bytes[head + i] = bodies[i];
    return head + length;
}

/*
 * The layout that a guest's node `protocol` names, or null, where it has no such node. False: another one, for which no
 * port can be opened.
 */
KH_MUST_USE static inline bool kh_read_protocol(const char *protocol, enum kh_abi *abi) {
    static const char *const names[] = {"x86_64-abi", "x86_32-abi"};
    size_t known, i;
    *abi = KH_BITS64;
    for (known = 0; protocol != NULL && known < 2; known++) {
        for (i = 0; protocol[i] != '\0' && protocol[i] == names[known][i]; i++)
            continue;
        if (protocol[i] == names[known][i]) {
            *abi = known == 0 ? KH_BITS64 : KH_BITS32;
            return true;
        }
    }
    return protocol == NULL;
}

/* Whether the bytes are that text. */
static inline bool kh_is_text(const uint8_t *bytes, size_t count, const char *text) {
    size_t i = 0;
    while (i < count && text[i] != '\0' && bytes[i] == (uint8_t)text[i])
        i++;
    return i == count && text[i] == '\0';
}

/*
 * Whether a sheet has that node with that text. Any bytes may be given, and none outside them is read; of a sheet that
 * kh_open refuses, the answer says nothing.
 */
static inline bool kh_sheet_says(const uint8_t *sheet, size_t sheet_bytes, enum kh_node node, const char *text) {
    size_t entries = sheet_bytes > 0 ? sheet[0] : 0;
    size_t body = 1 + 4 * entries;
    size_t i;
    for (i = 0; i < entries && body <= sheet_bytes; i++) {
        const uint8_t *entry = sheet + 1 + 4 * i;
        size_t length = entry[2] + (size_t)256 * entry[3];
        if (entry[0] == node && length <= sheet_bytes - body && kh_is_text(sheet + body, length, text))
            return true;
        body += length;
    }
    return false;
}

/*
 * The layout of the guest that a sheet is for, and the pages of its ring, 1 or 2: what a host has to know of the sheet
 * that it opened a port with, to copy slots and responses.
 */
static inline enum kh_abi kh_read_abi(const uint8_t *sheet, size_t sheet_bytes) {
    return kh_sheet_says(sheet, sheet_bytes, KH_NODE_PROTOCOL, "x86_32-abi") ? KH_BITS32 : KH_BITS64;
}

static inline uint32_t kh_read_pages(const uint8_t *sheet, size_t sheet_bytes) {
    return kh_sheet_says(sheet, sheet_bytes, KH_NODE_RING_PAGE_ORDER, "1") ? 2 : 1;
}

/* The slots of a ring of so many pages: also the tags of its port. */
static inline uint32_t kh_slots(uint32_t pages) {
    return KH_PAGE_SLOTS * pages;
}

/* The bytes of a slot, and of a response, in a layout. */
static inline size_t kh_slot_bytes(enum kh_abi abi) {
    return abi == KH_BITS32 ? KH_SLOT32_BYTES : KH_SLOT_BYTES;
}

static inline size_t kh_response_bytes(enum kh_abi abi) {
    return abi == KH_BITS32 ? KH_RESPONSE32_BYTES : KH_RESPONSE_BYTES;
}

/* Some sectors of one frame, and where on the disk they go. */
typedef struct kh_extent {
    uint32_t frame;  /* grant reference; below KH_PORT_GRANTS, unless kh_host_turn translated it */
    uint32_t first;  /* first sector in the frame, 0 to 7 */
    uint32_t length; /* sectors, 1 to 8 */
    uint64_t sector; /* first sector on the disk; the extents follow each other there */
} kh_extent;

/* What the host does for a started request. */
typedef struct kh_plan {
    uint32_t tag;
    uint32_t serial;
    uint32_t operation; /* enum kh_operation */
    uint64_t start;     /* first sector on the disk; 0 for a flush and an empty barrier */
    uint64_t count;     /* sectors; 0 for a flush and an empty barrier */
    bool secure;        /* of a discard that asked for it, and discard-secure is 1 */
    uint32_t extent_count;
    kh_extent extents[KH_EXTENTS];
} kh_plan;

/* The result of a plan that was carried out: what kh_complete answers with the status okay. */
static inline int32_t kh_expected_result(const kh_plan *plan) {
    return plan->operation == KH_FLUSH || plan->operation == KH_DISCARD ? 0 : (int32_t)plan->count;
}

/* kh_turn's answer. */
typedef struct kh_turned {
    uint32_t kind;   /* enum kh_kind */
    uint32_t port;   /* all kinds but idle */
    kh_plan plan;    /* started, else zeros */
    uint32_t reason; /* answered, else 0: enum kh_reason */
    int32_t status;  /* answered, else 0: enum kh_status */
    bool notify;     /* answered: the guest is to be notified */
} kh_turned;

/* kh_complete's answer. */
typedef struct kh_completed {
    uint32_t port;
    int32_t status; /* enum kh_status */
    bool notify;    /* the guest is to be notified */
} kh_completed;

/* kh_complete_many's answer. */
typedef struct kh_completed_many {
    uint32_t port;
    uint32_t count;               /* entries */
    bool notify;                  /* the guest is to be notified, once for all of them */
    int32_t statuses[KH_ENTRIES]; /* enum kh_status, in the order of the list; 0 behind the last */
} kh_completed_many;

/* When a reason is given, in a few words, for logs and tables; 23 reads "withdrawn". */
static inline const char *kh_reason_text(uint32_t reason) {
    static const char *const texts[] = {
        "unknown operation",
        "an operation whose feature the disk does not have",
        "withdrawn",
        "a request that writes, on a read-only disk",
        "a wrong number of segments, or nothing to discard",
        "a segment that does not lie in its frame",
        "a frame without the grant that it takes",
        "past the end of the disk",
        "not in whole sectors of the disk",
    };
    bool known = reason >= KH_UNKNOWN_OPERATION && reason <= KH_UNALIGNED;
    return known ? texts[reason - KH_UNKNOWN_OPERATION] : "no reason";
}

/* What a refusal says, in a few words, for logs; 0 reads "done". */
static inline const char *kh_refusal_text(uint32_t refusal) {
    static const char *const texts[] = {
        "done",
        "a lent buffer has the wrong length",
        "port above 7",
        "port not closed",
        "port closed",
        "requests in flight",
        "tag beyond the ring's slots, not busy, another serial, or named twice",
        "more than 64 completions",
        "fewer machine frames than extents",
        "fewer run records than runs",
        "more extents than places, or one empty, past its frame, past 2^64 - 1, or not next on the disk",
        "sheet empty, more than 9 entries, a reserved byte not 0, wrong total length",
        "node 0, above 9, or not rising",
        "a text that node 1 to 5 or 8 does not know, or no number in 6, 7 or 9",
        "a number that node 6, 7 or 9 does not allow",
        "node 1, 6 or 7 missing",
        "32 requests outstanding",
        "a request with that id is outstanding",
        "the request fails check 21, 25 or 26, or a number does not fit its field",
        "rsp_prod is further ahead than there are requests outstanding",
        "no outstanding request has the response's id and operation",
    };
    const uint32_t gap = KH_RING_FULL - KH_SHEET_MISSING - 1; /* numbers between those of a backend and of a guest */
    uint32_t place = refusal < KH_RING_FULL ? refusal : refusal - gap;
    bool known = refusal <= KH_SHEET_MISSING || (refusal >= KH_RING_FULL && refusal <= KH_NOT_OUTSTANDING);
    return known ? texts[place] : "no refusal";
}

/* Extent i of a turn's answer, i < KH_EXTENTS. */
static inline kh_extent kh_read_extent(const uint64_t *answer, size_t i) {
    const uint64_t *words = answer + KH_TURN_EXTENTS + KH_EXTENT_WORDS * i;
    kh_extent extent;
    extent.frame = (uint32_t)words[KH_EXTENT_FRAME];
    extent.first = (uint32_t)words[KH_EXTENT_FIRST];
    extent.length = (uint32_t)words[KH_EXTENT_LENGTH];
    extent.sector = words[KH_EXTENT_SECTOR];
    return extent;
}

/* The plan of a turn's answer. */
static inline kh_plan kh_read_plan(const uint64_t *answer) {
    kh_plan plan;
    size_t i;
    plan.tag = (uint32_t)answer[KH_TURN_TAG];
    plan.serial = (uint32_t)answer[KH_TURN_SERIAL];
    plan.operation = (uint32_t)answer[KH_TURN_OPERATION];
    plan.start = answer[KH_TURN_START];
    plan.count = answer[KH_TURN_COUNT];
    plan.secure = answer[KH_TURN_SECURE] != 0;
    plan.extent_count = (uint32_t)answer[KH_TURN_EXTENT_COUNT];
    for (i = 0; i < KH_EXTENTS; i++)
        plan.extents[i] = kh_read_extent(answer, i);
    return plan;
}

/*
 * kh_join_extents of a plan that was read: with a machine frame for each of its extents, and KH_EXTENTS records, it is
 * not refused.
 */
KH_MUST_USE static inline uint32_t kh_join_plan(const kh_plan *plan, const uint64_t *machine_frames, size_t frame_count,
                                                kh_run *runs, size_t run_count, uint64_t *answer) {
    uint64_t words[KH_EXTENTS * KH_EXTENT_WORDS];
    size_t i;
    for (i = 0; i < KH_EXTENTS; i++) {
        words[KH_EXTENT_WORDS * i + KH_EXTENT_FRAME] = plan->extents[i].frame;
        words[KH_EXTENT_WORDS * i + KH_EXTENT_FIRST] = plan->extents[i].first;
        words[KH_EXTENT_WORDS * i + KH_EXTENT_LENGTH] = plan->extents[i].length;
        words[KH_EXTENT_WORDS * i + KH_EXTENT_SECTOR] = plan->extents[i].sector;
    }
    return kh_join_extents(words, KH_EXTENTS * KH_EXTENT_WORDS, plan->extent_count, machine_frames, frame_count, runs,
                           run_count, answer);
}

/* The answer of a turn that was done, KH_TURN_WORDS words. */
static inline kh_turned kh_read_turn(const uint64_t *answer) {
    kh_turned turned;
    turned.kind = (uint32_t)answer[KH_TURN_KIND];
    turned.port = (uint32_t)answer[KH_TURN_PORT];
    turned.plan = kh_read_plan(answer);
    turned.reason = (uint32_t)answer[KH_TURN_REASON];
    turned.status = -(int32_t)answer[KH_TURN_STATUS];
    turned.notify = answer[KH_TURN_NOTIFY] != 0;
    return turned;
}

/* The answer of a completion that was done, KH_DONE_WORDS words. */
static inline kh_completed kh_read_completion(const uint64_t *answer) {
    kh_completed completed;
    completed.port = (uint32_t)answer[KH_DONE_PORT];
    completed.status = -(int32_t)answer[KH_DONE_STATUS];
    completed.notify = answer[KH_DONE_NOTIFY] != 0;
    return completed;
}

/* Writes entry i of a list for kh_complete_many, whose words these are. */
static inline void kh_write_entry(uint64_t *words, size_t i, uint32_t tag, uint32_t serial, int32_t result) {
    uint64_t *entry = words + KH_ENTRY_WORDS * i;
    entry[KH_ENTRY_TAG] = tag;
    entry[KH_ENTRY_SERIAL] = serial;
    entry[KH_ENTRY_RESULT] = (uint64_t)(int64_t)result;
}

/* The answer of a list of completions that was done, KH_MANY_WORDS words. */
static inline kh_completed_many kh_read_many(const uint64_t *answer) {
    kh_completed_many completed;
    size_t i;
    completed.port = (uint32_t)answer[KH_MANY_PORT];
    completed.count = (uint32_t)answer[KH_MANY_COUNT];
    completed.notify = answer[KH_MANY_NOTIFY] != 0;
    for (i = 0; i < KH_ENTRIES; i++)
        completed.statuses[i] = -(int32_t)answer[KH_MANY_STATUSES + i];
    return completed;
}

/* Some sectors of one frame, for a guest's request. */
typedef struct kh_segment {
    uint32_t frame; /* grant reference */
    uint32_t first; /* first sector in the frame, 0 to 7 */
    uint32_t last;  /* last one, first to 7 */
} kh_segment;

/* A request for kh_guest_put. What its operation doesn't use may be anything, see enum kh_request_word. */
typedef struct kh_request {
    uint32_t operation; /* enum kh_operation */
    uint64_t id;
    uint64_t start; /* first sector on the disk */
    uint32_t segment_count;
    uint32_t flag;    /* of a discard: KH_DISCARD_SECURE or 0 */
    uint64_t sectors; /* of a discard */
    kh_segment segments[KH_SEGMENTS];
} kh_request;

/* kh_guest_collect's answer. */
typedef struct kh_collected {
    bool found;         /* there was a response, else all that follows is 0 */
    uint64_t id;        /* of the request that it is for, as the next */
    uint32_t operation; /* enum kh_operation */
    int16_t status;     /* enum kh_status, or any other number that a backend came up with */
} kh_collected;

/* A request as the KH_REQUEST_WORDS words of it; all of them are written. */
static inline void kh_write_request(const kh_request *request, uint64_t *words) {
    size_t i;
    for (i = 0; i < KH_REQUEST_SEGMENTS; i++)
        words[i] = 0;
    words[KH_REQUEST_OPERATION] = request->operation;
    words[KH_REQUEST_ID] = request->id;
    words[KH_REQUEST_START] = request->start;
    words[KH_REQUEST_SEGMENT_COUNT] = request->segment_count;
    words[KH_REQUEST_FLAG] = request->flag;
    words[KH_REQUEST_SECTORS] = request->sectors;
    for (i = 0; i < KH_SEGMENTS; i++) {
        uint64_t *segment = words + KH_REQUEST_SEGMENTS + KH_SEGMENT_WORDS * i;
        segment[KH_SEGMENT_FRAME] = request->segments[i].frame;
        segment[KH_SEGMENT_FIRST] = request->segments[i].first;
        segment[KH_SEGMENT_LAST] = request->segments[i].last;
    }
}

/* The answer of a collecting that was done, KH_COLLECT_WORDS words. */
static inline kh_collected kh_read_collected(const uint64_t *answer) {
    int32_t bits = (int32_t)(answer[KH_COLLECT_STATUS] & 0xFFFF);
    kh_collected collected;
    collected.found = answer[KH_COLLECT_FOUND] != 0;
    collected.id = answer[KH_COLLECT_ID];
    collected.operation = (uint32_t)answer[KH_COLLECT_OPERATION];
    collected.status = (int16_t)(bits < 0x8000 ? bits : bits - 0x10000);
    return collected;
}

/* What the numbers above say of each other, checked by whatever compiles this. */
#if defined(__cplusplus) && __cplusplus >= 201103L
#define KH_HOLDS(name, fact) static_assert(fact, #name)
#elif defined(__STDC_VERSION__) && __STDC_VERSION__ >= 201112L
#define KH_HOLDS(name, fact) _Static_assert(fact, #name)
#else
#define KH_HOLDS(name, fact) typedef char kh_holds_##name[(fact) ? 1 : -1]
#endif
KH_HOLDS(lengths_have_64_bits, sizeof(size_t) == 8 && sizeof(void *) == 8);
KH_HOLDS(memory_is_its_words, sizeof(kh_memory) == 8 * KH_MEMORY_WORDS);
KH_HOLDS(a_meter_is_four_words, sizeof(kh_meter) == 32 && offsetof(kh_meter, not_supported) == 24);
KH_HOLDS(a_run_is_four_words, sizeof(kh_run) == 32 && offsetof(kh_run, sector) == 24);
KH_HOLDS(rings_are_a_share_a_port, KH_RINGS_BYTES == KH_PORTS * KH_RING_BYTES);
KH_HOLDS(a_share_has_every_page, KH_RING_BYTES == KH_RING_PAGES * KH_PAGE_BYTES);
KH_HOLDS(every_slot_has_a_tag, KH_TAGS == KH_RING_PAGES * KH_PAGE_SLOTS);
KH_HOLDS(grants_are_a_share_a_port, KH_GRANTS_BYTES == KH_PORTS * KH_PORT_GRANTS);
KH_HOLDS(slots_fit_one_page, KH_HEADER_BYTES + KH_PAGE_SLOTS * KH_SLOT_BYTES <= KH_PAGE_BYTES);
KH_HOLDS(slots_fit_two_pages, KH_HEADER_BYTES + KH_TAGS * KH_SLOT_BYTES <= KH_RING_BYTES);
KH_HOLDS(a_guests_ring_has_one_page, KH_GUEST_PAGE_BYTES == KH_PAGE_BYTES);
KH_HOLDS(a_response_fits_its_slot, KH_RESPONSE_BYTES <= KH_SLOT_BYTES);
KH_HOLDS(no_slot_is_larger, KH_SLOT32_BYTES <= KH_SLOT_BYTES);
KH_HOLDS(no_response_is_larger, KH_RESPONSE32_BYTES <= KH_RESPONSE_BYTES);
KH_HOLDS(both_keep_as_much_of_a_slot, KH_SLOT32_BYTES - KH_RESPONSE32_BYTES == KH_SLOT_BYTES - KH_RESPONSE_BYTES);
KH_HOLDS(extents_fit_the_answer, KH_TURN_EXTENTS + KH_EXTENTS * KH_EXTENT_WORDS <= KH_TURN_WORDS);
KH_HOLDS(statuses_end_the_answer, KH_MANY_STATUSES + KH_ENTRIES == KH_MANY_WORDS);
KH_HOLDS(a_list_can_name_every_tag, KH_ENTRIES == KH_TAGS);
KH_HOLDS(the_result_ends_an_entry, KH_ENTRY_RESULT + 1 == KH_ENTRY_WORDS);
KH_HOLDS(a_guest_is_its_words, sizeof(kh_guest) == 8 * KH_GUEST_WORDS);
KH_HOLDS(segments_end_the_request, KH_REQUEST_SEGMENTS + KH_SEGMENTS * KH_SEGMENT_WORDS == KH_REQUEST_WORDS);
KH_HOLDS(every_segment_has_an_extent, KH_SEGMENTS == KH_EXTENTS);
KH_HOLDS(the_flag_is_bit_0, KH_DISCARD_SECURE == 1);
#undef KH_HOLDS

#ifdef __cplusplus
}
#endif

#endif
