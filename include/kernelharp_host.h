/*
 * Kernelharp for hosts: ordinary code over the proved calls of kernelharp.h that keeps a host's books of eight rings
 * which guests write while it runs. It does the copies, fences and second looks, translates grant references, meters,
 * counts and traces. docs/HOST.md says why each of them is needed. C99 or later, and C++; x86-64 Linux only, gcc or
 * clang. Link with libkernelharp_host.a, then libkernelharp.a.
 *
 * There are two ways to lend rings, and a host chooses one when it begins:
 *
 * - private copies (kh_host_init): the helper copies what is needed between the guests' pages, wherever they are
 *   mapped, and memory of its own;
 * - live pages (kh_host_init_pages): the guests' pages themselves are lent, and nothing is copied. They are mapped in
 *   one row of KH_RINGS_BYTES bytes, port k's at KH_RING_BYTES * k. Where a port has no second page, or is closed, any
 *   page of the host's own stands there.
 *
 * A kh_host is plain memory of the caller's. One thread at a time. Disk I/O, the mapping of frames, events and XenStore
 * are the host's.
 */
#ifndef KERNELHARP_HOST_H
#define KERNELHARP_HOST_H

#include <kernelharp.h>

#ifdef __cplusplus
extern "C" {
#endif

#define KH_REASONS (KH_UNALIGNED - KH_UNKNOWN_OPERATION + 1) /* numbers of enum kh_reason, with the one withdrawn */

/* What a port has done since the host began. Opening and closing it zero nothing. A number stops at 2^64 - 1. */
typedef struct kh_counters {
    uint64_t in_flight; /* now: requests that were started and are not completed */
    uint64_t reads;     /* requests started, by operation */
    uint64_t writes;
    uint64_t barriers;
    uint64_t flushes;
    uint64_t discards;
    uint64_t sectors_read;    /* of these requests */
    uint64_t sectors_written; /* by writes and barriers */
    uint64_t sectors_discarded;
    uint64_t refused[KH_REASONS]; /* requests answered at once: reason r at r - KH_UNKNOWN_OPERATION */
    uint64_t okay;                /* responses, by status; of turns and completions */
    uint64_t errors;
    uint64_t not_supported;
    uint64_t completions_refused; /* calls to complete one or many that were refused */
    uint64_t overruns;
    uint64_t opens;
    uint64_t closes;
    uint64_t notifies; /* calls that said to notify the guest */
} kh_counters;

/* The books of one ring; private. */
typedef struct kh_host_ring {
    uint32_t pages; /* by the sheet, as the next; 0 while the port is closed */
    enum kh_abi abi;
    bool broken;
    bool left_out;
    uint32_t req_cons;                      /* requests taken; 0 at each opening, as the next two */
    uint32_t rsp_prod;                      /* responses given */
    uint32_t copied;                        /* C + 1 while the next request is in the private copy, else C */
    volatile uint32_t *live[KH_RING_PAGES]; /* the guest's pages */
    uint8_t (*granted)(void *context, uint32_t port, uint32_t reference); /* the hook, when the port was opened */
    uint32_t references[KH_TAGS * KH_EXTENTS]; /* the guest's, by the frame numbers that stand for them */
} kh_host_ring;

typedef struct kh_host {
    /*
     * The hooks, null when the host begins, and what is handed to them. They are for private copies: with live pages
     * none of them is called. A hook makes no call on its host.
     *
     * granted: what a port's guest has granted by this reference, KH_GRANT_NONE, KH_GRANT_READ or KH_GRANT_READ_WRITE.
     * It is for guests whose references may be KH_PORT_GRANTS and more, up to 2^32 - 1. It is asked for each segment of
     * a request when the request is copied in: again, if the guest moves req_prod back meanwhile, and a plan need not
     * follow. So it looks up and does nothing else. A port keeps what is set when it is opened, the hook or none, until
     * it is closed; the grant bytes of a port with the hook are the helper's.
     *
     * trace: a line, without its end, of a list of calls that the program replay reads: what changed in rings and
     * grants, then the call, then its answer as a comment. replay begins with an empty backend, so the hook is set
     * before the first port is opened; where every port is closed again, a comment says that the trace is to be cut
     * there. It reads 65,536 bytes at most.
     */
    void *context;
    uint8_t (*granted)(void *context, uint32_t port, uint32_t reference);
    void (*trace)(void *context, const char *line);

    /* From here on private. */
    kh_memory memory;
    kh_host_ring rings[KH_PORTS];
    kh_meter meters[KH_PORTS];
    kh_counters counters[KH_PORTS];
    uint8_t grants[KH_GRANTS_BYTES];
    uint8_t *row;                                                /* live pages; null with private copies */
    uint32_t copies[KH_PORTS][KH_RING_BYTES / sizeof(uint32_t)]; /* rings, as private copies */
    uint32_t traced[KH_PORTS][KH_RING_BYTES / sizeof(uint32_t)]; /* as the lines so far leave them */
    uint8_t traced_grants[KH_GRANTS_BYTES];
} kh_host;

/*
 * Begin a host with eight closed ports: with private copies, or with live pages in this row. The row is aligned to
 * KH_PAGE_BYTES, and stays mapped as long as the host makes calls. False: header, helper and archive are not of one
 * release, or there is no row; nothing was written, and no other call may be made. kh_host_begin is what both come to,
 * with the numbers of the header that the caller was compiled with.
 */
KH_MUST_USE bool kh_host_begin(kh_host *host, void *row, uint32_t version, size_t host_bytes);

KH_MUST_USE static inline bool kh_host_init(kh_host *host) {
    return kh_host_begin(host, NULL, KH_VERSION, sizeof *host);
}

KH_MUST_USE static inline bool kh_host_init_pages(kh_host *host, void *row) {
    return row != NULL && kh_host_begin(host, row, KH_VERSION, sizeof *host);
}

/*
 * Opens a port as kh_open does, over a ring that its guest has just set up. `pages` are as many as kh_read_pages says,
 * each aligned to 4 bytes and wherever it is mapped, first the one with the header; they stay mapped until the port is
 * closed. With live pages it is not looked at and may be null. Turns follow before the host sleeps: a guest may have
 * published and rung before. Refusals: those of kh_open.
 */
KH_MUST_USE uint32_t kh_host_open(kh_host *host, uint32_t port, const uint8_t *sheet, size_t sheet_bytes,
                                  void *const *pages);

/*
 * Closes a port as kh_close does; its pages may then be unmapped. Refusals: those of kh_close. Where that leaves every
 * port closed, backend memory becomes zeros again, so that a trace can begin there.
 */
KH_MUST_USE uint32_t kh_host_close(kh_host *host, uint32_t port);

/*
 * Leaves a port out of the turns, or lets it in again: for a guest that is going, whose plans in flight are to end
 * while the others are served, and for one that sends rubbish. Nothing of its ring is looked at meanwhile; its
 * completions work as always, and so does the close. Idle then says nothing of it, and turns follow before the host
 * sleeps when it is let in; an opening lets it in. False, and nothing happens: with live pages, and where the port is
 * closed.
 */
KH_MUST_USE bool kh_host_leave_out(kh_host *host, uint32_t port, bool out);

/*
 * Serves one port as kh_turn does. Idle is safe to sleep on until a guest's event, or the end of a plan in flight. A
 * plan's frames are the guest's own references. Notify, where it is answered: send the event.
 */
kh_turned kh_host_turn(kh_host *host);

/*
 * Answer started requests as kh_complete and kh_complete_many do; `count` is that of the entries, which kh_write_entry
 * writes. `notify`, which is written where the call is done: whether to send the guest an event. Refusals: those of
 * kh_complete and kh_complete_many, without 1.
 */
KH_MUST_USE uint32_t kh_host_complete(kh_host *host, uint32_t port, uint32_t tag, uint32_t serial, int32_t result,
                                      bool *notify);
KH_MUST_USE uint32_t kh_host_complete_many(kh_host *host, uint32_t port, const uint64_t *entries, size_t count,
                                           bool *notify);

/* The port's KH_PORT_GRANTS grant bytes, which the host writes between calls; null of a port above 7. All are none when
   the host begins. Opening and closing a port leave them, but the close of one with the hook granted leaves none. */
uint8_t *kh_host_grants(kh_host *host, uint32_t port);

/* What the port's meter shows, which then begins anew at zero; zeros of a port above 7. */
kh_meter kh_host_take_meter(kh_host *host, uint32_t port);

/* What the port has done; zeros of a port above 7. */
kh_counters kh_host_counters(const kh_host *host, uint32_t port);

/*
 * Write the counters, as snprintf does: no more than `bytes` bytes with the 0 at the end, and the length that the whole
 * has without it is returned. As text a table: a line of heads, then a line for each port that was ever opened; the
 * column REFUSED has the sum over all reasons. As JSON one line without its end, of one port.
 */
size_t kh_host_write_text(const kh_host *host, char *text, size_t bytes);
size_t kh_host_write_json(const kh_host *host, uint32_t port, char *text, size_t bytes);

#ifdef __cplusplus
}
#endif

#endif
