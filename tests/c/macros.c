/* Built once for each layout: as it is, and with AS_I386. */
#include "records.h"

#include "macros.h"

static struct {
    blkif_front_ring_t front;
    blkif_back_ring_t back;
} rings[GUESTS];

/* ---- the guest's half */

static uint32_t ring_bytes(uint32_t port) {
    return KH_PAGE_BYTES * guest_of[port].pages;
}

static void open_front(uint32_t port, void *ring) {
    XEN_FRONT_RING_INIT(&rings[port].front, (blkif_sring_t *)ring, ring_bytes(port));
}

static void fill_request(blkif_request_t *request, uint32_t port, uint32_t number) {
    const kind *k = kind_of(port, number);
    memset(request, 0xEE, sizeof *request);
    request->operation = k->operation;
    request->nr_segments = k->n;
    request->handle = (blkif_vdev_t)number;
    request->id = id_of(port, number);
    request->sector_number = k->start;
    if (k->operation == BLKIF_OP_DISCARD)
        ((blkif_request_discard_t *)request)->nr_sectors = k->sectors;
    else
        for (int i = 0; i < BLKIF_MAX_SEGMENTS_PER_REQUEST; i++) {
            request->seg[i].gref = k->frame;
            request->seg[i].first_sect = k->first;
            request->seg[i].last_sect = k->last;
        }
}

static bool put_request(uint32_t port, uint32_t number) {
    blkif_front_ring_t *front = &rings[port].front;
    if (RING_FULL(front))
        return false;
    fill_request(RING_GET_REQUEST(front, front->req_prod_pvt++), port, number);
    return true;
}

static bool push(uint32_t port) {
    int notify;
    RING_PUSH_REQUESTS_AND_CHECK_NOTIFY(&rings[port].front, notify);
    return notify;
}

static uint32_t outstanding(uint32_t port) {
    return rings[port].front.req_prod_pvt - rings[port].front.rsp_cons;
}

static uint32_t slots(uint32_t port) {
    return RING_SIZE(&rings[port].front);
}

static uint32_t collect(uint32_t port, response *to) {
    blkif_front_ring_t *front = &rings[port].front;
    RING_IDX produced = front->sring->rsp_prod, first = front->rsp_cons;
    xen_rmb();
    if (RING_RESPONSE_PROD_OVERFLOW(front, produced))
        return MOST_SLOTS + 1;
    for (; front->rsp_cons != produced; front->rsp_cons++) {
        blkif_response_t copy;
        RING_COPY_RESPONSE(front, front->rsp_cons, &copy);
        *to++ = (response){copy.id, copy.operation, copy.status};
    }
    return produced - first;
}

static bool ask(uint32_t port, uint32_t later) {
    blkif_front_ring_t *front = &rings[port].front;
    int more;
    RING_FINAL_CHECK_FOR_RESPONSES(front, more);
    if (more || later >= outstanding(port))
        return more;
    front->sring->rsp_event = front->rsp_cons + 1 + later;
    xen_mb();
    return front->sring->rsp_prod - front->rsp_cons > later;
}

/* ---- the back end's half */

static void open_back(uint32_t port, void *ring) {
    BACK_RING_INIT(&rings[port].back, (blkif_sring_t *)ring, ring_bytes(port));
}

static bool take(uint32_t port, uint32_t *number) {
    blkif_back_ring_t *back = &rings[port].back;
    if (RING_HAS_UNCONSUMED_REQUESTS(back) == 0)
        return false;
    *number = back->req_cons++;
    return true;
}

static void respond(uint32_t port, const response *given) {
    blkif_back_ring_t *back = &rings[port].back;
    blkif_response_t *slot = RING_GET_RESPONSE(back, back->rsp_prod_pvt++);
    memset(slot, 0, sizeof *slot);
    slot->id = given->id;
    slot->operation = given->operation;
    slot->status = given->status;
}

static bool publish(uint32_t port) {
    int notify;
    RING_PUSH_RESPONSES_AND_CHECK_NOTIFY(&rings[port].back, notify);
    return notify;
}

static bool rest(uint32_t port) {
    int more;
    RING_FINAL_CHECK_FOR_REQUESTS(&rings[port].back, more);
    return more;
}

#ifdef AS_I386
const halves as_i386 =
#else
const halves as_compiled =
#endif
    {open_front, put_request, push, collect, ask, outstanding, slots, open_back, take, respond, publish, rest};
