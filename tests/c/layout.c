/*
 * The sizes, offsets and numbers of the rules, as named in kernelharp.h, are those of Xen's public headers, and so is
 * the line of notify.
 */
#include "records.h"
#include "test.h"

HOLDS(BLKIF_OP_READ == KH_READ);
HOLDS(BLKIF_OP_WRITE == KH_WRITE);
HOLDS(BLKIF_OP_WRITE_BARRIER == KH_BARRIER);
HOLDS(BLKIF_OP_FLUSH_DISKCACHE == KH_FLUSH);
HOLDS(BLKIF_OP_DISCARD == KH_DISCARD);
HOLDS(BLKIF_RSP_OKAY == KH_OKAY);
HOLDS(BLKIF_RSP_ERROR == KH_ERROR);
HOLDS(BLKIF_RSP_EOPNOTSUPP == KH_NOT_SUPPORTED);
HOLDS(BLKIF_DISCARD_SECURE == KH_DISCARD_SECURE);
HOLDS(BLKIF_MAX_SEGMENTS_PER_REQUEST == KH_SEGMENTS);

static void layout_of_xen_headers(host *h) {
    check_slots(h->at[RINGS]);
}

static void layout_protocol_name(host *h) {
    CHECK_EQ(OPEN_NODES(h, 0, USUAL_NODES " 8:" XEN_IO_PROTO_ABI_X86_64), KH_OK);
    CHECK_EQ(OPEN_NODES(h, 1, USUAL_NODES " 8:" XEN_IO_PROTO_ABI_X86_32), KH_OK);
    CHECK_EQ(h->books[0].ring.abi, KH_BITS64);
    CHECK_EQ(h->books[1].ring.abi, KH_BITS32);
    CHECK_EQ(strcmp(XEN_IO_PROTO_ABI_NATIVE, layouts[KH_BITS64].protocol), 0);
}

/* By blkif.h the flag is ignored where discard-secure is 0. */
static void layout_secure_flag(host *h) {
    static const char *const nodes[] = {"1:w 4:1 5:0 6:512 7:2008", "1:w 4:1 5:1 6:512 7:2008"};
    for (int can = 0; can < 2; can++) {
        blkif_request_discard_t *slot;
        BEGIN(h, nodes[can]);
        slot = (blkif_request_discard_t *)(void *)slot_of(h, 0, 0);
        slot->operation = BLKIF_OP_DISCARD;
        slot->flag = BLKIF_DISCARD_SECURE;
        slot->nr_sectors = 8;
        set_index(h, 0, KH_REQ_PROD, 1);
        CHECK_EQ(SERVE(h, 0), KH_STARTED);
        CHECK_EQ(kh_read_plan(words(h, TURNED)).secure, can);
    }
}

/* What the macros say of so many responses, published together on a copy of the ring. */
static int notify_by_macros(const host *h, uint32_t count) {
    static uint32_t copy[KH_PAGE_BYTES / sizeof(uint32_t)];
    blkif_back_ring_t back;
    int notify;
    BACK_RING_INIT(&back, (blkif_sring_t *)(void *)copy, KH_PAGE_BYTES);
    memcpy(copy, ring(h, 0), sizeof copy);
    back.rsp_prod_pvt = h->books[0].answered + count;
    RING_PUSH_RESPONSES_AND_CHECK_NOTIFY(&back, notify);
    return notify;
}

/* The macros take the old index from the ring, and the library its own: a guest that leaves rsp_prod alone sees one. */
static void check_notify_of(host *h, uint32_t first, uint32_t count, uint32_t rsp_event) {
    list l = {.count = 0};
    int due;
    BEGIN_AT_INDEX(h, first);
    set_index(h, 0, KH_REQ_PROD, first);
    set_index(h, 0, KH_RSP_PROD, first);
    set_index(h, 0, KH_RSP_EVENT, rsp_event);
    for (uint32_t tag = 0; tag < count; tag++) {
        post(h, 0, transfer(KH_READ, 1, 0));
        CHECK_EQ(SERVE(h, 0), KH_STARTED);
        add_started(&l, h, 0, tag);
    }
    due = notify_by_macros(h, count);
    CHECK_EQ(COMPLETE_LIST(h, 0, &l), KH_OK);
    CHECK_EQ(words(h, LISTED)[KH_MANY_NOTIFY], due);
}

/* On both sides of the old index and of the new one, far from both, and at every index between. */
static void layout_line_of_notify(host *h) {
    static const uint32_t firsts[] = {0, 5, UINT32_MAX - 2, UINT32_C(1) << 31}, counts[] = {0, 1, 2, 7, 32};
    for (size_t i = 0; i < COUNT_OF(firsts) * COUNT_OF(counts); i++) {
        uint32_t old = firsts[i / COUNT_OF(counts)], count = counts[i % COUNT_OF(counts)];
        for (uint32_t event = 0; event <= count + 3; event++)
            check_notify_of(h, old, count, old - 1 + event);
        check_notify_of(h, old, count, old + (UINT32_C(1) << 31));
        check_notify_of(h, old, count, old + count + (UINT32_C(1) << 31));
    }
}

int main(void) {
    static const test tests[] = {TEST(layout_of_xen_headers), TEST(layout_protocol_name), TEST(layout_secure_flag),
                                 TEST(layout_line_of_notify)};
    return run_tests(tests, COUNT_OF(tests));
}
