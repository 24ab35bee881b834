/*
 * The guest's half written anew, with one fault in it, named by the environment variable WRONG, to see that the tests
 * find it. It stands in for the calls of the archive (the linker's --wrap). With no fault it must pass all tests.
 */
#include "wrong.h"

uint32_t __wrap_kh_guest_put(kh_guest *guest, uint8_t *page, size_t page_bytes, const uint64_t *request,
                             uint64_t *answer);
uint32_t __wrap_kh_guest_collect(kh_guest *guest, uint8_t *page, size_t page_bytes, uint64_t *answer);

/* ---- guest memory and page */

enum { REQ_PROD, RSP_CONS, COUNT, ENTRIES }; /* words; an entry is an id and an operation */

static uint64_t *entry_of(kh_guest *guest, uint64_t i) {
    return guest->words + ENTRIES + 2 * i;
}

static uint64_t count_of(const kh_guest *guest) {
    return guest->words[COUNT] < KH_PAGE_SLOTS ? guest->words[COUNT] : KH_PAGE_SLOTS;
}

static void store(uint8_t *at, const void *value, size_t bytes) {
    memcpy(at, value, bytes); /* the tests' machines have the ring's byte order */
}

static uint32_t index_at(const uint8_t *page, size_t field) {
    uint32_t value;
    memcpy(&value, page + field, sizeof value);
    return value;
}

static uint8_t *slot_at(uint8_t *page, uint64_t index) {
    return page + KH_HEADER_BYTES + KH_SLOT_BYTES * (index % KH_PAGE_SLOTS);
}

static bool is_wrong_length(size_t page_bytes) {
    if (wrong("longer_page") && page_bytes > KH_GUEST_PAGE_BYTES)
        return false;
    return page_bytes != KH_GUEST_PAGE_BYTES;
}

/* ---- putting */

static bool is_id_outstanding(kh_guest *guest, uint64_t id) {
    uint64_t count = wrong("id_0_outstanding") ? KH_PAGE_SLOTS : count_of(guest);
    if (wrong("id_may_come_again"))
        return false;
    for (uint64_t i = 0; i < count; i++) {
        uint64_t other = entry_of(guest, i)[0];
        if (other == id || (wrong("ids_of_32_bits") && (uint32_t)other == (uint32_t)id))
            return true;
    }
    return false;
}

static bool is_segment_sound(const uint64_t *segment) {
    uint64_t first = segment[KH_SEGMENT_FIRST], last = segment[KH_SEGMENT_LAST];
    if (wrong("first_and_last_of_8_bits")) {
        first &= UINT8_MAX;
        last &= UINT8_MAX;
    }
    if (!wrong("frame_of_32_bits") && segment[KH_SEGMENT_FRAME] > UINT32_MAX)
        return false;
    return (first <= last || wrong("first_above_last")) && last <= (wrong("last_of_8") ? 8 : 7);
}

static bool are_segments_sound(const uint64_t *request, uint64_t least) {
    uint64_t n = request[KH_REQUEST_SEGMENT_COUNT];
    if (wrong("count_of_8_bits"))
        n &= UINT8_MAX;
    if (n < least || n > KH_SEGMENTS)
        return false;
    if (wrong("first_segment_alone") && n > 1)
        n = 1;
    if (wrong("all_segments_judged"))
        n = KH_SEGMENTS;
    for (uint64_t i = 0; i < n; i++)
        if (!is_segment_sound(request + KH_REQUEST_SEGMENTS + KH_SEGMENT_WORDS * i))
            return false;
    return true;
}

static uint64_t operation_seen(const uint64_t *request) {
    uint64_t operation = request[KH_REQUEST_OPERATION];
    if (wrong("operation_of_8_bits"))
        operation &= UINT8_MAX;
    return wrong("reserved_operation") && operation == 4 ? KH_DISCARD : operation;
}

static bool is_request_sound(const uint64_t *request) {
    uint64_t n = request[KH_REQUEST_SEGMENT_COUNT];
    switch (operation_seen(request)) {
    case KH_READ:
    case KH_WRITE:
        return are_segments_sound(request, wrong("empty_transfer") ? 0 : 1);
    case KH_BARRIER:
        return are_segments_sound(request, wrong("no_empty_barrier") ? 1 : 0);
    case KH_FLUSH:
        return n == 0 || (wrong("flush_with_segments") && n <= KH_SEGMENTS);
    case KH_DISCARD:
        if (wrong("discard_counts_segments") && n > KH_SEGMENTS)
            return false;
        return request[KH_REQUEST_SECTORS] != 0 || wrong("empty_discard");
    default:
        return false;
    }
}

static uint32_t refusal_of_put(kh_guest *guest, size_t page_bytes, const uint64_t *request) {
    bool is_full = count_of(guest) == (wrong("ring_of_31") ? 31 : KH_PAGE_SLOTS) && !wrong("ring_never_full");
    bool is_known = is_id_outstanding(guest, request[KH_REQUEST_ID]);
    if (is_full && wrong("order_1_31"))
        return KH_RING_FULL;
    if (is_wrong_length(page_bytes))
        return KH_WRONG_LENGTH;
    if (is_known && wrong("order_31_32"))
        return KH_ID_OUTSTANDING;
    if (is_full)
        return KH_RING_FULL;
    if (!is_request_sound(request) && wrong("order_32_33"))
        return KH_BAD_REQUEST;
    if (is_known)
        return KH_ID_OUTSTANDING;
    return is_request_sound(request) ? KH_OK : KH_BAD_REQUEST;
}

static void clear_slot(uint8_t *slot) {
    if (wrong("padding_of_segments_left"))
        memset(slot, 0, 24);
    else if (wrong("handle_left"))
        memset(slot + 8, 0, KH_SLOT_BYTES - 8);
    else
        memset(slot, 0, KH_SLOT_BYTES - (wrong("last_bytes_left") ? 2 : 0));
}

static void write_segments(uint8_t *slot, const uint64_t *request, uint64_t n) {
    for (uint64_t i = 0; i < n; i++) {
        const uint64_t *segment = request + KH_REQUEST_SEGMENTS + KH_SEGMENT_WORDS * i;
        store(slot + 24 + 8 * i, &segment[KH_SEGMENT_FRAME], wrong("frame_of_24_bits") ? 3 : 4);
        store(slot + 28 + 8 * i, &segment[KH_SEGMENT_FIRST], 1);
        store(slot + 29 + 8 * i, &segment[KH_SEGMENT_LAST], 1);
    }
}

static void write_slot(uint8_t *slot, const uint64_t *request) {
    uint64_t operation = request[KH_REQUEST_OPERATION], n = request[KH_REQUEST_SEGMENT_COUNT];
    clear_slot(slot);
    store(slot, &operation, 1);
    store(slot + 8, &request[KH_REQUEST_ID], 8);
    if (operation == KH_DISCARD) {
        slot[1] = (uint8_t)(request[KH_REQUEST_FLAG] & (wrong("flag_of_8_bits") ? UINT8_MAX : KH_DISCARD_SECURE));
        store(slot + 24, &request[KH_REQUEST_SECTORS], wrong("sectors_of_32_bits") ? 4 : 8);
    } else {
        store(slot + 1, &n, 1);
        write_segments(slot, request, wrong("segments_after_the_last") ? KH_SEGMENTS : n);
    }
    if (operation == KH_DISCARD || n > 0 || (wrong("start_of_flush") && operation == KH_FLUSH) ||
        (wrong("start_of_empty_barrier") && operation == KH_BARRIER))
        store(slot + 16, &request[KH_REQUEST_START], 8);
}

static bool is_to_notify(uint32_t req_event, uint32_t old) {
    if (wrong("notify_always"))
        return true;
    if (wrong("notify_at_old"))
        return req_event == old;
    if (wrong("notify_when_passed"))
        return old + 1 - req_event < 2;
    if (wrong("req_event_of_16_bits"))
        return (uint16_t)req_event == (uint16_t)(old + 1);
    return req_event == old + 1 && !wrong("notify_never");
}

static void publish(kh_guest *guest, uint8_t *page, const uint64_t *request, uint64_t *answer) {
    uint32_t old = wrong("req_prod_of_page") ? index_at(page, KH_REQ_PROD) : (uint32_t)guest->words[REQ_PROD];
    uint32_t next = wrong("req_prod_stops") && old == UINT32_MAX ? old : old + 1;
    write_slot(slot_at(page, old), request);
    store(page + KH_REQ_PROD, &next, sizeof next);
    if (wrong("put_touches_rsp_event"))
        page[KH_RSP_EVENT] ^= 1;
    answer[KH_PUT_NOTIFY] = is_to_notify(index_at(page, KH_REQ_EVENT), old);
    guest->words[REQ_PROD] = next;
}

uint32_t __wrap_kh_guest_put(kh_guest *guest, uint8_t *page, size_t page_bytes, const uint64_t *request,
                             uint64_t *answer) {
    volatile uint64_t *lent = (volatile uint64_t *)(uintptr_t)request;
    uint32_t number = refusal_of_put(guest, page_bytes, request);
    peek("before_guest", "after_guest", guest, sizeof *guest);
    peek("before_page", "after_page", page, page_bytes);
    peek("before_request", "after_request", request, 8 * KH_REQUEST_WORDS);
    peek("before_put", "after_put", answer, 8 * KH_PUT_WORDS);
    if (wrong("stores_to_request"))
        lent[0] = lent[0];
    if (wrong("refused_put_answers") && number != KH_OK)
        answer[KH_PUT_NOTIFY] = 0;
    if (wrong("refused_put_remembers") && number != KH_OK)
        guest->words[KH_GUEST_WORDS - 1] ^= 1;
    if (wrong("refused_put_writes_page") && number == KH_BAD_REQUEST)
        write_slot(slot_at(page, guest->words[REQ_PROD]), request);
    if (number != KH_OK)
        return number;
    publish(guest, page, request, answer);
    if (count_of(guest) < KH_PAGE_SLOTS) {
        entry_of(guest, count_of(guest))[0] = request[KH_REQUEST_ID];
        entry_of(guest, count_of(guest))[1] = request[KH_REQUEST_OPERATION];
        guest->words[COUNT]++;
    }
    return KH_OK;
}

/* ---- collecting */

static bool is_too_far(kh_guest *guest, uint32_t distance) {
    if (wrong("distance_not_judged"))
        return false;
    if (wrong("behind_is_nothing") && distance >> 31 != 0)
        return false;
    return distance > (wrong("distance_by_the_ring") ? KH_PAGE_SLOTS : count_of(guest));
}

static bool fits(const uint64_t *entry, const uint8_t *slot) {
    bool same_id = memcmp(entry, slot, wrong("id_of_32_bits") ? 4 : 8) == 0;
    return (same_id || wrong("operation_alone")) && (entry[1] == slot[8] || wrong("id_alone"));
}

/* The entry that a response is for, or KH_PAGE_SLOTS. */
static uint64_t find(kh_guest *guest, const uint8_t *slot) {
    uint64_t count = wrong("zeros_fit") ? KH_PAGE_SLOTS : count_of(guest);
    uint16_t status;
    memcpy(&status, slot + 10, sizeof status);
    if (wrong("padding_judged") && (slot[9] != 0 || slot[12] != 0))
        return KH_PAGE_SLOTS;
    if (wrong("status_judged") && status != 0 && status < 0xFFFE)
        return KH_PAGE_SLOTS;
    for (uint64_t i = 0; i < count; i++)
        if (fits(entry_of(guest, i), slot))
            return i;
    return KH_PAGE_SLOTS;
}

/* The last entry takes its place, so that the others are at the begin. */
static void end_request(kh_guest *guest, uint64_t which) {
    uint64_t *last = entry_of(guest, count_of(guest) - 1);
    if (wrong("not_ended"))
        return;
    memmove(entry_of(guest, which), last, 16);
    memset(last, 0, 16);
    guest->words[COUNT] = count_of(guest) - 1;
}

static void give_response(const uint8_t *slot, uint64_t *answer) {
    int16_t status;
    memset(answer, 0, 8 * KH_COLLECT_WORDS);
    memcpy(&status, slot + 10, sizeof status);
    answer[KH_COLLECT_FOUND] = 1;
    memcpy(&answer[KH_COLLECT_ID], slot, 8);
    memcpy(&answer[KH_COLLECT_OPERATION], slot + 8, wrong("operation_of_16_bits") ? 2 : 1);
    answer[KH_COLLECT_STATUS] = wrong("status_with_sign") ? (uint64_t)(int64_t)status : (uint16_t)status;
    if (wrong("status_magnitude"))
        answer[KH_COLLECT_STATUS] = (uint16_t)-status;
}

static void ask_for_notice(kh_guest *guest, uint8_t *page, uint64_t *answer) {
    uint32_t rsp_event = (uint32_t)guest->words[RSP_CONS] + (wrong("rsp_event_late") ? 2 : 1);
    if (wrong("rsp_event_stops") && rsp_event == 0)
        rsp_event = UINT32_MAX;
    if (!wrong("rsp_event_never"))
        store(page + KH_RSP_EVENT, &rsp_event, sizeof rsp_event);
    if (wrong("nothing_found_remembers"))
        guest->words[KH_GUEST_WORDS - 1] ^= 1;
    memset(answer, 0, 8 * (wrong("first_word_alone") ? 1 : KH_COLLECT_WORDS));
}

static uint32_t look(kh_guest *guest, uint8_t *page, uint64_t *answer) {
    uint32_t rsp_cons = wrong("rsp_cons_of_page") ? index_at(page, KH_RSP_EVENT) - 1 : (uint32_t)guest->words[RSP_CONS];
    uint32_t distance = index_at(page, KH_RSP_PROD) - rsp_cons;
    uint8_t *slot = slot_at(page, rsp_cons);
    uint64_t which = find(guest, slot);
    if (wrong("order_34_35") && distance != 0 && which == KH_PAGE_SLOTS)
        return KH_NOT_OUTSTANDING;
    if (is_too_far(guest, distance))
        return KH_BAD_RSP_PROD;
    if (distance == 0 || distance >> 31 != 0) {
        ask_for_notice(guest, page, answer);
        return KH_OK;
    }
    if (which == KH_PAGE_SLOTS)
        return KH_NOT_OUTSTANDING;
    give_response(slot, answer);
    end_request(guest, which);
    guest->words[RSP_CONS] = rsp_cons + (wrong("all_at_once") ? distance : 1);
    if (wrong("rsp_event_always"))
        page[KH_RSP_EVENT] = (uint8_t)(rsp_cons + 2);
    if (wrong("clears_response"))
        memset(slot, 0, KH_RESPONSE_BYTES);
    return KH_OK;
}

uint32_t __wrap_kh_guest_collect(kh_guest *guest, uint8_t *page, size_t page_bytes, uint64_t *answer) {
    uint32_t number = is_wrong_length(page_bytes) ? KH_WRONG_LENGTH : look(guest, page, answer);
    peek("before_guest", "after_guest", guest, sizeof *guest);
    peek("before_page", "after_page", page, page_bytes);
    peek("before_collect", "after_collect", answer, 8 * KH_COLLECT_WORDS);
    if (wrong("refused_collect_answers") && number != KH_OK)
        answer[KH_COLLECT_FOUND] = 0;
    if (wrong("refused_collect_remembers") && number != KH_OK)
        guest->words[RSP_CONS]++;
    return number;
}
