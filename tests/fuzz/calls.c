/*
 * A fuzz target: the bytes of an input are a list of calls on a backend with their arguments, and of what guests write
 * between them. A call that is refused leaves every byte, and one that is done leaves what the books here say: each
 * request is answered once, plans lie within their disk, and have their grants.
 *
 * With clang and libFuzzer, from the root of the repository:
 *
 *     clang -g -O1 -fsanitize=fuzzer,address,undefined -Iinclude \
 *         tests/fuzz/calls.c target/staticlib/libkernelharp.a -o calls
 *     mkdir -p corpus
 *     ./calls -max_len=4096 corpus
 *
 * With AFL, which hands over an input as standard input, or with any compiler and inputs that are files:
 *
 *     afl-clang-fast -g -O1 -DSTANDALONE -Iinclude tests/fuzz/calls.c target/staticlib/libkernelharp.a -o calls
 *     afl-fuzz -i seeds -o found ./calls
 *     ./calls found/default/crashes/...
 *
 * The archive itself is not instrumented: libFuzzer sees by the code here which answers are new. `./calls -n COUNT` of
 * the standalone form makes that many inputs by itself.
 */
#include <kernelharp.h>
#include <stdio.h>
#include <stdlib.h>
#include <string.h>

int LLVMFuzzerTestOneInput(const uint8_t *data, size_t size);

#define MUST(fact)                                                                                                     \
    do {                                                                                                               \
        if (!(fact)) {                                                                                                 \
            fprintf(stderr, "%s:%d: not so: %s\n", __FILE__, __LINE__, #fact);                                         \
            abort();                                                                                                   \
        }                                                                                                              \
    } while (0)

/* ---- what is lent, as it is and as it was before the call */

static struct lent {
    kh_memory memory;
    uint8_t rings[KH_RINGS_BYTES];
    uint8_t grants[KH_GRANTS_BYTES];
    uint64_t answer[KH_MANY_WORDS]; /* the longest */
} now, before;

/* ---- the books */

static struct {
    enum { CLOSED, OPEN, BROKEN } state;
    enum kh_abi abi;
    uint32_t slots;
    uint64_t sectors;
    uint32_t taken, answered;
    bool busy[KH_TAGS];
    uint32_t serials[KH_TAGS];
    int32_t due[KH_TAGS]; /* the result that is expected */
    kh_meter meter;
} ports[KH_PORTS];

/* ---- the input */

static const uint8_t *input;
static size_t left;

/* A number of so many bytes; zeros behind the end. */
static uint64_t take(unsigned bytes) {
    uint64_t value = 0;
    for (unsigned i = 0; i < bytes && left > 0; i++, left--)
        value |= (uint64_t)*input++ << 8 * i;
    return value;
}

/* Small mostly, and at times anything. */
static uint64_t take_up_to(uint64_t bound) {
    uint64_t value = take(1);
    return value < 254 ? value % (bound + 1) : take(8);
}

static void put(uint8_t *at, unsigned bytes, uint64_t value) {
    for (unsigned i = 0; i < bytes; i++)
        at[i] = (uint8_t)(value >> 8 * i);
}

static uint32_t index_of(uint32_t port, size_t at) {
    const uint8_t *index = now.rings + KH_RING_BYTES * port + at;
    return index[0] | (uint32_t)index[1] << 8 | (uint32_t)index[2] << 16 | (uint32_t)index[3] << 24;
}

/* ---- the guests */

static void guest_bytes(uint32_t port) {
    size_t at = KH_RING_BYTES * port + take(2) % KH_RING_BYTES;
    for (uint64_t count = 1 + take(1) % 32; count > 0 && at < KH_RINGS_BYTES; count--)
        now.rings[at++] = (uint8_t)take(1);
}

/* A request where the next one goes, and at times no more than its number. */
static void guest_request(uint32_t port) {
    uint32_t req_prod = index_of(port, KH_REQ_PROD), slots = ports[port].state == CLOSED ? 32 : ports[port].slots;
    bool narrow = ports[port].abi == KH_BITS32;
    uint8_t *ring = now.rings + KH_RING_BYTES * port;
    uint8_t *slot = ring + KH_HEADER_BYTES + kh_slot_bytes(ports[port].abi) * (req_prod % slots);
    slot[0] = (uint8_t)take_up_to(5);
    slot[1] = (uint8_t)take_up_to(11);
    put(slot + (narrow ? 4 : 8), 8, take(1));
    put(slot + (narrow ? 12 : 16), 8, take_up_to(40));
    for (uint8_t *segment = slot + (narrow ? 20 : 24), *end = segment + 8 * (slot[1] % 12); segment < end;
         segment += 8) {
        put(segment, 4, take_up_to(7));
        put(segment + 4, 1, take_up_to(4));
        put(segment + 5, 1, take_up_to(4) + 3);
    }
    if (slot[0] == KH_DISCARD)
        put(slot + (narrow ? 20 : 24), 8, take_up_to(60));
    put(ring + KH_REQ_PROD, 4, req_prod + take_up_to(2));
}

static void guest_index(uint32_t port) {
    size_t at = 4 * (take(1) % 4);
    put(now.rings + KH_RING_BYTES * port + at, 4, index_of(port, at) + take_up_to(70) - 35);
}

static void grant(uint32_t port) {
    now.grants[KH_PORT_GRANTS * port + take_up_to(7) % KH_PORT_GRANTS] = (uint8_t)take_up_to(2);
}

/* ---- the calls */

static void begin_call(void) {
    for (size_t i = 0; i < KH_MANY_WORDS; i++)
        now.answer[i] = 0xA5A5A5A5A5A5A5A5;
    before = now;
}

static bool is_same(const void *a, const void *b, size_t bytes) {
    return memcmp(a, b, bytes) == 0;
}

/* What is refused changes nothing. */
static bool is_done(uint32_t refusal) {
    MUST(refusal <= KH_NOT_BUSY || refusal == KH_TOO_MANY ||
         (refusal >= KH_SHEET_SHAPE && refusal <= KH_SHEET_MISSING));
    MUST(refusal == KH_OK || is_same(&now, &before, sizeof now));
    MUST(is_same(now.grants, before.grants, sizeof now.grants));
    return refusal == KH_OK;
}

static bool same_rings(void) {
    return is_same(now.rings, before.rings, sizeof now.rings);
}

/* So many responses went out: no ring byte changed but those of their slots, and rsp_prod, which is the books' R. */
static void check_responses(uint32_t port, uint32_t count) {
    uint8_t *ring = before.rings + KH_RING_BYTES * port;
    for (uint32_t i = 0; i < count; i++) {
        size_t at = KH_HEADER_BYTES + kh_slot_bytes(ports[port].abi) * ((ports[port].answered + i) % ports[port].slots);
        memcpy(ring + at, now.rings + KH_RING_BYTES * port + at, kh_response_bytes(ports[port].abi));
    }
    ports[port].answered += count;
    if (count > 0) {
        MUST(index_of(port, KH_RSP_PROD) == ports[port].answered);
        put(ring + KH_RSP_PROD, 4, ports[port].answered);
    }
    MUST(same_rings());
}

static void call_open(uint32_t port) {
    uint64_t bits = take(1);
    kh_sheet disk = {
        (bits & 1) != 0, (bits & 2) != 0, (bits & 4) != 0, (bits & 8) != 0, (bits & 16) != 0, 512, 0, KH_BITS64, 1};
    uint8_t sheet[KH_SHEET_BYTES];
    disk.abi = (bits & 32) != 0 ? KH_BITS32 : KH_BITS64;
    disk.pages += (bits & 64) != 0;
    disk.sector_size <<= (bits & 128) != 0 ? take(1) % 5 : 0;
    disk.sectors = take_up_to(100);
    size_t length = kh_write_sheet(&disk, sheet);
    bool edited = take(1) > 240;
    if (edited)
        sheet[take(1) % length] = (uint8_t)take(1);
    begin_call();
    if (!is_done(kh_open(&now.memory, port, sheet, length)))
        return;
    MUST(port < KH_PORTS && ports[port].state == CLOSED && same_rings());
    ports[port].state = OPEN;
    ports[port].abi = kh_read_abi(sheet, length);
    ports[port].slots = kh_slots(kh_read_pages(sheet, length));
    ports[port].sectors = edited ? UINT64_MAX : disk.sectors;
    ports[port].taken = ports[port].answered = 0;
}

static void call_close(uint32_t port) {
    begin_call();
    if (!is_done(kh_close(&now.memory, port)))
        return;
    MUST(port < KH_PORTS && ports[port].state != CLOSED && same_rings());
    MUST(ports[port].taken == ports[port].answered);
    ports[port].state = CLOSED;
}

/* Its extents are joined too, each in a machine frame of the input's choice. */
static void check_plan(uint32_t port, const kh_plan *plan) {
    uint64_t frames[KH_EXTENTS], sector = plan->start, count, joined = 0;
    kh_run runs[KH_EXTENTS];
    MUST(plan->extent_count <= KH_EXTENTS && plan->count <= ports[port].sectors);
    MUST(plan->start <= ports[port].sectors - plan->count);
    for (uint32_t i = 0; i < plan->extent_count; i++) {
        const kh_extent *extent = &plan->extents[i];
        uint8_t granted = extent->frame < KH_PORT_GRANTS ? now.grants[KH_PORT_GRANTS * port + extent->frame] : 0;
        MUST(granted == KH_GRANT_READ_WRITE || (granted == KH_GRANT_READ && plan->operation != KH_READ));
        MUST(extent->length > 0 && extent->first + extent->length <= KH_FRAME_SECTORS && extent->sector == sector);
        sector += extent->length;
        frames[i] = take_up_to(1);
    }
    MUST(plan->extent_count == 0 || sector - plan->start == plan->count);
    MUST(kh_join_plan(plan, frames, plan->extent_count, runs, KH_EXTENTS, &count) == KH_OK);
    MUST(count <= plan->extent_count);
    for (uint64_t i = 0; i < count; i++)
        joined += runs[i].length;
    MUST(joined == sector - plan->start);
}

static void start(uint32_t port, const kh_plan *plan) {
    MUST(plan->tag < ports[port].slots && !ports[port].busy[plan->tag] && same_rings());
    MUST(plan->serial == ports[port].taken);
    check_plan(port, plan);
    ports[port].busy[plan->tag] = true;
    ports[port].serials[plan->tag] = plan->serial;
    ports[port].due[plan->tag] = kh_expected_result(plan);
    ports[port].taken++;
}

/* Whether the guest has published more than there is room for. */
static bool is_overrun(uint32_t port) {
    uint32_t in_flight = ports[port].taken - ports[port].answered;
    return index_of(port, KH_REQ_PROD) - ports[port].taken > ports[port].slots - in_flight;
}

/* What an idle turn changes: req_event of the open ports. */
static void check_idle(void) {
    for (uint32_t port = 0; port < KH_PORTS; port++)
        if (ports[port].state == OPEN) {
            MUST(index_of(port, KH_REQ_EVENT) == ports[port].taken + 1);
            MUST(index_of(port, KH_REQ_PROD) == ports[port].taken);
            put(before.rings + KH_RING_BYTES * port + KH_REQ_EVENT, 4, ports[port].taken + 1);
        }
    MUST(same_rings());
}

static void call_turn(void) {
    size_t rings_bytes = KH_RINGS_BYTES - (take(1) > 250), grants_bytes = KH_GRANTS_BYTES - (take(1) > 250);
    begin_call();
    uint32_t refusal = kh_turn(&now.memory, now.rings, rings_bytes, now.grants, grants_bytes, now.answer);
    MUST((refusal == KH_OK) == (rings_bytes == KH_RINGS_BYTES && grants_bytes == KH_GRANTS_BYTES));
    if (!is_done(refusal))
        return;
    kh_turned turned = kh_read_turn(now.answer);
    MUST(turned.kind <= KH_OVERRUN && turned.port < KH_PORTS);
    MUST(turned.kind == KH_IDLE || ports[turned.port].state == OPEN);
    MUST(turned.kind == KH_IDLE || is_overrun(turned.port) == (turned.kind == KH_OVERRUN));
    kh_meter_turn(&ports[turned.port].meter, refusal, now.answer);
    if (turned.kind == KH_IDLE) {
        check_idle();
    } else if (turned.kind == KH_STARTED) {
        start(turned.port, &turned.plan);
    } else if (turned.kind == KH_ANSWERED) {
        MUST(turned.reason >= KH_UNKNOWN_OPERATION && turned.reason <= KH_UNALIGNED && turned.reason != 23);
        MUST(turned.status == (turned.reason <= KH_FEATURE_OFF ? KH_NOT_SUPPORTED : KH_ERROR));
        ports[turned.port].taken++;
        check_responses(turned.port, 1);
    } else {
        MUST(same_rings());
        ports[turned.port].state = BROKEN;
    }
}

/* The name of a request in flight, or nearly. */
static void take_name(uint32_t port, uint32_t *tag, uint32_t *serial, int32_t *result) {
    *tag = (uint32_t)take_up_to(3);
    *serial = 0;
    *result = 0;
    if (port < KH_PORTS && *tag < KH_TAGS) {
        *serial = ports[port].serials[*tag];
        *result = ports[port].due[*tag];
    }
    *serial += take(1) > 240;
    if (take(1) > 128)
        *result = take(1) > 128 ? KH_RESULT_NOT_SUPPORTED : (int32_t)(uint32_t)take(4);
}

static bool is_busy(uint32_t port, uint32_t tag, uint32_t serial) {
    return port < KH_PORTS && tag < KH_TAGS && ports[port].busy[tag] && ports[port].serials[tag] == serial;
}

static void call_complete(uint32_t port) {
    uint32_t tag, serial;
    int32_t result;
    take_name(port, &tag, &serial, &result);
    begin_call();
    uint32_t refusal = kh_complete(&now.memory, now.rings, sizeof now.rings, port, tag, serial, result, now.answer);
    MUST((refusal == KH_OK) == is_busy(port, tag, serial));
    if (!is_done(refusal))
        return;
    kh_meter_completion(&ports[port].meter, refusal, now.answer);
    MUST((kh_read_completion(now.answer).status == KH_OKAY) == (result == ports[port].due[tag]));
    ports[port].busy[tag] = false;
    check_responses(port, 1);
}

static void call_complete_many(uint32_t port) {
    uint64_t entries[KH_ENTRY_WORDS * 70];
    uint32_t count = (uint32_t)take(1) % 71, done = 0;
    for (uint32_t i = 0; i < count; i++) {
        uint32_t tag, serial;
        int32_t result;
        take_name(port, &tag, &serial, &result);
        if (is_busy(port, tag, serial) || take(1) > 250) /* else hardly a list would do */
            kh_write_entry(entries, done++, tag, serial, result);
    }
    begin_call();
    uint32_t refusal =
        kh_complete_many(&now.memory, now.rings, sizeof now.rings, port, entries, KH_ENTRY_WORDS * done, now.answer);
    if (!is_done(refusal))
        return;
    kh_meter_many(&ports[port].meter, refusal, now.answer);
    for (uint32_t i = 0; i < done; i++) {
        const uint64_t *entry = entries + KH_ENTRY_WORDS * i;
        MUST(is_busy(port, (uint32_t)entry[KH_ENTRY_TAG], (uint32_t)entry[KH_ENTRY_SERIAL]));
        ports[port].busy[entry[KH_ENTRY_TAG]] = false;
    }
    MUST(kh_read_many(now.answer).count == done);
    check_responses(port, done);
}

/* ---- the guest's half, over a page that a backend writes as it likes */

static kh_guest guest;
static uint8_t page[KH_GUEST_PAGE_BYTES];

static void call_guest(void) {
    static kh_guest guest_before;
    static uint8_t page_before[KH_GUEST_PAGE_BYTES];
    uint64_t words[KH_REQUEST_WORDS] = {0}, answer[KH_COLLECT_WORDS] = {0};
    for (uint64_t i = take(1) % KH_REQUEST_WORDS; i > 0; i--)
        words[i] = take_up_to(9);
    for (uint64_t i = take(1) % 8; i > 0; i--)
        page[take_up_to(100) % sizeof page] = (uint8_t)take_up_to(3);
    words[KH_REQUEST_OPERATION] = take_up_to(5);
    guest_before = guest;
    memcpy(page_before, page, sizeof page);
    bool puts = take(1) % 2 == 0;
    uint32_t refusal = puts ? kh_guest_put(&guest, page, sizeof page, words, answer)
                            : kh_guest_collect(&guest, page, sizeof page, answer);
    MUST(refusal == KH_OK || (refusal >= KH_RING_FULL && refusal <= KH_NOT_OUTSTANDING));
    MUST(refusal == KH_OK || (is_same(&guest, &guest_before, sizeof guest) && is_same(page, page_before, sizeof page)));
    MUST(puts || refusal != KH_OK || answer[KH_COLLECT_FOUND] == 0 || is_same(page, page_before, sizeof page));
}

/* ---- an input */

static void run_call(void) {
    uint64_t kind = take(1) % 16;
    uint32_t port = (uint32_t)take_up_to(KH_PORTS - 1);
    uint32_t within = port % KH_PORTS; /* whose bytes are written */
    if (kind < 5)
        call_turn();
    else if (kind < 8)
        guest_request(within);
    else if (kind == 8)
        guest_bytes(within);
    else if (kind == 9)
        guest_index(within);
    else if (kind == 10)
        grant(within);
    else if (kind == 11)
        call_open(port);
    else if (kind == 12)
        call_close(port);
    else if (kind == 13)
        call_complete(port);
    else if (kind == 14)
        call_complete_many(port);
    else
        call_guest();
}

int LLVMFuzzerTestOneInput(const uint8_t *data, size_t size) {
    memset(&now, 0, sizeof now);
    memset(ports, 0, sizeof ports);
    memset(&guest, 0, sizeof guest);
    memset(page, 0, sizeof page);
    memset(now.grants, KH_GRANT_READ_WRITE, sizeof now.grants);
    for (input = data, left = size; left > 0;)
        run_call();
    for (uint32_t port = 0; port < KH_PORTS; port++) {
        const kh_meter *meter = &ports[port].meter;
        uint64_t in_flight = ports[port].taken - ports[port].answered;
        MUST(meter->taken == meter->okay + meter->error + meter->not_supported + in_flight);
    }
    return 0;
}

#ifdef STANDALONE
static uint8_t bytes[65536];

static int run_file(FILE *file) {
    size_t size = file == NULL ? 0 : fread(bytes, 1, sizeof bytes, file);
    return file == NULL ? 2 : LLVMFuzzerTestOneInput(bytes, size);
}

/* Inputs of pseudo-random bytes; they begin with all ports opened. */
static int run_any(long count) {
    uint64_t state = 1;
    for (long n = 0; n < count; n++) {
        for (size_t i = 0; i < 4096; i++) {
            state = state * UINT64_C(6364136223846793005) + UINT64_C(1442695040888963407);
            bytes[i] = (uint8_t)(state >> 56);
        }
        for (size_t port = 0; port < KH_PORTS; port++) {
            const uint8_t open[] = {11, (uint8_t)port, (uint8_t)(bytes[port] & 0x7F), 100, 0};
            memcpy(bytes + sizeof open * port, open, sizeof open);
        }
        LLVMFuzzerTestOneInput(bytes, 4096);
    }
    return 0;
}

int main(int words, char **word) {
    int failed = 0;
    if (words == 3 && strcmp(word[1], "-n") == 0)
        return run_any(atol(word[2]));
    for (int i = 1; i < words; i++) {
        FILE *file = fopen(word[i], "rb");
        failed |= run_file(file);
        if (file != NULL)
            fclose(file);
    }
    return words == 1 ? run_file(stdin) : failed;
}
#endif
