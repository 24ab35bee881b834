/*
 * What the C helper does once: its begin, its hooks, its reports, and calls that name no port. What it does over and
 * over is for live.c. The host lies right before a page that cannot be reached, and the rings between two of them.
 */
#include "check.h"
#include "fenced.h"

#include <kernelharp_host.h>

void at_fence(int order) {
    (void)order; /* nobody else is here */
}

static kh_host *host;
static uint8_t *rings; /* the guests' */

/* ---- an archive of another release */

static uint32_t other_version, other_words;

uint32_t __real_kh_version(void);
uint32_t __real_kh_memory_words(void);
uint32_t __wrap_kh_version(void);
uint32_t __wrap_kh_memory_words(void);

uint32_t __wrap_kh_version(void) {
    return __real_kh_version() + other_version;
}

uint32_t __wrap_kh_memory_words(void) {
    return __real_kh_memory_words() + other_words;
}

/* Of the archive, then of the header that the caller was compiled with. */
static void check_release(void) {
    CHECK(!kh_host_begin(host, NULL, KH_VERSION - 1, sizeof *host) && !kh_host_begin(host, rings, 0, sizeof *host));
    CHECK(!kh_host_begin(NULL, NULL, KH_VERSION, sizeof *host - 8));
    for (other_version = 0; other_version < 2; other_version++)
        for (other_words = 0; other_words < 2; other_words++) {
            CHECK_EQ(kh_host_init(host), other_version + other_words == 0);
            CHECK_EQ(kh_host_init_pages(host, rings), other_version + other_words == 0);
        }
    other_version = other_words = 0;
    CHECK(!kh_host_init_pages(NULL, NULL)); /* not a host with private copies */
}

/* ---- ports and requests */

static uint32_t open_port(uint32_t port, enum kh_abi abi, uint32_t pages) {
    kh_sheet disk = {.writable = true, .sector_size = 512, .sectors = 2008, .abi = abi, .pages = pages};
    void *live[] = {rings + KH_RING_BYTES * port, rings + KH_RING_BYTES * port + KH_PAGE_BYTES};
    uint8_t sheet[KH_SHEET_BYTES];
    return kh_host_open(host, port, sheet, kh_write_sheet(&disk, sheet), live);
}

/* A write of three sectors to the begin of the disk, for a 64-bit guest; its frames have these references. */
static void post_write(uint32_t port, uint32_t index, uint32_t first, uint32_t second, uint32_t third) {
    uint8_t *ring = rings + KH_RING_BYTES * port, *slot = ring + KH_HEADER_BYTES + KH_SLOT_BYTES * index;
    slot[0] = KH_WRITE;
    slot[1] = 3;
    put(slot + 8, 8, index);
    put(slot + 24, 4, first);
    put(slot + 32, 4, second);
    put(slot + 40, 4, third);
    put(ring + KH_REQ_PROD, 4, index + 1);
}

static void begin(bool has_row) {
    memset(rings, 0, KH_RINGS_BYTES);
    CHECK(has_row ? kh_host_init_pages(host, rings) : kh_host_init(host));
}

/* Neither kind of host touches a page when a port is opened or closed. */
static void check_open_touches_nothing(void) {
    for (int has_row = 0; has_row < 2; has_row++) {
        begin(has_row);
        forbid(rings, KH_RINGS_BYTES, true);
        CHECK_EQ(open_port(3, KH_BITS64, 2), KH_OK);
        CHECK_EQ(open_port(3, KH_BITS64, 2), KH_NOT_CLOSED);
        CHECK_EQ(kh_host_close(host, 3), KH_OK);
        forbid(rings, KH_RINGS_BYTES, false);
    }
}

static void check_no_port(void) {
    static const kh_counters none;
    bool notify = true;
    begin(false);
    kh_counters counters = kh_host_counters(host, KH_PORTS);
    CHECK(kh_host_grants(host, KH_PORTS) == NULL && kh_host_grants(host, 7) != NULL);
    CHECK_EQ(kh_host_take_meter(host, UINT32_MAX).taken, 0);
    CHECK(memcmp(&counters, &none, sizeof none) == 0);
    CHECK_EQ(open_port(KH_PORTS, KH_BITS64, 1), KH_NO_PORT);
    CHECK_EQ(kh_host_close(host, UINT32_MAX), KH_NO_PORT);
    CHECK_EQ(kh_host_complete(host, KH_PORTS, 0, 0, 0, &notify), KH_NO_PORT);
    CHECK_EQ(kh_host_complete_many(host, UINT32_MAX, NULL, 0, &notify), KH_NO_PORT);
    CHECK_EQ(kh_host_complete(host, 0, 0, 0, 0, &notify), KH_IS_CLOSED);
    CHECK(notify);
    CHECK_EQ(kh_host_counters(host, 0).completions_refused, 1);
}

/* ---- the hook granted */

static uint32_t asked[16], times;

static uint8_t granted(void *context, uint32_t port, uint32_t reference) {
    CHECK(context == &times && port == 2);
    asked[times++ % 16] = reference;
    return reference == 7 ? KH_GRANT_NONE : KH_GRANT_READ;
}

static void check_write(const kh_turned *turned, uint32_t first, uint32_t second, uint32_t third) {
    const kh_extent *extents = turned->plan.extents;
    CHECK(turned->kind == KH_STARTED && turned->plan.extent_count == 3);
    CHECK(extents[0].frame == first && extents[1].frame == second && extents[2].frame == third);
}

/* Once for each segment, however often the host looks; a port keeps the hook that it was opened with. */
static void check_granted(void) {
    begin(false);
    host->context = &times;
    times = 0;
    CHECK_EQ(open_port(1, KH_BITS64, 1), KH_OK);
    host->granted = granted;
    CHECK_EQ(open_port(2, KH_BITS64, 1), KH_OK);
    host->granted = NULL;
    memset(kh_host_grants(host, 1), KH_GRANT_READ, KH_PORT_GRANTS);
    post_write(1, 0, 1, 2, 3);
    post_write(2, 0, UINT32_MAX, 7, 0);
    post_write(2, 1, UINT32_MAX, 1024, 1023);
    kh_turned turned = kh_host_turn(host);
    check_write(&turned, 1, 2, 3);
    turned = kh_host_turn(host);
    CHECK(turned.kind == KH_ANSWERED && turned.port == 2 && turned.reason == KH_NOT_GRANTED);
    CHECK(times == 3 && asked[0] == UINT32_MAX && asked[1] == 7 && asked[2] == 0);
    turned = kh_host_turn(host);
    check_write(&turned, UINT32_MAX, 1024, 1023);
    CHECK_EQ(kh_host_turn(host).kind, KH_IDLE);
    CHECK(times == 6 && asked[3] == UINT32_MAX && asked[4] == 1024 && asked[5] == 1023);
    CHECK_EQ(get(rings + 2 * KH_RING_BYTES + KH_HEADER_BYTES + KH_SLOT_BYTES + 32, 4), 1024);
}

/* What stood for the references of one guest grants nothing to the next, and with live pages nobody is asked. */
static void check_granted_no_longer(void) {
    bool notify;
    CHECK_EQ(kh_host_complete(host, 2, 0, 1, 3, &notify), KH_OK);
    CHECK_EQ(kh_host_close(host, 2), KH_OK);
    memset(rings + 2 * KH_RING_BYTES, 0, KH_RING_BYTES);
    CHECK_EQ(open_port(2, KH_BITS64, 1), KH_OK);
    for (uint32_t i = 0; i < 2; i++)
        post_write(2, i, 11 * i, 11 * i + 1, 11 * i + 2);
    CHECK_EQ(kh_host_turn(host).reason, KH_NOT_GRANTED);
    CHECK_EQ(kh_host_turn(host).reason, KH_NOT_GRANTED);
    begin(true);
    host->granted = granted;
    CHECK_EQ(open_port(1, KH_BITS64, 1), KH_OK);
    memset(kh_host_grants(host, 1), KH_GRANT_READ, KH_PORT_GRANTS);
    post_write(1, 0, 1, 2, 3);
    kh_turned turned = kh_host_turn(host);
    check_write(&turned, 1, 2, 3);
    CHECK_EQ(times, 6);
}

/* ---- what guests do while their requests wait */

/* Ports 1 and 2, which have granted all of their frames. */
static void open_two(void) {
    begin(false);
    for (uint32_t port = 1; port <= 2; port++) {
        CHECK_EQ(open_port(port, KH_BITS64, 1), KH_OK);
        memset(kh_host_grants(host, port), KH_GRANT_READ, KH_PORT_GRANTS);
    }
}

/* The next turn starts this write of this port: its tag. */
static uint32_t start_write(uint32_t port, uint32_t serial, uint32_t first) {
    kh_turned turned = kh_host_turn(host);
    CHECK(turned.port == port && turned.plan.serial == serial);
    check_write(&turned, first, 2, 3);
    return turned.plan.tag;
}

static void complete_write(uint32_t port, uint32_t tag, uint32_t serial) {
    bool notify;
    CHECK_EQ(kh_host_complete(host, port, tag, serial, 3, &notify), KH_OK);
}

/* One that keeps publishing cannot be closed. Left out, its plans end, and nobody looks what it writes meanwhile. */
static void check_left_out(void) {
    uint8_t *ring = rings + 2 * KH_RING_BYTES;
    uint32_t tag = 0;
    open_two();
    for (uint32_t i = 0, before; i < 4; i++) {
        before = tag;
        post_write(2, i, 40 + i, 2, 3);
        tag = start_write(2, i, 40 + i);
        if (i > 0)
            complete_write(2, before, i - 1);
        CHECK_EQ(kh_host_close(host, 2), KH_IN_FLIGHT);
    }
    CHECK(kh_host_leave_out(host, 2, true));
    post_write(2, 4, 44, 2, 3);
    post_write(1, 0, 50, 2, 3);
    forbid(ring, KH_RING_BYTES, true);
    start_write(1, 0, 50);
    CHECK_EQ(kh_host_turn(host).kind, KH_IDLE);
    forbid(ring, KH_RING_BYTES, false);
    complete_write(2, tag, 3);
    CHECK_EQ(get(ring + KH_RSP_PROD, 4), 4);
    CHECK_EQ(kh_host_close(host, 2), KH_OK);
    memset(ring, 0, KH_RING_BYTES);
    CHECK_EQ(open_port(2, KH_BITS64, 1), KH_OK);
    post_write(2, 0, 45, 2, 3);
    start_write(2, 0, 45);
}

/* Let in again, it is served what waits as it is then, and nothing twice. */
static void check_let_in(void) {
    open_two();
    post_write(1, 0, 50, 2, 3);
    post_write(2, 0, 40, 2, 3);
    start_write(1, 0, 50); /* the other one is copied */
    for (uint32_t i = 0; i < 2; i++) {
        CHECK(kh_host_leave_out(host, 2, true));
        for (uint32_t k = i; k < 2; k++)
            post_write(2, k, 42 + k, 2, 3);
        CHECK_EQ(kh_host_turn(host).kind, KH_IDLE);
        CHECK(kh_host_leave_out(host, 2, false));
        start_write(2, i, 42 + i);
    }
    CHECK_EQ(kh_host_turn(host).kind, KH_IDLE);
    CHECK_EQ(get(rings + 2 * KH_RING_BYTES + KH_REQ_EVENT, 4), 3);
}

static void check_not_left_out(void) {
    begin(false);
    CHECK(!kh_host_leave_out(host, 0, true) && !kh_host_leave_out(host, KH_PORTS, true));
    CHECK(!kh_host_leave_out(host, UINT32_MAX, false));
    begin(true);
    CHECK_EQ(open_port(0, KH_BITS64, 1), KH_OK);
    CHECK(!kh_host_leave_out(host, 0, true) && !kh_host_leave_out(host, 0, false));
}

/* Beside two in flight 30 may wait. Where more are published, and then fewer, the request is copied when they are. */
static void check_room_beside_plans(void) {
    open_two();
    for (uint32_t i = 0; i < 2; i++) {
        post_write(2, i, 40 + i, 2, 3);
        start_write(2, i, 40 + i);
    }
    post_write(1, 0, 50, 2, 3);
    post_write(2, 2, 42, 2, 3);
    put(rings + 2 * KH_RING_BYTES + KH_REQ_PROD, 4, 2 + 31);
    start_write(1, 0, 50);
    post_write(2, 2, 43, 2, 3);
    start_write(2, 2, 43);
}

/* ---- counts */

/* A list of none stores nothing. One that is too long is refused by its count, whatever that comes to in words. */
static void check_lists(void) {
    static const uint64_t entries[KH_ENTRY_WORDS * (KH_ENTRIES + 1)];
    static const size_t counts[] = {KH_ENTRIES + 1, SIZE_MAX / 3 + 1, SIZE_MAX / 2 + 1, SIZE_MAX / 3 * 2 + 1, SIZE_MAX};
    uint8_t *rsp_prod = rings + 2 * KH_RING_BYTES + KH_RSP_PROD;
    bool notify = true;
    open_two();
    put(rsp_prod, 4, 0xABCDEF);
    CHECK(kh_host_complete_many(host, 2, entries, 0, &notify) == KH_OK && !notify);
    CHECK_EQ(get(rsp_prod, 4), 0xABCDEF);
    for (size_t i = 0; i < COUNT_OF(counts); i++) {
        CHECK_EQ(kh_host_complete_many(host, KH_PORTS, entries, counts[i], &notify), KH_NO_PORT);
        CHECK_EQ(kh_host_complete_many(host, 0, entries, counts[i], &notify), KH_IS_CLOSED);
        CHECK_EQ(kh_host_complete_many(host, 2, entries, counts[i], &notify), KH_TOO_MANY);
    }
    CHECK_EQ(kh_host_complete_many(host, 2, entries, KH_ENTRIES, &notify), KH_NOT_BUSY);
}

/* Discards of the whole disk, which has as many sectors as there can be. */
static void check_sectors_stop(void) {
    kh_sheet disk = {
        .writable = true, .discard = true, .sector_size = 512, .sectors = UINT64_MAX, .abi = KH_BITS64, .pages = 1};
    static const uint64_t sectors[] = {UINT64_MAX - 1, 1, 1, UINT64_MAX, UINT64_MAX};
    uint8_t sheet[KH_SHEET_BYTES];
    void *page = rings;
    begin(false);
    CHECK_EQ(kh_host_open(host, 0, sheet, kh_write_sheet(&disk, sheet), &page), KH_OK);
    for (uint32_t i = 0; i < COUNT_OF(sectors); i++) {
        uint8_t *slot = rings + KH_HEADER_BYTES + KH_SLOT_BYTES * i;
        slot[0] = KH_DISCARD;
        put(slot + 24, 8, sectors[i]);
        put(rings + KH_REQ_PROD, 4, i + 1);
        CHECK_EQ(kh_host_turn(host).kind, KH_STARTED);
        CHECK_EQ(kh_host_counters(host, 0).sectors_discarded, i == 0 ? UINT64_MAX - 1 : UINT64_MAX);
    }
}

/* ---- the hook trace */

static char said[16384];

static void trace(void *context, const char *line) {
    CHECK(context == said && strchr(line, '\n') == NULL);
    CHECK(strlen(said) + strlen(line) + 2 <= sizeof said);
    strcat(strcat(said, line), "\n");
}

static void check_said(const char *due) {
    CHECK(strcmp(said, due) == 0);
    said[0] = '\0';
}

/* What no line has room for: a sheet that is refused, a list that is too long, and the least result. */
static void check_long_lines(void) {
    static uint64_t entries[KH_ENTRY_WORDS * 100];
    static const uint8_t sheet[300] = {1};
    bool notify;
    CHECK_EQ(kh_host_open(host, 0, sheet, 255, NULL), KH_SHEET_SHAPE);
    CHECK(strncmp(said, "o 0 1 0 0", 9) == 0);
    said[0] = '\0';
    CHECK_EQ(kh_host_open(host, 0, sheet, 256, NULL), KH_SHEET_SHAPE);
    check_said("# a sheet of 256 bytes has no line:\n# open refused 11\n");
    CHECK_EQ(kh_host_complete_many(host, 5, entries, 100, &notify), KH_TOO_MANY);
    CHECK(strlen(said) == strlen("l 5\n# list refused 7\n") + 2 * KH_ENTRY_WORDS * (KH_ENTRIES + 1));
    said[0] = '\0';
    CHECK_EQ(kh_host_complete(host, 5, 0, 0, INT32_MIN, &notify), KH_NOT_BUSY);
    check_said("f 5 0 0 -2147483647\n# complete refused 6\n");
}

/* With the last port closed nothing is left of its ring, and what is granted is told again. */
static void check_trace_begins(void) {
    put(rings + KH_RING_BYTES + KH_REQ_PROD, 4, 33);
    CHECK_EQ(kh_host_turn(host).kind, KH_OVERRUN);
    said[0] = '\0';
    CHECK_EQ(kh_host_close(host, 1), KH_OK);
    check_said("c 1\n# close done\n# every port is closed: cut here, a trace begins below this line\n");
    memset(kh_host_grants(host, 7) + 700, 1, 300);
    CHECK_EQ(kh_host_close(host, 1), KH_IS_CLOSED);
    CHECK(strncmp(said, "g 7 700 1 1", 11) == 0 && strncmp(said + 8 + 2 * 254, "g 7 954 1 1", 11) == 0);
    CHECK(strcmp(said + 2 * 8 + 2 * 300, "g 7 1023 9\nc 1\n# close refused 4\n") == 0);
    said[0] = '\0';
}

static void check_trace(void) {
    begin(false);
    host->context = said;
    host->trace = trace;
    CHECK_EQ(open_port(1, KH_BITS64, 1), KH_OK);
    said[0] = '\0';
    CHECK_EQ(open_port(5, KH_BITS32, 2), KH_OK);
    check_said(
        "o 5 5 1 0 1 0 6 0 3 0 7 0 4 0 8 0 10 0 9 0 1 0 119 53 49 50 50 48 48 56 120 56 54 95 51 50 45 97 98 105 "
        "49\n# open done\n");
    put(rings + 5 * KH_RING_BYTES + KH_REQ_PROD, 4, 258);
    kh_host_grants(host, 7)[1023] = 9;
    CHECK_EQ(kh_host_turn(host).kind, KH_OVERRUN);
    check_said("b 5 0 2 1 0 0\ng 7 1023 9\nt\n# turn overrun port 5\n");
    check_long_lines();
    CHECK_EQ(kh_host_close(host, 5), KH_OK);
    check_said("c 5\n# close done\n");
    CHECK_EQ(open_port(5, KH_BITS64, 1), KH_OK);
    said[0] = '\0';
    CHECK_EQ(kh_host_close(host, 5), KH_OK);
    check_said("b 5 0 0 0 0 0\nc 5\n# close done\n");
    check_trace_begins();
    begin(true);
    host->trace = trace;
    CHECK_EQ(open_port(5, KH_BITS64, 1), KH_OK);
    CHECK_EQ(kh_host_turn(host).kind, KH_IDLE);
    check_said("");
}

/* ---- the reports */

/* Numbers that nothing has counted, each another. */
static void set_counters(uint32_t port) {
    uint64_t *number = &host->counters[port].in_flight;
    for (uint64_t i = 0; i < sizeof host->counters[port] / sizeof *number; i++)
        number[i] = 100 * port + i;
}

static void check_text(const char *due, bool as_json, uint32_t port) {
    static char text[2000];
    size_t length = strlen(due);
    for (size_t room = 0; room <= length + 1; room++) {
        memset(text, '#', sizeof text);
        CHECK_EQ(as_json ? kh_host_write_json(host, port, text, room) : kh_host_write_text(host, text, room), length);
        CHECK(room == 0 || (strlen(text) == room - 1 && memcmp(text, due, room - 1) == 0));
        for (size_t i = room; i < sizeof text; i++)
            CHECK_EQ(text[i], '#');
    }
}

/* What is no port is reported as one that is closed, and has done nothing. */
static void check_no_report(void) {
    static const uint32_t ports[] = {KH_PORTS, UINT32_MAX};
    char due[500];
    for (size_t i = 0; i < COUNT_OF(ports); i++) {
        snprintf(due, sizeof due,
                 "{\"port\":%u,\"state\":\"closed\",\"in_flight\":0,\"reads\":0,\"writes\":0,\"barriers\":0,"
                 "\"flushes\":0,\"discards\":0,\"sectors_read\":0,\"sectors_written\":0,\"sectors_discarded\":0,"
                 "\"refused\":{\"21\":0,\"22\":0,\"24\":0,\"25\":0,\"26\":0,\"27\":0,\"28\":0,\"29\":0},\"okay\":0,"
                 "\"errors\":0,\"not_supported\":0,\"completions_refused\":0,\"overruns\":0,\"opens\":0,\"closes\":0,"
                 "\"notifies\":0}",
                 ports[i]);
        check_text(due, true, ports[i]);
    }
}

static void check_reports(void) {
    begin(false);
    check_text(
        "PORT  STATE IN_FLIGHT    VBD_RD    VBD_WR  BARRIERS   FLUSHES  DISCARDS VBD_RSECT VBD_WSECT     DSECT   "
        "REFUSED      OKAY    ERRORS  NOT_SUPP C_REFUSED  OVERRUNS     OPENS    CLOSES  NOTIFIES\n",
        false, 0);
    CHECK_EQ(open_port(6, KH_BITS64, 1), KH_OK);
    put(rings + 6 * KH_RING_BYTES + KH_REQ_PROD, 4, 33);
    CHECK_EQ(kh_host_turn(host).kind, KH_OVERRUN);
    set_counters(6);
    CHECK_EQ(open_port(1, KH_BITS64, 1), KH_OK);
    set_counters(1);
    host->counters[1].reads = UINT64_MAX;
    check_text(
        "PORT  STATE IN_FLIGHT    VBD_RD    VBD_WR  BARRIERS   FLUSHES  DISCARDS VBD_RSECT VBD_WSECT     DSECT   "
        "REFUSED      OKAY    ERRORS  NOT_SUPP C_REFUSED  OVERRUNS     OPENS    CLOSES  NOTIFIES\n"
        "   1   open         0 18446744073709551615       102       103       104       105       106       107 "
        "      108      1017       118       119       120       121       122       123       124       125\n"
        "   6 broken         0       601       602       603       604       605       606       607       608   "
        "   5517       618       619       620       621       622       623       624       625\n",
        false, 0);
    check_text("{\"port\":6,\"state\":\"broken\",\"in_flight\":0,\"reads\":601,\"writes\":602,\"barriers\":603,"
               "\"flushes\":604,\"discards\":605,\"sectors_read\":606,\"sectors_written\":607,"
               "\"sectors_discarded\":608,\"refused\":{\"21\":609,\"22\":610,\"24\":612,\"25\":613,\"26\":614,"
               "\"27\":615,\"28\":616,\"29\":617},\"okay\":618,\"errors\":619,\"not_supported\":620,"
               "\"completions_refused\":621,\"overruns\":622,\"opens\":623,\"closes\":624,\"notifies\":625}",
               true, 6);
    check_no_report();
}

int main(int words, char **word) {
    running.name = "helper";
    placement = BEFORE_GUARD;
    host = (kh_host *)lend(sizeof *host);
    rings = lend(KH_RINGS_BYTES);
    check_release();
    check_open_touches_nothing();
    check_no_port();
    check_granted();
    check_granted_no_longer();
    check_left_out();
    check_let_in();
    check_not_left_out();
    check_room_beside_plans();
    check_lists();
    check_sectors_stop();
    check_trace();
    check_reports();
    if (words > 1 && strcmp(word[1], "json") == 0) { /* for another reader */
        static char text[2000];
        kh_host_write_json(host, 6, text, sizeof text);
        puts(text);
    }
    return running.failures != 0;
}
