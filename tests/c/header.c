/* kernelharp.h as C99, C11 and C++17: this file is compiled as each, linked with the archive, and run. */
#include "check.h"
#include "kernelharp.h"

static kh_memory memory;
static uint8_t rings[KH_RINGS_BYTES];
static uint8_t grants[KH_GRANTS_BYTES];

static void check_archive_matches_header(void) {
    CHECK_EQ(kh_version(), KH_VERSION);
    CHECK_EQ(kh_memory_words(), KH_MEMORY_WORDS);
    CHECK_EQ(kh_guest_words(), KH_GUEST_WORDS);
}

/* The other tests go by the rules' numbers: this is what each is called. */
static void check_named(const int *names, size_t count, int first) {
    size_t i;
    for (i = 0; i < count; i++)
        CHECK_EQ(names[i], first + (int)i);
}

static void check_names(void) {
    static const int calls[] = {KH_OK,        KH_WRONG_LENGTH, KH_NO_PORT,  KH_NOT_CLOSED,     KH_IS_CLOSED,
                                KH_IN_FLIGHT, KH_NOT_BUSY,     KH_TOO_MANY, KH_TOO_FEW_FRAMES, KH_TOO_FEW_RUNS,
                                KH_NO_PLAN};
    static const int sheets[] = {KH_SHEET_SHAPE, KH_SHEET_NODES, KH_SHEET_TEXT, KH_SHEET_NUMBER, KH_SHEET_MISSING};
    static const int unsupported[] = {KH_UNKNOWN_OPERATION, KH_FEATURE_OFF};
    static const int errors[] = {KH_READ_ONLY,   KH_WRONG_AMOUNT, KH_WRONG_SEGMENT,
                                 KH_NOT_GRANTED, KH_PAST_END,     KH_UNALIGNED};
    static const int guest[] = {KH_RING_FULL, KH_ID_OUTSTANDING, KH_BAD_REQUEST, KH_BAD_RSP_PROD, KH_NOT_OUTSTANDING};
    check_named(calls, COUNT_OF(calls), 0);
    check_named(sheets, COUNT_OF(sheets), 11);
    check_named(unsupported, COUNT_OF(unsupported), 21);
    check_named(errors, COUNT_OF(errors), 24);
    check_named(guest, COUNT_OF(guest), 31);
}

static void check_reason_texts(void) {
    static const struct {
        uint32_t number;
        const char *text;
    } lines[] = {
        {0, "no reason"},
        {20, "no reason"},
        {21, "unknown operation"},
        {22, "an operation whose feature the disk does not have"},
        {23, "withdrawn"},
        {24, "a request that writes, on a read-only disk"},
        {25, "a wrong number of segments, or nothing to discard"},
        {26, "a segment that does not lie in its frame"},
        {27, "a frame without the grant that it takes"},
        {28, "past the end of the disk"},
        {29, "not in whole sectors of the disk"},
        {30, "no reason"},
        {UINT32_MAX, "no reason"},
    };
    size_t i;
    for (i = 0; i < COUNT_OF(lines); i++)
        check_at(__FILE__, __LINE__, lines[i].text, strcmp(kh_reason_text(lines[i].number), lines[i].text) == 0);
}

static void check_refusal_texts(void) {
    static const uint32_t unknown[] = {16, 20, 21, 30, 36, 1000, UINT32_MAX};
    size_t i;
    CHECK(strcmp(kh_refusal_text(KH_OK), "done") == 0);
    CHECK(strcmp(kh_refusal_text(KH_NO_PORT), "port above 7") == 0);
    CHECK(strcmp(kh_refusal_text(KH_SHEET_MISSING), "node 1, 6 or 7 missing") == 0);
    CHECK(strcmp(kh_refusal_text(KH_RING_FULL), "32 requests outstanding") == 0);
    CHECK(strcmp(kh_refusal_text(KH_NOT_OUTSTANDING), "no outstanding request has the response's id and operation") ==
          0);
    for (i = 0; i < COUNT_OF(unknown); i++)
        CHECK(strcmp(kh_refusal_text(unknown[i]), "no refusal") == 0);
}

static void check_expected_results(void) {
    static const int32_t due[] = {88, 88, 88, 0, 88, 0};
    struct kh_plan plan; /* by its tag */
    memset(&plan, 0, sizeof plan);
    plan.count = 88;
    for (plan.operation = KH_READ; plan.operation <= KH_DISCARD; plan.operation++)
        if (plan.operation != 4)
            CHECK_EQ(kh_expected_result(&plan), due[plan.operation]);
    plan.operation = KH_DISCARD;
    plan.count = UINT64_MAX;
    CHECK_EQ(kh_expected_result(&plan), 0);
}

static void check_sheet(const kh_sheet *properties, const char *due, size_t due_bytes) {
    uint8_t bytes[KH_SHEET_BYTES];
    CHECK_EQ(kh_write_sheet(properties, bytes), due_bytes);
    CHECK(memcmp(bytes, due, due_bytes) == 0);
}

#define CHECK_SHEET(properties, text) check_sheet(properties, text, sizeof text - 1)

static void check_sheet_bytes(void) {
    kh_sheet disk = {false, false, false, false, false, 512, 2008, KH_BITS64, 0};
    CHECK_SHEET(&disk, "\x03\x01\0\x01\0\x06\0\x03\0\x07\0\x04\0r5122008");
    disk.pages = 1;
    disk.writable = true;
    CHECK_SHEET(&disk, "\x03\x01\0\x01\0\x06\0\x03\0\x07\0\x04\0w5122008");
    disk.abi = KH_BITS32;
    disk.sectors = 0;
    CHECK_SHEET(&disk, "\x04\x01\0\x01\0\x06\0\x03\0\x07\0\x01\0\x08\0\x0A\0w5120x86_32-abi");
    disk.abi = KH_BITS64;
    disk.pages = 2;
    disk.flush = true;
    disk.sector_size = 4096;
    disk.sectors = UINT64_MAX;
    CHECK_SHEET(&disk, "\x05\x01\0\x01\0\x03\0\x01\0\x06\0\x04\0\x07\0\x14\0\x09\0\x01\0"
                       "w14096184467440737095516151");
}

/* What is written opens a port with these properties; the longest of all is as long as the room for it. */
static void check_sheets(void) {
    static kh_memory empty;
    uint8_t bytes[KH_SHEET_BYTES];
    kh_sheet wrong = {true, true, true, true, true, UINT32_MAX, UINT64_MAX, KH_BITS32, UINT32_MAX};
    uint32_t bits;
    check_sheet_bytes();
    for (bits = 0; bits < 128; bits++) {
        kh_sheet disk = {(bits & 1) != 0, (bits & 2) != 0, (bits & 4) != 0, (bits & 8) != 0, (bits & 16) != 0, 1024, 8,
                         KH_BITS64,       1 + bits / 64};
        size_t length;
        unsigned i;
        disk.abi = (bits & 32) != 0 ? KH_BITS32 : KH_BITS64;
        length = kh_write_sheet(&disk, bytes);
        CHECK_EQ(kh_open(&empty, 0, bytes, length), KH_OK);
        CHECK_EQ(kh_close(&empty, 0), KH_OK);
        CHECK(kh_sheet_says(bytes, length, KH_NODE_MODE, disk.writable ? "w" : "r"));
        for (i = 0; i < 4; i++)
            CHECK_EQ(kh_sheet_says(bytes, length, (enum kh_node)(KH_NODE_BARRIER + i), "1"), (bits >> (1 + i)) & 1);
        CHECK(kh_read_abi(bytes, length) == disk.abi && kh_read_pages(bytes, length) == disk.pages);
    }
    CHECK_EQ(kh_write_sheet(&wrong, bytes), KH_SHEET_BYTES);
    CHECK_EQ(kh_open(&empty, 0, bytes, sizeof bytes), KH_SHEET_NUMBER);
}

/* A sheet with its protocol named, "x86_32-abi" or another of ten letters. */
static enum kh_abi abi_of_protocol(const char *protocol) {
    uint8_t sheet[1 + 4 + 10] = {1, KH_NODE_PROTOCOL, 0, 10, 0};
    memcpy(sheet + 5, protocol, 10);
    return kh_read_abi(sheet, sizeof sheet);
}

static uint32_t pages_of_order(char digit) {
    const uint8_t sheet[1 + 4 + 1] = {1, KH_NODE_RING_PAGE_ORDER, 0, 1, 0, (uint8_t)digit};
    return kh_read_pages(sheet, sizeof sheet);
}

static void check_rings(void) {
    CHECK_EQ(pages_of_order('0'), 1);
    CHECK_EQ(pages_of_order('1'), 2);
    CHECK_EQ(kh_slots(1), 32);
    CHECK_EQ(kh_slots(2), 64);
    CHECK_EQ(KH_RINGS_BYTES, 65536);
    CHECK_EQ(KH_RING_BYTES, 8192);
}

static void check_layouts(void) {
    CHECK_EQ(abi_of_protocol("x86_64-abi"), KH_BITS64);
    CHECK_EQ(abi_of_protocol("x86_32-abi"), KH_BITS32);
    CHECK_EQ(kh_slot_bytes(KH_BITS64), 112);
    CHECK_EQ(kh_slot_bytes(KH_BITS32), 108);
    CHECK_EQ(kh_response_bytes(KH_BITS64), 16);
    CHECK_EQ(kh_response_bytes(KH_BITS32), 12);
}

/* The records as the archive has them: four words each, in this order. */
static void check_record_places(void) {
    static const size_t meter[] = {offsetof(kh_meter, taken), offsetof(kh_meter, okay), offsetof(kh_meter, error),
                                   offsetof(kh_meter, not_supported), sizeof(kh_meter)};
    static const size_t run[] = {offsetof(kh_run, frame), offsetof(kh_run, first), offsetof(kh_run, length),
                                 offsetof(kh_run, sector), sizeof(kh_run)};
    size_t i;
    for (i = 0; i < 5; i++) {
        CHECK_EQ(meter[i], 8 * i);
        CHECK_EQ(run[i], 8 * i);
    }
}

/* A guest's read of sectors 8 to 15 into frame 9, on port 1. */
static void publish_read(void) {
    uint8_t *page = rings + 1 * KH_RING_BYTES;
    uint8_t *slot = page + KH_HEADER_BYTES;
    slot[0] = KH_READ;
    slot[1] = 1;
    put(slot + 8, 8, 0x1234);
    put(slot + 16, 8, 8);
    put(slot + 24, 4, 9);
    slot[29] = 7;
    put(page + KH_REQ_PROD, 4, 1);
    put(page + KH_RSP_EVENT, 4, 1);
    grants[1 * KH_PORT_GRANTS + 9] = KH_GRANT_READ_WRITE;
}

static void check_started_read(const kh_turned *turned) {
    const kh_extent *extent = &turned->plan.extents[0];
    CHECK(turned->kind == KH_STARTED && turned->port == 1);
    CHECK(turned->plan.operation == KH_READ && turned->plan.start == 8 && turned->plan.count == 8);
    CHECK(turned->plan.extent_count == 1 && !turned->plan.secure);
    CHECK(extent->frame == 9 && extent->first == 0 && extent->length == 8 && extent->sector == 8);
}

/* The read's one extent, whose frame is machine frame 70. */
static void check_join_calls(const uint64_t *answer, const kh_plan *plan) {
    static const uint64_t frames[] = {70};
    uint64_t joined[KH_JOIN_WORDS] = {5};
    kh_run run = {1, 2, 3, 4};
    CHECK_EQ(kh_join_extents(NULL, 0, 1, frames, 1, &run, 1, joined), KH_NO_PLAN);
    CHECK_EQ(kh_join_extents(answer + KH_TURN_EXTENTS, 44, answer[KH_TURN_EXTENT_COUNT], NULL, 0, &run, 1, joined),
             KH_TOO_FEW_FRAMES);
    CHECK_EQ(kh_join_plan(plan, frames, 1, NULL, 0, joined), KH_TOO_FEW_RUNS);
    CHECK(joined[0] == 5 && run.frame == 1 && run.first == 2 && run.length == 3 && run.sector == 4);
    CHECK_EQ(kh_join_plan(plan, frames, 1, &run, 1, joined), KH_OK);
    CHECK(joined[0] == 1 && run.frame == 70 && run.first == 0 && run.length == 8 && run.sector == 8);
    CHECK_EQ(kh_join_extents(NULL, 0, 0, NULL, 0, NULL, 0, joined), KH_OK);
    CHECK_EQ(joined[0], 0);
}

/* A plan whose extents have a number each, and more of them than it can have: refused, and no word beside is read. */
static void check_join_of_plan(void) {
    uint64_t frames[KH_EXTENTS + 1], joined = 0;
    kh_run runs[KH_EXTENTS];
    kh_plan plan;
    uint32_t i;
    memset(&plan, 0, sizeof plan);
    for (i = 0; i < KH_EXTENTS; i++) {
        frames[i] = 70 + 2 * i;
        plan.extents[i].frame = 9;
        plan.extents[i].first = i % 4;
        plan.extents[i].length = 3;
        plan.extents[i].sector = (UINT64_C(1) << 40) + 3 * i;
    }
    frames[KH_EXTENTS] = 0;
    plan.extent_count = KH_EXTENTS + 1;
    CHECK_EQ(kh_join_plan(&plan, frames, KH_EXTENTS + 1, runs, KH_EXTENTS, &joined), KH_NO_PLAN);
    plan.extent_count = KH_EXTENTS;
    CHECK_EQ(kh_join_plan(&plan, frames, KH_EXTENTS, runs, KH_EXTENTS, &joined), KH_OK);
    CHECK_EQ(joined, KH_EXTENTS);
    for (i = 0; i < KH_EXTENTS; i++)
        CHECK(runs[i].frame == frames[i] && runs[i].first == i % 4 && runs[i].length == 3 &&
              runs[i].sector == plan.extents[i].sector);
}

/* A list of port 1, which has nothing in flight: refused, and then empty. */
static void check_list_call(kh_meter *meter) {
    uint64_t entries[KH_ENTRY_WORDS], answer[KH_MANY_WORDS];
    uint32_t returned;
    kh_write_entry(entries, 0, 0, 0, 8);
    CHECK_EQ(kh_complete_many(&memory, rings, sizeof rings, 1, entries, 2, answer), KH_WRONG_LENGTH);
    CHECK_EQ(kh_complete_many(&memory, rings, sizeof rings, 1, entries, KH_ENTRY_WORDS, answer), KH_NOT_BUSY);
    returned = kh_complete_many(&memory, rings, sizeof rings, 1, NULL, 0, answer);
    CHECK_EQ(returned, KH_OK);
    kh_meter_many(meter, returned, answer);
    CHECK(kh_read_many(answer).port == 1 && kh_read_many(answer).count == 0 && !kh_read_many(answer).notify);
    CHECK(meter->taken == 1 && meter->okay == 1 && meter->error == 0 && meter->not_supported == 0);
}

/* The calls, once each, as a host would. */
static void check_calls(void) {
    static const uint8_t sheet[21] = {3, 1, 0, 1, 0, 6, 0, 3, 0, 7, 0, 4, 0, 'w', '5', '1', '2', '2', '0', '0', '8'};
    uint64_t answer[KH_TURN_WORDS];
    uint64_t done[KH_DONE_WORDS];
    kh_meter meter = {0, 0, 0, 0};
    kh_turned turned;
    kh_completed completed;
    uint32_t returned;
    publish_read();
    CHECK_EQ(kh_open(&memory, 1, NULL, 0), KH_SHEET_SHAPE);
    CHECK_EQ(kh_open(&memory, 1, sheet, sizeof sheet), KH_OK);
    CHECK_EQ(kh_turn(&memory, NULL, 0, NULL, 0, answer), KH_WRONG_LENGTH);
    returned = kh_turn(&memory, rings, sizeof rings, grants, sizeof grants, answer);
    CHECK_EQ(returned, KH_OK);
    kh_meter_turn(&meter, returned, answer);
    turned = kh_read_turn(answer);
    check_started_read(&turned);
    check_join_calls(answer, &turned.plan);
    CHECK_EQ(kh_close(&memory, 1), KH_IN_FLIGHT);
    returned = kh_complete(&memory, rings, sizeof rings, turned.port, turned.plan.tag, turned.plan.serial, 8, done);
    CHECK_EQ(returned, KH_OK);
    kh_meter_completion(&meter, returned, done);
    CHECK(meter.taken == 1 && meter.okay == 1 && meter.error == 0 && meter.not_supported == 0);
    completed = kh_read_completion(done);
    CHECK(completed.port == 1 && completed.status == KH_OKAY && completed.notify);
    check_list_call(&meter);
    CHECK_EQ(kh_close(&memory, 1), KH_OK);
}

/* Each word of an answer is read into the field that has its name. */
static void check_turn_reader(void) {
    uint64_t answer[KH_TURN_WORDS];
    kh_turned turned;
    size_t i;
    for (i = 0; i < KH_TURN_WORDS; i++)
        answer[i] = 100 + i;
    turned = kh_read_turn(answer);
    CHECK(turned.kind == 100 && turned.port == 101 && turned.plan.tag == 102 && turned.plan.serial == 103);
    CHECK(turned.plan.operation == 104 && turned.plan.start == 105 && turned.plan.count == 106);
    CHECK(turned.plan.secure && turned.plan.extent_count == 108);
    CHECK(turned.reason == 109 && turned.status == -110 && turned.notify);
    for (i = 0; i < KH_EXTENTS; i++) {
        CHECK(turned.plan.extents[i].frame == 116 + 4 * i && turned.plan.extents[i].first == 117 + 4 * i);
        CHECK(turned.plan.extents[i].length == 118 + 4 * i && turned.plan.extents[i].sector == 119 + 4 * i);
    }
}

static void check_completion_reader(void) {
    static const uint64_t done[KH_DONE_WORDS] = {7, 2, 1, 0};
    kh_completed completed = kh_read_completion(done);
    CHECK(completed.port == 7 && completed.status == KH_NOT_SUPPORTED && completed.notify);
}

/* Places, and statuses with their sign. */
static void check_list_reader(void) {
    uint64_t answer[KH_MANY_WORDS] = {7, 3, 1, 0, 0, 1, 2};
    kh_completed_many completed = kh_read_many(answer);
    size_t i;
    CHECK(completed.port == 7 && completed.count == 3 && completed.notify);
    CHECK(completed.statuses[0] == KH_OKAY && completed.statuses[1] == KH_ERROR);
    CHECK_EQ(completed.statuses[2], KH_NOT_SUPPORTED);
    for (i = 3; i < KH_ENTRIES; i++)
        CHECK_EQ(completed.statuses[i], 0);
    answer[KH_MANY_NOTIFY] = 0;
    for (i = 0; i < KH_ENTRIES; i++)
        answer[4 + i] = i;
    completed = kh_read_many(answer);
    CHECK(!completed.notify);
    for (i = 0; i < KH_ENTRIES; i++)
        CHECK_EQ(completed.statuses[i], -(int32_t)i);
}

/* A result keeps its sign, and the words of other entries stay. */
static void check_entry_writer(void) {
    uint64_t words[3 * KH_ENTRY_WORDS];
    size_t i;
    CHECK_EQ(KH_ENTRIES, 64);
    CHECK_EQ(KH_ENTRY_WORDS, 3);
    for (i = 0; i < COUNT_OF(words); i++)
        words[i] = 100 + i;
    kh_write_entry(words, 1, UINT32_MAX, 5, -95);
    CHECK(words[3] == UINT32_MAX && words[4] == 5 && words[5] == UINT64_MAX - 94);
    kh_write_entry(words, 1, 63, UINT32_MAX, INT32_MAX);
    CHECK(words[3] == 63 && words[4] == UINT32_MAX && words[5] == INT32_MAX);
    CHECK(words[2] == 102 && words[6] == 106);
}

/* Each word where the interface has it, and zero where it has none. */
static void check_request_writer(void) {
    static const kh_request request = {101, 102, 103, 104, 105, 106, {{107, 108, 109}, {110, 111, 112}}};
    uint64_t words[KH_REQUEST_WORDS];
    uint64_t i;
    memset(words, 0xA5, sizeof words);
    kh_write_request(&request, words);
    for (i = 0; i < 6; i++)
        CHECK_EQ(words[i], 101 + i);
    for (i = 8; i < 14; i++)
        CHECK_EQ(words[i], 99 + i);
    for (i = 14; i < KH_REQUEST_WORDS; i++)
        CHECK_EQ(words[i], 0);
    CHECK(words[6] == 0 && words[7] == 0);
}

static void check_collected_reader(void) {
    static const uint64_t statuses[] = {0, 0x7FFF, 0x8000, 0xFFFE, 0xFFFF};
    static const int due[] = {KH_OKAY, 32767, -32768, KH_NOT_SUPPORTED, KH_ERROR};
    static const uint64_t nothing[KH_COLLECT_WORDS] = {0, 0, 0, 0};
    kh_collected collected = kh_read_collected(nothing);
    size_t i;
    CHECK(!collected.found && collected.id == 0 && collected.operation == 0 && collected.status == 0);
    for (i = 0; i < COUNT_OF(due); i++) {
        uint64_t answer[KH_COLLECT_WORDS] = {1, UINT64_MAX, KH_DISCARD, 0};
        answer[KH_COLLECT_STATUS] = statuses[i];
        collected = kh_read_collected(answer);
        CHECK(collected.found && collected.id == UINT64_MAX && collected.operation == KH_DISCARD);
        CHECK_EQ(collected.status, due[i]);
    }
}

static void check_protocols(void) {
    static const char *const others[] = {"",           "x86_64-ab",   "x86_64-abi ", "x86_32-ab", "x86_32-abi2",
                                         "x86_64-ABI", " x86_64-abi", "x86_",        "arm-abi",   "x86_33-abi"};
    enum kh_abi abi = KH_BITS32;
    size_t i;
    CHECK(kh_read_protocol(NULL, &abi) && abi == KH_BITS64);
    CHECK(kh_read_protocol("x86_32-abi", &abi) && abi == KH_BITS32);
    CHECK(kh_read_protocol("x86_64-abi", &abi) && abi == KH_BITS64);
    for (i = 0; i < COUNT_OF(others); i++)
        CHECK(!kh_read_protocol(others[i], &abi));
}

/* A guest that puts a read; a backend's answer to it. */
static void check_guest_calls(void) {
    static uint8_t page[KH_GUEST_PAGE_BYTES];
    static kh_guest guest;
    kh_request request = {KH_READ, 0x1234, 8, 1, 0, 0, {{9, 0, 7}}};
    uint64_t words[KH_REQUEST_WORDS], notify[KH_PUT_WORDS], answer[KH_COLLECT_WORDS];
    page[KH_REQ_EVENT] = 1;
    kh_write_request(&request, words);
    CHECK_EQ(kh_guest_put(&guest, NULL, 0, words, notify), KH_WRONG_LENGTH);
    CHECK_EQ(kh_guest_put(&guest, page, sizeof page, words, notify), KH_OK);
    CHECK_EQ(notify[KH_PUT_NOTIFY], 1);
    CHECK_EQ(kh_guest_put(&guest, page, sizeof page, words, notify), KH_ID_OUTSTANDING);
    CHECK(page[KH_REQ_PROD] == 1 && page[KH_HEADER_BYTES + 1] == 1 && page[KH_HEADER_BYTES + 29] == 7);
    CHECK_EQ(kh_guest_collect(&guest, page, sizeof page, answer), KH_OK);
    CHECK(!kh_read_collected(answer).found && page[KH_RSP_EVENT] == 1);
    put(page + KH_HEADER_BYTES, 8, 0x1234);
    put(page + KH_HEADER_BYTES + 8, 8, 0xFFFF0000);
    page[KH_RSP_PROD] = 1;
    CHECK_EQ(kh_guest_collect(&guest, page, sizeof page, answer), KH_OK);
    CHECK(kh_read_collected(answer).found && kh_read_collected(answer).id == 0x1234);
    CHECK(kh_read_collected(answer).operation == KH_READ && kh_read_collected(answer).status == KH_ERROR);
}

int main(void) {
    running.name = "header";
    check_archive_matches_header();
    check_names();
    check_reason_texts();
    check_refusal_texts();
    check_expected_results();
    check_sheets();
    check_layouts();
    check_rings();
    check_record_places();
    check_calls();
    check_join_of_plan();
    check_turn_reader();
    check_completion_reader();
    check_list_reader();
    check_entry_writer();
    check_request_writer();
    check_collected_reader();
    check_protocols();
    check_guest_calls();
    return running.failures != 0;
}
