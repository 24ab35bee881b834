/* One test or more for each refusal number of a node sheet, 11 to 15, on both sides of its line. */
#include "test.h"

/* The number that a sheet gets on a closed port. */
static uint32_t do_read_sheet(host *h, sheet s) {
    uint32_t number = do_open(h, 0, s.bytes, s.length);
    if (number == KH_OK)
        CHECK_EQ(do_close(h, 0), KH_OK);
    return number;
}

#define READ_BYTES(h, s)     MADE_HERE(do_read_sheet(h, s))
#define READ_NODES(h, nodes) MADE_HERE(do_read_sheet(h, sheet_of(nodes)))

/* Each sheet of a list gets that number. */
static void do_read_each(host *h, const char *const *sheets, size_t count, uint32_t number) {
    for (size_t i = 0; i < count; i++)
        check_at(__FILE__, __LINE__, sheets[i], do_read_sheet(h, sheet_of(sheets[i])) == number);
}

#define READ_EACH(h, sheets, number) MADE_HERE(do_read_each(h, sheets, COUNT_OF(sheets), number))

/* The usual sheet of 21 bytes with one byte changed. */
static sheet usual_but(size_t at, uint8_t byte) {
    sheet s = sheet_of(USUAL_NODES);
    s.bytes[at] = byte;
    return s;
}

static void sheet_of_21_bytes(host *h) {
    static const uint8_t bytes[21] = {0x03, 0x01, 0x00, 0x01, 0x00, 0x06, 0x00, 0x03, 0x00, 0x07, 0x00,
                                      0x04, 0x00, 0x77, 0x35, 0x31, 0x32, 0x32, 0x30, 0x30, 0x38};
    sheet s = sheet_of(USUAL_NODES);
    CHECK(s.length == sizeof bytes && memcmp(s.bytes, bytes, sizeof bytes) == 0);
    CHECK_EQ(OPEN(h, 0, bytes, sizeof bytes), KH_OK);
}

static void refusal_11_empty(host *h) {
    uint8_t *nothing = lend(0);
    CHECK_EQ(OPEN(h, 0, NULL, 0), 11);
    CHECK_EQ(kh_open(memory_of(h), 0, nothing, 0), 11);
    CHECK_EQ(READ_NODES(h, ""), 15); /* no entries, and that is well formed */
    give_back(nothing, 0);
}

static void refusal_11_more_than_9_entries(host *h) {
    sheet s = sheet_of("1:r 2:0 3:0 4:0 5:0 6:512 7:1 8:x86_32-abi 9:0");
    CHECK_EQ(READ_BYTES(h, s), KH_OK);
    s = sheet_of("1:r 2:0 3:0 4:0 5:0 6:512 7:1 8:x86_64-abi 9:0 9:0");
    CHECK_EQ(READ_BYTES(h, s), 11);
    s.bytes[0] = 255;
    CHECK_EQ(READ_BYTES(h, s), 11);
}

static void refusal_11_reserved_byte(host *h) {
    for (size_t entry = 0; entry < 3; entry++) {
        CHECK_EQ(READ_BYTES(h, usual_but(2 + 4 * entry, 1)), 11);
        CHECK_EQ(READ_BYTES(h, usual_but(2 + 4 * entry, 0x80)), 11);
        CHECK_EQ(READ_BYTES(h, usual_but(2 + 4 * entry, 0)), KH_OK);
    }
}

static void refusal_11_wrong_total_length(host *h) {
    sheet s = usual_but(21, '0');
    for (s.length = 1; s.length <= 22; s.length++)
        CHECK_EQ(READ_BYTES(h, s), s.length == 21 ? KH_OK : 11);
    CHECK_EQ(READ_BYTES(h, usual_but(11, 3)), 11);
    CHECK_EQ(READ_BYTES(h, usual_but(11, 5)), 11);
    CHECK_EQ(READ_BYTES(h, usual_but(12, 1)), 11);
    CHECK_EQ(READ_BYTES(h, usual_but(0, 2)), 11);
    CHECK_EQ(READ_BYTES(h, usual_but(0, 4)), 11);
}

static void refusal_11_before_12(host *h) {
    sheet s = sheet_of("0:x 0:y");
    CHECK_EQ(READ_BYTES(h, s), 12);
    s.length++;
    CHECK_EQ(READ_BYTES(h, s), 11);
}

static void refusal_12_node_0_or_above_9(host *h) {
    CHECK_EQ(READ_BYTES(h, usual_but(1, 0)), 12);
    CHECK_EQ(READ_BYTES(h, usual_but(9, 10)), 12);
    CHECK_EQ(READ_BYTES(h, usual_but(9, 255)), 12);
    CHECK_EQ(READ_NODES(h, USUAL_NODES " 9:0"), KH_OK);
}

static void refusal_12_not_rising(host *h) {
    CHECK_EQ(READ_NODES(h, "1:w 1:w 6:512 7:2008"), 12);
    CHECK_EQ(READ_NODES(h, "6:512 1:w 7:2008"), 12);
    CHECK_EQ(READ_NODES(h, "1:w 7:2008 6:512"), 12);
    CHECK_EQ(READ_NODES(h, "1:w 6:512 7:2008 7:2008"), 12);
    CHECK_EQ(READ_NODES(h, "1:x 6:x 6:x"), 12); /* before 13 */
}

static void refusal_13_text(host *h) {
    static const char *const wrong[] = {"1: 6:512 7:1",        "1:x 6:512 7:1",      "1:W 6:512 7:1",
                                        "1:ww 6:512 7:1",      "1:rw 6:512 7:1",     "1:w 2: 6:512 7:1",
                                        "1:w 2:2 6:512 7:1",   "1:w 2:00 6:512 7:1", "1:w 3:2 6:512 7:1",
                                        "1:w 4:yes 6:512 7:1", "1:w 5:01 6:512 7:1"};
    static const char *const right[] = {"1:r 6:512 7:1", "1:w 6:512 7:1", "1:w 2:0 3:1 4:0 5:1 6:512 7:1",
                                        "1:w 2:1 3:0 4:1 5:0 6:512 7:1"};
    READ_EACH(h, wrong, 13);
    READ_EACH(h, right, KH_OK);
}

/* Each name is taken as it is, and with one letter less, more or changed it is not. */
static void refusal_13_protocol(host *h) {
    static const char *const wrong[] = {
        "1:w 6:512 7:1 8:",           "1:w 6:512 7:1 8:x86_64-ab",   "1:w 6:512 7:1 8:x86_64-abii",
        "1:w 6:512 7:1 8:x86_32-ab",  "1:w 6:512 7:1 8:x86_32-abii", "1:w 6:512 7:1 8:x86_62-abi",
        "1:w 6:512 7:1 8:x86_34-abi", "1:w 6:512 7:1 8:X86_32-abi",  "1:w 6:512 7:1 8:x86-32-abi",
        "1:w 6:512 7:1 8:32",         "1:w 6:512 7:1 8:x86_32",      "1:w 6:512 7:1 8:arm-abi"};
    READ_EACH(h, wrong, 13);
    for (int abi = KH_BITS64; abi <= KH_BITS32; abi++) {
        sheet s = sheet_of(USUAL_NODES " 8:x86_64-abi");
        memcpy(s.bytes + s.length - 10, layouts[abi].protocol, 10);
        CHECK_EQ(READ_BYTES(h, s), KH_OK);
        for (size_t letter = 1; letter <= 10; letter++) {
            uint8_t *changed = &s.bytes[s.length - letter];
            *changed ^= 0x20;
            CHECK_EQ(READ_BYTES(h, s), 13);
            *changed ^= 0x20;
        }
    }
}

static enum kh_abi abi_of(const char *nodes) {
    sheet s = sheet_of(nodes);
    return kh_read_abi(s.bytes, s.length);
}

static uint32_t pages_of(const char *nodes) {
    sheet s = sheet_of(nodes);
    return kh_read_pages(s.bytes, s.length);
}

/* What kh_read_abi says of the sheets that are taken, wherever the protocol stands among the nodes. */
static void layout_that_a_sheet_asks_for(host *h) {
    static const char *const bits64[] = {USUAL_NODES, USUAL_NODES " 8:x86_64-abi", USUAL_NODES " 9:0",
                                         ALL_FEATURES " 8:x86_64-abi 9:0"};
    static const char *const bits32[] = {USUAL_NODES " 8:x86_32-abi", "1:r 6:4096 7:0 8:x86_32-abi 9:0",
                                         ALL_FEATURES " 8:x86_32-abi 9:0"};
    READ_EACH(h, bits64, KH_OK);
    READ_EACH(h, bits32, KH_OK);
    for (size_t i = 0; i < COUNT_OF(bits64); i++)
        CHECK_EQ(abi_of(bits64[i]), KH_BITS64);
    for (size_t i = 0; i < COUNT_OF(bits32); i++)
        CHECK_EQ(abi_of(bits32[i]), KH_BITS32);
}

/* The same of kh_read_pages. A sector count that looks like the node is none. */
static void pages_that_a_sheet_asks_for(host *h) {
    static const char *const one[] = {USUAL_NODES, USUAL_NODES " 9:0", USUAL_NODES " 8:x86_32-abi",
                                      ALL_FEATURES " 8:x86_64-abi 9:0", "1:w 6:512 7:1"};
    static const char *const two[] = {USUAL_NODES " 9:1", "1:r 6:4096 7:0 9:1", USUAL_NODES " 8:x86_32-abi 9:1",
                                      ALL_FEATURES " 8:x86_64-abi 9:1", ALL_FEATURES " 8:x86_32-abi 9:1"};
    READ_EACH(h, one, KH_OK);
    READ_EACH(h, two, KH_OK);
    for (size_t i = 0; i < COUNT_OF(one); i++)
        CHECK_EQ(pages_of(one[i]), 1);
    for (size_t i = 0; i < COUNT_OF(two); i++)
        CHECK_EQ(pages_of(two[i]), 2);
}

/* One page or two: as many requests wait as the ring has slots, and one more is too many. */
static void pages_that_a_port_has(host *h) {
    static const struct {
        const char *nodes;
        uint32_t slots;
    } lines[] = {{USUAL_NODES, 32},
                 {USUAL_NODES " 9:0", 32},
                 {USUAL_NODES " 9:1", 64},
                 {USUAL_NODES " 8:x86_32-abi", 32},
                 {USUAL_NODES " 8:x86_32-abi 9:0", 32},
                 {USUAL_NODES " 8:x86_32-abi 9:1", 64}};
    for (size_t i = 0; i < COUNT_OF(lines); i++)
        for (uint32_t more = 0; more < 2; more++) {
            BEGIN(h, lines[i].nodes);
            set_index(h, 0, KH_REQ_PROD, lines[i].slots + more);
            CHECK_EQ(TURN(h), KH_OK);
            CHECK_EQ(words(h, TURNED)[KH_TURN_KIND] == KH_OVERRUN, more != 0);
        }
}

/* Of other bytes they say something too, and look at none beside them: every byte changed, every length. */
static void layout_and_pages_of_any_bytes(host *h) {
    sheet s = sheet_of(ALL_FEATURES " 8:x86_32-abi 9:1");
    (void)h;
    CHECK_EQ(kh_read_abi(NULL, 0), KH_BITS64);
    CHECK_EQ(kh_read_pages(NULL, 0), 1);
    for (size_t length = 1; length <= s.length; length++) {
        uint8_t *lent = lend(length);
        for (size_t at = 0; at < length; at++) {
            memcpy(lent, s.bytes, length);
            for (int value = 0; value < 256; value += 5) {
                lent[at] = (uint8_t)value;
                CHECK(kh_read_abi(lent, length) <= KH_BITS32);
                CHECK(kh_read_pages(lent, length) - 1 <= 1);
            }
        }
        give_back(lent, length);
    }
}

static void refusal_13_not_a_number(host *h) {
    static const char *const wrong[] = {"1:w 6: 7:1",         "1:w 6:0512 7:1",
                                        "1:w 6:+512 7:1",     "1:w 6:512x 7:1",
                                        "1:w 6:512 7:",       "1:w 6:512 7:01",
                                        "1:w 6:512 7:00",     "1:w 6:512 7:-1",
                                        "1:w 6:512 7:0x10",   "1:w 6:512 7:1/",
                                        "1:w 6:512 7::",      "1:w 6:512 7:1 9:",
                                        "1:w 6:512 7:1 9:00", "1:w 6:512 7:18446744073709551616x",
                                        "1:w 6:512 7:1 9:01", "1:w 6:512 7:1 9:1x",
                                        "1:w 6:512 7:1 9:+1", "1:w 6:512 7:1 9:-1",
                                        "1:w 6:512 7:1 9:x",  "1:w 6:512 7:1 9:000000001"};
    READ_EACH(h, wrong, 13);
    CHECK_EQ(READ_NODES(h, "1:w 6:512 7:0"), KH_OK);
}

static void refusal_14_number_not_allowed(host *h) {
    static const char *const wrong[] = {"1:w 6:0 7:1",
                                        "1:w 6:1 7:1",
                                        "1:w 6:511 7:1",
                                        "1:w 6:513 7:1",
                                        "1:w 6:8192 7:1",
                                        "1:w 6:18446744073709552128 7:1", /* 512 modulo 2^64 */
                                        "1:w 6:512 7:18446744073709551616",
                                        "1:w 6:512 7:99999999999999999999",
                                        "1:w 6:512 7:100000000000000000000000000000000000000000000000000",
                                        "1:w 6:512 7:1 9:2",
                                        "1:w 6:512 7:1 9:3",
                                        "1:w 6:512 7:1 9:10",
                                        "1:w 6:512 7:1 9:11",
                                        "1:w 6:512 7:1 9:256",
                                        "1:w 6:512 7:1 9:4294967297", /* 1 modulo 2^32 */
                                        "1:w 6:512 7:1 9:18446744073709551616",
                                        "1:w 6:512 7:1 9:18446744073709551617", /* 1 modulo 2^64 */
                                        "1:w 6:512 7:1 9:100000000000000000001"};
    static const char *const right[] = {"1:w 6:512 7:1",    "1:w 6:1024 7:1",    "1:w 6:2048 7:1",
                                        "1:w 6:4096 7:1",   "1:w 6:512 7:1 9:0", "1:w 6:512 7:18446744073709551615",
                                        "1:w 6:512 7:1 9:1"};
    READ_EACH(h, wrong, 14);
    READ_EACH(h, right, KH_OK);
}

/* The longest bodies that a length of 16 bits can give, all of one digit, and with another byte at a place. */
static void refusal_14_long_number(host *h) {
    static uint8_t bytes[13 + 4 + 65535];
    sheet head = sheet_of("1:w 6:512 7:");
    memset(bytes, '9', sizeof bytes);
    memcpy(bytes, head.bytes, head.length);
    for (size_t digits = 65535 - 8; digits <= 65535; digits++) {
        const size_t places[] = {0, digits / 2, digits - 9, digits - 8, digits - 1};
        put(bytes + 11, 2, digits);
        CHECK_EQ(OPEN(h, 0, bytes, head.length + digits), 14);
        CHECK_EQ(OPEN(h, 0, bytes, head.length + digits - 1), 11);
        for (size_t i = 0; i < COUNT_OF(places); i++) {
            bytes[head.length + places[i]] = 'x';
            CHECK_EQ(OPEN(h, 0, bytes, head.length + digits), 13);
            bytes[head.length + places[i]] = '9';
        }
    }
}

/* ---- numbers of every length, at the very end of what is lent: a reader of several digits a step stays within */

enum { LONGEST = 40 };

/* A sheet that ends with these digits. */
static sheet sheet_ending(const char *nodes, const char *digits) {
    char text[128];
    snprintf(text, sizeof text, "%s%s", nodes, digits);
    return sheet_of(text);
}

/* A disk of so many sectors: the last can be discarded, and none behind it. Above 2^64 - 1 there is none. */
static void do_check_sectors(host *h, const char *digits) {
    static const char greatest[] = "18446744073709551615";
    size_t length = strlen(digits), most = strlen(greatest);
    bool fits = length < most || (length == most && strcmp(digits, greatest) <= 0);
    uint64_t sectors = strtoull(digits, NULL, 10);
    sheet s = sheet_ending("1:w 4:1 6:512 7:", digits);
    reset(h);
    check_at(__FILE__, __LINE__, digits, do_open(h, 0, s.bytes, s.length) == (fits ? KH_OK : 14));
    if (fits && sectors > 0)
        check_at(__FILE__, __LINE__, digits, do_judge(h, discard(0, sectors - 1, 1)) == 0);
    if (fits)
        check_at(__FILE__, __LINE__, digits, do_judge(h, discard(0, sectors, 1)) == 28);
}

#define CHECK_SECTORS(h, digits) MADE_HERE(do_check_sectors(h, digits))

/* From place to place the digit goes on by a step, round and round. */
static void sectors_of_every_length(host *h) {
    CHECK_SECTORS(h, "0");
    for (unsigned length = 1; length <= LONGEST; length++)
        for (unsigned first = 1; first <= 9; first++)
            for (unsigned step = 0; step <= 9; step++) {
                char digits[LONGEST + 1] = "";
                for (unsigned place = 0; place < length; place++)
                    digits[place] = (char)('0' + (first + step * place) % 10);
                CHECK_SECTORS(h, digits);
            }
}

static void refusal_14_from_2_to_the_64_on(host *h) {
    char digits[LONGEST + 1];
    for (unsigned last = 0; last < 100; last++) {
        snprintf(digits, sizeof digits, "184467440737095516%02u", last);
        CHECK_SECTORS(h, digits);
    }
    for (int zeros = 1; zeros < LONGEST; zeros++) {
        snprintf(digits, sizeof digits, "1%0*d", zeros, 0);
        CHECK_SECTORS(h, digits);
    }
}

/* Bytes next to the digits, and digits with one bit changed, in the one body of a sheet. */
static void wrong_byte_at_every_place(host *h, const char *node, size_t length) {
    static const uint8_t wrong[] = {'/', ':', ' ', '-', 0x00, 0xFF, 0x10, 0x19, 0x70, 0x79, 0xB0, 0xB9};
    char digits[LONGEST + 1] = "";
    memset(digits, '1', length);
    sheet s = sheet_ending(node, digits);
    for (size_t place = 1; place <= length; place++) {
        uint8_t *changed = &s.bytes[s.length - place];
        for (size_t i = 0; i < COUNT_OF(wrong); i++) {
            *changed = wrong[i];
            CHECK_EQ(READ_BYTES(h, s), 13);
        }
        *changed = '1';
    }
}

static void refusal_13_wrong_byte_at_every_place(host *h) {
    for (size_t length = 1; length <= LONGEST; length++) {
        wrong_byte_at_every_place(h, "6:", length);
        wrong_byte_at_every_place(h, "7:", length);
        wrong_byte_at_every_place(h, "9:", length);
    }
}

static void refusal_13_leading_zeros(host *h) {
    for (size_t length = 2; length <= LONGEST; length++) {
        char digits[LONGEST + 1] = "";
        memset(digits, '7', length);
        for (size_t zeros = 1; zeros <= length; zeros++) {
            digits[zeros - 1] = '0';
            CHECK_EQ(READ_BYTES(h, sheet_ending("1:w 6:512 7:", digits)), 13);
        }
    }
}

static void refusal_13_14_first_body_at_fault(host *h) {
    CHECK_EQ(READ_NODES(h, "1:w 6:1 7:x"), 14);
    CHECK_EQ(READ_NODES(h, "1:x 6:1 7:1"), 13);
    CHECK_EQ(READ_NODES(h, "1:w 6:x 7:18446744073709551616"), 13);
    CHECK_EQ(READ_NODES(h, "6:1"), 14); /* before 15 */
    CHECK_EQ(READ_NODES(h, "1:w 7:x"), 13);
    CHECK_EQ(READ_NODES(h, "1:w 6:512 7:1 8:x86_32-abi 9:2"), 14);
    CHECK_EQ(READ_NODES(h, "1:w 6:512 7:1 8:x86_31-abi 9:2"), 13);
    CHECK_EQ(READ_NODES(h, "1:w 6:513 7:1 9:01"), 14);
}

static void refusal_15_node_missing(host *h) {
    CHECK_EQ(READ_NODES(h, ""), 15);
    CHECK_EQ(READ_NODES(h, "6:512 7:2008"), 15);
    CHECK_EQ(READ_NODES(h, "1:w 7:2008"), 15);
    CHECK_EQ(READ_NODES(h, "1:w 6:512"), 15);
    CHECK_EQ(READ_NODES(h, "2:1 3:1 4:1 5:1 8:x86_64-abi 9:0"), 15);
    CHECK_EQ(READ_NODES(h, "8:x86_32-abi"), 15);
    CHECK_EQ(READ_NODES(h, "1:w 6:512 9:1"), 15);
    CHECK_EQ(READ_NODES(h, "1:w 6:512 7:2008"), KH_OK);
}

int main(void) {
    static const test tests[] = {
        TEST(sheet_of_21_bytes),
        TEST(refusal_11_empty),
        TEST(refusal_11_more_than_9_entries),
        TEST(refusal_11_reserved_byte),
        TEST(refusal_11_wrong_total_length),
        TEST(refusal_11_before_12),
        TEST(refusal_12_node_0_or_above_9),
        TEST(refusal_12_not_rising),
        TEST(refusal_13_text),
        TEST(refusal_13_protocol),
        TEST(refusal_13_not_a_number),
        TEST(refusal_14_number_not_allowed),
        TEST(refusal_14_long_number),
        TEST(sectors_of_every_length),
        TEST(refusal_14_from_2_to_the_64_on),
        TEST(refusal_13_wrong_byte_at_every_place),
        TEST(refusal_13_leading_zeros),
        TEST(refusal_13_14_first_body_at_fault),
        TEST(refusal_15_node_missing),
        TEST(layout_that_a_sheet_asks_for),
        TEST(pages_that_a_sheet_asks_for),
        TEST(pages_that_a_port_has),
        TEST(layout_and_pages_of_any_bytes),
    };
    return run_tests(tests, COUNT_OF(tests));
}
