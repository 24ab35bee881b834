/* One test or more for each reason (rules 8.21 to 8.29), on both sides of its line, in both layouts. */
#include "test.h"

static request with_segment(request r, int i, uint32_t frame, uint8_t first, uint8_t last) {
    r.segments[i] = (segment){frame, first, last};
    return r;
}

static void reason_21_unknown_operation(host *h) {
    static const uint8_t known[] = {KH_READ, KH_WRITE, KH_BARRIER, KH_FLUSH, KH_DISCARD};
    bool is_known[256] = {false};
    for (size_t i = 0; i < COUNT_OF(known); i++)
        is_known[known[i]] = true;
    for (int operation = 0; operation < 256; operation++) {
        request r = transfer((uint8_t)operation, operation == KH_FLUSH ? 0 : 1, 0);
        r.sectors = 1;
        BEGIN(h, "1:w 2:1 3:1 4:1 5:1 6:512 7:2008");
        CHECK_EQ(JUDGE(h, r), is_known[operation] ? 0 : 21);
    }
    BEGIN(h, "1:r 6:4096 7:0");
    CHECK_EQ(JUDGE(h, transfer(4, 99, UINT64_MAX)), 21); /* before all others */
}

static void reason_22_feature_off(host *h) {
    static const struct {
        const char *on, *off;
        request r;
    } lines[] = {{"1:w 2:1 6:512 7:2008", "1:w 2:0 3:1 4:1 5:1 6:512 7:2008", {KH_BARRIER, 0, 0, 0, {{0, 0, 0}}}},
                 {"1:w 3:1 6:512 7:2008", "1:w 2:1 3:0 4:1 5:1 6:512 7:2008", {KH_FLUSH, 0, 0, 0, {{0, 0, 0}}}},
                 {"1:w 4:1 6:512 7:2008", "1:w 2:1 3:1 4:0 5:1 6:512 7:2008", {KH_DISCARD, 0, 0, 1, {{0, 0, 0}}}}};
    for (size_t i = 0; i < COUNT_OF(lines); i++) {
        BEGIN(h, lines[i].on);
        CHECK_EQ(JUDGE(h, lines[i].r), 0);
        BEGIN(h, lines[i].off);
        CHECK_EQ(JUDGE(h, lines[i].r), 22);
        BEGIN(h, "1:w 6:512 7:2008");
        CHECK_EQ(JUDGE(h, lines[i].r), 22);
        CHECK_EQ(JUDGE(h, transfer(KH_READ, 1, 0)), 0);
        CHECK_EQ(JUDGE(h, transfer(KH_WRITE, 1, 0)), 0);
        BEGIN(h, "1:r 6:512 7:0");
        CHECK_EQ(JUDGE(h, lines[i].r), 22); /* before 24 and 28 */
    }
    CHECK_EQ(JUDGE(h, discard(1, 0, 0)), 22); /* before 24 and 25 */
}

/* ---- 23, which is withdrawn: no flag of a discard keeps it from starting */

/* Discards with none of the other faults, with each alone, and with later ones besides. */
static const struct {
    char mode, feature;
    unsigned size;
    uint64_t start, sectors;
    uint32_t due; /* whatever the flag */
} discards[] = {
    {'w', '1', 512, 2000, 8, 0},   {'w', '1', 512, 0, 2008, 0},         {'w', '1', 4096, 8, 16, 0},
    {'w', '0', 512, 2000, 8, 22},  {'r', '0', 4096, UINT64_MAX, 0, 22}, {'r', '1', 512, 2000, 8, 24},
    {'r', '1', 4096, 4, 9999, 24}, {'r', '1', 4096, UINT64_MAX, 0, 24}, {'w', '1', 512, 2000, 0, 25},
    {'w', '1', 4096, 2009, 0, 25}, {'w', '1', 512, 2000, 9, 28},        {'w', '1', 512, 1, UINT64_MAX, 28},
    {'w', '1', 4096, 2004, 8, 28}, {'w', '1', 4096, 2004, 4, 29},       {'w', '1', 2048, 8, 6, 29},
    {'w', '1', 1024, 7, 8, 29},
};

static void reason_23_withdrawn(host *h) {
    static const struct {
        const char *node;
        int mask; /* of the flag: what makes the mark */
    } secure[] = {{"", 0}, {" 5:0", 0}, {" 5:1", 1}};
    char nodes[64];
    for (size_t i = 0; i < COUNT_OF(discards) * COUNT_OF(secure); i++) {
        size_t line = i / COUNT_OF(secure), node = i % COUNT_OF(secure);
        uint32_t due = discards[line].due;
        snprintf(nodes, sizeof nodes, "1:%c 4:%c%s 6:%u 7:2008", discards[line].mode, discards[line].feature,
                 secure[node].node, discards[line].size);
        BEGIN(h, nodes);
        for (int flag = 0; flag < 256; flag++) {
            CHECK_EQ(JUDGE(h, discard((uint8_t)flag, discards[line].start, discards[line].sectors)), due);
            CHECK_EQ(words(h, TURNED)[KH_TURN_SECURE], due == 0 ? flag & secure[node].mask : 0);
        }
    }
}

/* Byte 1 is no flag then. */
static void reason_23_of_no_other_operation(host *h) {
    static const char *const disks[] = {ALL_FEATURES, "1:w 2:1 3:1 4:1 5:0 6:512 7:2008", "1:r 2:1 3:1 4:1 6:4096 7:8",
                                        "1:w 5:1 6:512 7:2008", USUAL_NODES};
    static const uint8_t operations[] = {KH_READ, KH_WRITE, KH_BARRIER, KH_FLUSH, 4, 6, 255};
    for (size_t i = 0; i < COUNT_OF(disks) * COUNT_OF(operations); i++) {
        BEGIN(h, disks[i / COUNT_OF(operations)]);
        for (int n = 0; n < 256; n++) {
            CHECK(JUDGE(h, transfer(operations[i % COUNT_OF(operations)], (uint8_t)n, 0)) != 23);
            CHECK_EQ(words(h, TURNED)[KH_TURN_SECURE], 0);
        }
    }
}

static void reason_24_read_only(host *h) {
    BEGIN(h, "1:r 2:1 3:1 4:1 6:512 7:2008");
    CHECK_EQ(JUDGE(h, transfer(KH_READ, 1, 0)), 0);
    CHECK_EQ(JUDGE(h, transfer(KH_FLUSH, 0, 0)), 0);
    CHECK_EQ(JUDGE(h, transfer(KH_WRITE, 1, 0)), 24);
    CHECK_EQ(JUDGE(h, transfer(KH_WRITE, 12, 0)), 24);
    CHECK_EQ(JUDGE(h, transfer(KH_BARRIER, 0, 0)), 24);
    CHECK_EQ(JUDGE(h, discard(0, 0, 1)), 24);
    BEGIN(h, ALL_FEATURES);
    CHECK_EQ(JUDGE(h, transfer(KH_WRITE, 1, 0)), 0);
    CHECK_EQ(JUDGE(h, transfer(KH_BARRIER, 0, 0)), 0);
    CHECK_EQ(JUDGE(h, discard(0, 0, 1)), 0);
}

static void reason_25_segment_count(host *h) {
    BEGIN(h, ALL_FEATURES);
    for (int n = 0; n < 256; n++) {
        uint32_t fault = n >= 1 && n <= 11 ? 0 : 25;
        CHECK_EQ(JUDGE(h, transfer(KH_READ, (uint8_t)n, 0)), fault);
        CHECK_EQ(JUDGE(h, transfer(KH_WRITE, (uint8_t)n, 0)), fault);
        CHECK_EQ(JUDGE(h, transfer(KH_BARRIER, (uint8_t)n, 0)), n == 0 ? 0 : fault);
        CHECK_EQ(JUDGE(h, transfer(KH_FLUSH, (uint8_t)n, 0)), n == 0 ? 0 : 25);
    }
    CHECK_EQ(JUDGE(h, with_segment(transfer(KH_READ, 12, 0), 0, 5, 3, 2)), 25); /* before 26 */
}

static void reason_25_discard_of_0_sectors(host *h) {
    BEGIN(h, ALL_FEATURES);
    CHECK_EQ(JUDGE(h, discard(0, 0, 0)), 25);
    CHECK_EQ(JUDGE(h, discard(0, UINT64_MAX, 0)), 25); /* before 28 */
    CHECK_EQ(JUDGE(h, discard(0, 0, 1)), 0);
    CHECK_EQ(JUDGE(h, discard(0, 0, UINT64_C(1) << 32)), 28);
}

static void reason_26_bad_segment(host *h) {
    BEGIN(h, USUAL_NODES);
    CHECK_EQ(JUDGE(h, with_segment(transfer(KH_READ, 1, 0), 0, 5, 3, 2)), 26);
    CHECK_EQ(JUDGE(h, with_segment(transfer(KH_READ, 1, 0), 0, 5, 0, 8)), 26);
    CHECK_EQ(JUDGE(h, with_segment(transfer(KH_READ, 1, 0), 0, 5, 8, 8)), 26);
    CHECK_EQ(JUDGE(h, with_segment(transfer(KH_READ, 1, 0), 0, 5, 255, 255)), 26);
    CHECK_EQ(JUDGE(h, with_segment(transfer(KH_READ, 1, 0), 0, 5, 7, 7)), 0);
    CHECK_EQ(words(h, TURNED)[KH_TURN_COUNT], 1);
    for (int i = 0; i < KH_EXTENTS; i++) {
        CHECK_EQ(JUDGE(h, with_segment(transfer(KH_WRITE, 11, 0), i, 5, 1, 0)), 26);
        CHECK_EQ(JUDGE(h, with_segment(transfer(KH_WRITE, (uint8_t)(i > 0 ? i : 1), 0), i, 5, 1, 0)), i > 0 ? 0 : 26);
    }
}

static void reason_26_over_all_segments_before_27(host *h) {
    request r = with_segment(transfer(KH_READ, 2, 0), 0, 100, 0, 7);
    BEGIN(h, USUAL_NODES);
    CHECK_EQ(JUDGE(h, r), 27);
    CHECK_EQ(JUDGE(h, with_segment(r, 1, 5, 3, 2)), 26);
}

static void reason_26_27_skipped(host *h) {
    request r = discard(0, 0, 0xFF00FF); /* as a segment: not granted */
    memset(r.segments, 0xFF, sizeof r.segments);
    BEGIN(h, "1:w 2:1 3:1 4:1 6:512 7:18446744073709551615");
    CHECK_EQ(JUDGE(h, r), 0);
    CHECK_EQ(words(h, TURNED)[KH_TURN_COUNT], 0xFF00FF);
    r.operation = KH_FLUSH;
    CHECK_EQ(JUDGE(h, r), 0);
    r.operation = KH_BARRIER;
    CHECK_EQ(JUDGE(h, r), 0);
}

static void reason_27_grant_byte(host *h) {
    BEGIN(h, ALL_FEATURES);
    for (int value = 0; value < 256; value++) {
        uint32_t reading = value == KH_GRANT_READ || value == KH_GRANT_READ_WRITE ? 0 : 27;
        grant(h, 0, 5, (uint8_t)value);
        CHECK_EQ(JUDGE(h, transfer(KH_READ, 1, 0)), value == KH_GRANT_READ_WRITE ? 0 : 27);
        CHECK_EQ(JUDGE(h, transfer(KH_WRITE, 1, 0)), reading);
        CHECK_EQ(JUDGE(h, transfer(KH_BARRIER, 1, 0)), reading);
    }
}

static void reason_27_frame(host *h) {
    static const uint32_t never[] = {1024, 1025, 2048, 65536, UINT32_C(1) << 31, UINT32_MAX};
    BEGIN(h, USUAL_NODES);
    memset(h->at[GRANTS], KH_GRANT_READ_WRITE, KH_GRANTS_BYTES);
    CHECK_EQ(JUDGE(h, with_segment(transfer(KH_READ, 1, 0), 0, 1023, 0, 7)), 0);
    for (size_t i = 0; i < COUNT_OF(never); i++)
        CHECK_EQ(JUDGE(h, with_segment(transfer(KH_READ, 1, 0), 0, never[i], 0, 7)), 27);
    for (int i = 0; i < KH_EXTENTS; i++)
        CHECK_EQ(JUDGE(h, with_segment(transfer(KH_READ, 11, 0), i, 1024, 0, 7)), 27);
    memset(h->at[GRANTS], 0, KH_PORT_GRANTS); /* only the other ports' */
    CHECK_EQ(JUDGE(h, transfer(KH_READ, 1, 0)), 27);
    CHECK_EQ(JUDGE(h, transfer(KH_READ, 1, UINT64_MAX)), 27); /* before 28 */
}

/* The four starred sentences on one read. */
static void reason_27_28_read_at_2000(host *h) {
    BEGIN(h, "1:w 6:512 7:2008");
    CHECK_EQ(JUDGE(h, transfer(KH_READ, 1, 2000)), 0);
    CHECK_EQ(words(h, TURNED)[KH_TURN_COUNT], 8);
    grant(h, 0, 5, KH_GRANT_READ);
    CHECK_EQ(JUDGE(h, transfer(KH_READ, 1, 2000)), 27);
    CHECK_EQ(JUDGE(h, transfer(KH_WRITE, 1, 2000)), 0);
    BEGIN(h, "1:w 6:512 7:2007");
    CHECK_EQ(JUDGE(h, transfer(KH_READ, 1, 2000)), 28);
}

static void reason_28_past_end(host *h) {
    BEGIN(h, ALL_FEATURES);
    CHECK_EQ(JUDGE(h, transfer(KH_READ, 1, 2001)), 28);
    CHECK_EQ(JUDGE(h, transfer(KH_READ, 11, 1920)), 0);
    CHECK_EQ(JUDGE(h, transfer(KH_READ, 11, 1921)), 28);
    CHECK_EQ(JUDGE(h, transfer(KH_WRITE, 1, UINT64_MAX)), 28);
    CHECK_EQ(JUDGE(h, transfer(KH_BARRIER, 1, UINT64_MAX - 7)), 28);
    CHECK_EQ(JUDGE(h, discard(0, 2007, 1)), 0);
    CHECK_EQ(JUDGE(h, discard(0, 2008, 1)), 28);
    CHECK_EQ(JUDGE(h, discard(0, 1, UINT64_MAX)), 28);
    CHECK_EQ(JUDGE(h, discard(0, UINT64_MAX, UINT64_MAX)), 28);
    CHECK_EQ(JUDGE(h, transfer(KH_FLUSH, 0, UINT64_MAX)), 0);
    CHECK_EQ(words(h, TURNED)[KH_TURN_START], 0);
    CHECK_EQ(JUDGE(h, transfer(KH_BARRIER, 0, UINT64_MAX)), 0);
    CHECK_EQ(words(h, TURNED)[KH_TURN_START], 0);
    BEGIN(h, "1:w 6:4096 7:0");
    CHECK_EQ(JUDGE(h, transfer(KH_READ, 1, 4)), 28); /* before 29 */
    BEGIN(h, "1:w 6:4096 7:2008");                   /* sectors of 512 bytes all the same */
    CHECK_EQ(JUDGE(h, transfer(KH_READ, 1, 2000)), 0);
    CHECK_EQ(JUDGE(h, transfer(KH_READ, 1, 2008)), 28);
}

static void reason_28_at_2_to_the_64(host *h) {
    BEGIN(h, "1:w 4:1 6:512 7:18446744073709551615");
    CHECK_EQ(JUDGE(h, with_segment(transfer(KH_READ, 1, UINT64_MAX), 0, 5, 7, 7)), 28);
    CHECK_EQ(JUDGE(h, with_segment(transfer(KH_READ, 1, UINT64_MAX - 1), 0, 5, 7, 7)), 0);
    CHECK_EQ(JUDGE(h, transfer(KH_READ, 1, UINT64_MAX - 8)), 0);
    CHECK_EQ(JUDGE(h, transfer(KH_READ, 1, UINT64_MAX - 7)), 28);
    CHECK_EQ(JUDGE(h, discard(0, 0, UINT64_MAX)), 0);
    CHECK_EQ(JUDGE(h, discard(0, 1, UINT64_MAX)), 28);
}

/* ---- 29, on disks of every sector size */

static const struct {
    const char *nodes;
    uint8_t unit; /* what starts, counts and boundaries are multiples of */
    uint32_t off; /* what is due where a segment is sectors 1 to 2 of its frame, or any one sector */
} sizes[] = {{"1:w 2:1 3:1 4:1 5:1 6:512 7:2008", 1, 0},
             {"1:w 2:1 3:1 4:1 5:1 6:1024 7:2008", 2, 29},
             {"1:w 2:1 3:1 4:1 5:1 6:2048 7:2008", 4, 29},
             {"1:w 2:1 3:1 4:1 5:1 6:4096 7:2008", 8, 29}};

static bool is_on_boundaries(uint8_t first, uint8_t last, uint8_t unit) {
    return first % unit == 0 && (last + 1) % unit == 0;
}

static void reason_29_misaligned(host *h) {
    for (size_t i = 0; i < COUNT_OF(sizes); i++) {
        BEGIN(h, sizes[i].nodes);
        for (uint8_t n = 1; n <= 8; n++) {
            CHECK_EQ(JUDGE(h, transfer(KH_READ, 1, n)), n % sizes[i].unit == 0 ? 0 : 29);
            CHECK_EQ(JUDGE(h, with_segment(transfer(KH_WRITE, 1, 8), 0, 5, 0, n - 1)), n % sizes[i].unit == 0 ? 0 : 29);
            CHECK_EQ(JUDGE(h, discard(0, n, 8)), n % sizes[i].unit == 0 ? 0 : 29);
            CHECK_EQ(JUDGE(h, discard(0, 8, n)), n % sizes[i].unit == 0 ? 0 : 29);
        }
        CHECK_EQ(JUDGE(h, transfer(KH_FLUSH, 0, 1)), 0);
        CHECK_EQ(JUDGE(h, transfer(KH_BARRIER, 0, 1)), 0);
    }
}

/* A read at sector 8 of two segments. */
static request read_of_two(uint8_t first, uint8_t last, uint8_t next_first, uint8_t next_last) {
    return with_segment(with_segment(transfer(KH_READ, 2, 8), 0, 5, first, last), 1, 6, next_first, next_last);
}

static void reason_29_total_count(host *h) {
    BEGIN(h, "1:w 6:4096 7:2008");
    CHECK_EQ(JUDGE(h, read_of_two(0, 7, 0, 7)), 0);
    CHECK_EQ(words(h, TURNED)[KH_TURN_COUNT], 16);
    CHECK_EQ(JUDGE(h, read_of_two(5, 7, 0, 3)), 29); /* 3 + 4 sectors */
    CHECK_EQ(JUDGE(h, read_of_two(5, 7, 0, 4)), 29); /* 3 + 5: the total alone is fine */
}

/* Every segment that passes 26, at every place of eleven whole frames, and as the last of so many. */
static void reason_29_each_segment(host *h) {
    for (size_t i = 0; i < COUNT_OF(sizes); i++) {
        BEGIN(h, sizes[i].nodes);
        for (unsigned ends = 0; ends < 64; ends++) {
            uint8_t first = ends / 8, last = ends % 8;
            uint32_t due = is_on_boundaries(first, last, sizes[i].unit) ? 0 : 29;
            for (int place = 0; first <= last && place < KH_EXTENTS; place++) {
                request r = with_segment(transfer(KH_READ, 11, 8), place, 6, first, last);
                CHECK_EQ(JUDGE(h, r), due);
                r.n = (uint8_t)(place + 1);
                CHECK_EQ(JUDGE(h, r), due);
            }
        }
    }
}

/* Every two of them. */
static void reason_29_each_two_segments(host *h) {
    for (size_t i = 0; i < COUNT_OF(sizes); i++) {
        uint8_t unit = sizes[i].unit;
        BEGIN(h, sizes[i].nodes);
        for (unsigned ends = 0; ends < 8 * 8 * 8 * 8; ends++) {
            uint8_t a = ends / 512, b = ends / 64 % 8, c = ends / 8 % 8, d = ends % 8;
            uint32_t due = is_on_boundaries(a, b, unit) && is_on_boundaries(c, d, unit) ? 0 : 29;
            if (a <= b && c <= d)
                CHECK_EQ(JUDGE(h, read_of_two(a, b, c, d)), due);
        }
    }
}

/* First sectors alone that are off, with a total that is fine. */
static void reason_29_segment_first(host *h) {
    for (size_t i = 0; i < COUNT_OF(sizes); i++) {
        uint8_t unit = sizes[i].unit;
        BEGIN(h, sizes[i].nodes);
        for (uint8_t off = 1; off < unit; off++)
            CHECK_EQ(JUDGE(h, read_of_two(off, 7, unit - off, 7)), 29);
        CHECK_EQ(JUDGE(h, read_of_two(0, 7, 8 - unit, 7)), 0);
        CHECK_EQ(words(h, TURNED)[KH_TURN_COUNT], 8 + unit);
    }
}

/* Last sectors alone. */
static void reason_29_segment_last(host *h) {
    for (size_t i = 0; i < COUNT_OF(sizes); i++) {
        uint8_t unit = sizes[i].unit;
        BEGIN(h, sizes[i].nodes);
        for (uint8_t off = 1; off < unit; off++)
            CHECK_EQ(JUDGE(h, read_of_two(0, off - 1, 0, unit - off - 1)), 29);
        CHECK_EQ(JUDGE(h, read_of_two(0, 7, 0, unit - 1)), 0);
        CHECK_EQ(words(h, TURNED)[KH_TURN_COUNT], 8 + unit);
    }
}

/* Halves of frames make whole frames together; a sector of 4,096 bytes they don't. */
static void reason_29_two_halves(host *h) {
    for (size_t i = 0; i < COUNT_OF(sizes); i++) {
        uint32_t due = sizes[i].unit == 8 ? 29 : 0;
        BEGIN(h, sizes[i].nodes);
        CHECK_EQ(JUDGE(h, read_of_two(0, 3, 0, 3)), due);
        CHECK_EQ(JUDGE(h, read_of_two(4, 7, 0, 3)), due);
        CHECK_EQ(JUDGE(h, read_of_two(0, 3, 4, 7)), due);
        CHECK_EQ(words(h, TURNED)[KH_TURN_COUNT], due == 0 ? 8 : 0);
        for (int place = 1; place < KH_EXTENTS; place++) {
            request r = with_segment(transfer(KH_READ, 11, 8), 0, 5, 0, 3);
            CHECK_EQ(JUDGE(h, with_segment(r, place, 5, 4, 7)), due);
        }
    }
}

/* As many segments of one sector as make one of the disk's. */
static void reason_29_one_sector_each(host *h) {
    for (size_t i = 0; i < COUNT_OF(sizes); i++) {
        request r = transfer(KH_READ, sizes[i].unit, 8);
        for (uint8_t sector = 0; sector < 8; sector++)
            r = with_segment(r, sector, 5, sector, sector);
        BEGIN(h, sizes[i].nodes);
        CHECK_EQ(JUDGE(h, r), sizes[i].off);
        r.n = 8;
        CHECK_EQ(JUDGE(h, r), sizes[i].off);
    }
}

static void reason_29_behind_the_last(host *h) {
    for (size_t i = 0; i < COUNT_OF(sizes); i++) {
        BEGIN(h, sizes[i].nodes);
        for (uint8_t n = 1; n < KH_EXTENTS; n++) {
            request r = transfer(KH_WRITE, n, 8);
            for (int place = n; place < KH_EXTENTS; place++)
                r = with_segment(r, place, 5, 1, 2);
            CHECK_EQ(JUDGE(h, r), 0);
            r.n++;
            CHECK_EQ(JUDGE(h, r), sizes[i].off);
        }
    }
}

static void reason_29_read_write_barrier(host *h) {
    for (size_t i = 0; i < COUNT_OF(sizes); i++) {
        BEGIN(h, sizes[i].nodes);
        for (uint8_t operation = KH_READ; operation <= KH_BARRIER; operation++) {
            request r = transfer(operation, 3, 16);
            CHECK_EQ(JUDGE(h, r), 0);
            CHECK_EQ(JUDGE(h, with_segment(r, 2, 5, 1, 2)), sizes[i].off);
            grant(h, 0, 6, KH_GRANT_READ);
            CHECK_EQ(JUDGE(h, with_segment(r, 2, 6, 1, 2)), operation == KH_READ ? 27 : sizes[i].off);
        }
    }
}

/* Two segments of eleven, wherever they are: one is off, one fails a check that comes first. */
static void reason_29_after_26_27_28(host *h) {
    for (size_t i = 1; i < COUNT_OF(sizes); i++) {
        BEGIN(h, sizes[i].nodes);
        for (int pair = 0; pair < KH_EXTENTS * KH_EXTENTS; pair++) {
            int off = pair / KH_EXTENTS, other = pair % KH_EXTENTS;
            request r = with_segment(transfer(KH_READ, 11, 8), off, 5, 1, 2);
            CHECK_EQ(JUDGE(h, with_segment(r, other, 5, 3, 2)), 26);
            CHECK_EQ(JUDGE(h, with_segment(r, other, 5, 7, 8)), 26);
            CHECK_EQ(JUDGE(h, with_segment(r, other, 100, 1, 2)), 27);
            r.start = 2000;
            CHECK_EQ(JUDGE(h, with_segment(r, other, 100, 0, 7)), 27);
            CHECK_EQ(JUDGE(h, r), 28);
        }
    }
}

/* What stands in the places of segments would be off. */
static void reason_29_no_segments(host *h) {
    for (size_t i = 0; i < COUNT_OF(sizes); i++) {
        BEGIN(h, sizes[i].nodes);
        for (int flag = 0; flag < 256; flag++) {
            request r = discard((uint8_t)flag, 8, 16);
            CHECK_EQ(JUDGE(h, r), 0);
            memset(r.segments, 1, sizeof r.segments);
            CHECK_EQ(JUDGE(h, r), 0);
        }
        CHECK_EQ(JUDGE(h, with_segment(transfer(KH_FLUSH, 0, 1), 0, 5, 1, 2)), 0);
        CHECK_EQ(JUDGE(h, with_segment(transfer(KH_BARRIER, 0, 1), 0, 5, 1, 2)), 0);
    }
}

int main(void) {
    static const test tests[] = {
        TEST(reason_21_unknown_operation),
        TEST(reason_22_feature_off),
        TEST(reason_24_read_only),
        TEST(reason_25_segment_count),
        TEST(reason_25_discard_of_0_sectors),
        TEST(reason_26_bad_segment),
        TEST(reason_26_over_all_segments_before_27),
        TEST(reason_26_27_skipped),
        TEST(reason_27_grant_byte),
        TEST(reason_27_frame),
        TEST(reason_27_28_read_at_2000),
        TEST(reason_28_past_end),
        TEST(reason_28_at_2_to_the_64),
        TEST(reason_29_misaligned),
        TEST(reason_29_total_count),
        TEST(reason_29_each_segment),
        TEST(reason_29_each_two_segments),
        TEST(reason_29_segment_first),
        TEST(reason_29_segment_last),
        TEST(reason_29_two_halves),
        TEST(reason_29_one_sector_each),
        TEST(reason_29_behind_the_last),
        TEST(reason_29_read_write_barrier),
        TEST(reason_29_after_26_27_28),
        TEST(reason_29_no_segments),
        TEST(reason_23_withdrawn), /* these two take long */
        TEST(reason_23_of_no_other_operation),
    };
    return run_in_every_shape(tests, COUNT_OF(tests));
}
