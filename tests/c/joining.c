/*
 * A plan's extents joined to runs (kh_join_extents): each refusal by its number, at every place and in its order; which
 * neighbours join, on both sides of each line; the records; plans of turns; and any words and lengths.
 */
#include "joining.h"

#include "any.h"

static joint j; /* the one at hand */

/* Numbers that a cut to fewer bits, a product or a sum would take for small ones. */
static const uint64_t wide[] = {256,
                                UINT64_C(1) << 16,
                                UINT64_C(1) << 32,
                                (UINT64_C(1) << 32) + 1,
                                UINT64_C(1) << 61,
                                UINT64_C(1) << 62,
                                (UINT64_C(1) << 62) + 1,
                                UINT64_C(1) << 63,
                                UINT64_MAX - 7,
                                UINT64_MAX - 1,
                                UINT64_MAX};

/* How many extents a plan has in tests that go through all its places. */
static const uint64_t sizes[] = {1, 2, 3, 11, 12, 1024};

/* So many extents of one sector, none of which joins another. */
static void begin_apart(uint64_t pieces) {
    begin_joint(&j, pieces);
    for (uint64_t i = 0; i < pieces; i++)
        add_extent(&j, 7 + 2 * i, i % 8, 1);
}

/* So many whole frames in a row: one run. */
static void begin_row(uint64_t pieces) {
    begin_joint(&j, pieces);
    for (uint64_t i = 0; i < pieces; i++)
        add_extent(&j, 7 + i, 0, 8);
}

/* One extent has these words, the disk sectors of all others are as they were. */
static uint32_t join_with(uint64_t i, uint64_t first, uint64_t length, uint64_t sector) {
    uint64_t was[KH_EXTENT_WORDS];
    uint32_t number;
    memcpy(was, extent_at(&j, i), sizeof was);
    set_extent(&j, i, first, length, sector);
    number = do_join(&j);
    set_extent(&j, i, was[KH_EXTENT_FIRST], was[KH_EXTENT_LENGTH], was[KH_EXTENT_SECTOR]);
    return number;
}

/* One extent has that begin and length in its frame, and those behind it go on where it ends. */
static uint32_t join_moved(uint64_t pieces, uint64_t i, uint64_t first, uint64_t length) {
    begin_joint(&j, pieces);
    for (uint64_t k = 0; k < pieces; k++)
        add_extent(&j, 7 + 2 * k, k == i ? first : 3, k == i ? length : 2);
    return do_join(&j);
}

#define JOIN_WITH(i, first, length, sector)  MADE_HERE(join_with(i, first, length, sector))
#define JOIN_MOVED(pieces, i, first, length) MADE_HERE(join_moved(pieces, i, first, length))

/* The next place of a plan to be spoilt: all of a small one, some of a large one, the last of each. */
static uint64_t next_place(uint64_t i, uint64_t pieces) {
    return pieces < 100 || i == pieces - 1 ? i + 1 : i + 341;
}

/* ---- refusal 10 (rules 17.5 to 17.8) */

static void refusal_10_more_extents_than_places(host *h) {
    (void)h;
    for (size_t s = 0; s < COUNT_OF(sizes); s++) {
        uint64_t places = sizes[s] - 1;
        begin_apart(places);
        CHECK_EQ(JOIN(&j), KH_OK);
        CHECK_EQ(joined, places);
        for (uint64_t more = 1; more < 10; more++) {
            j.pieces = places + more;
            CHECK_EQ(JOIN(&j), 10);
        }
        for (size_t i = 0; i < 2 * COUNT_OF(wide); i++) {
            j.pieces = wide[i / 2] + (i % 2) * places;
            CHECK_EQ(JOIN(&j), j.pieces > places ? 10 : KH_OK);
        }
    }
}

/* Words that are no whole place are none (rule 17.2). */
static void refusal_10_words_that_are_no_place(host *h) {
    (void)h;
    for (size_t s = 0; s < COUNT_OF(sizes); s++)
        for (uint64_t rest = 0; rest < 8; rest++) {
            begin_apart(sizes[s]);
            j.extent_words = KH_EXTENT_WORDS * (sizes[s] - 1) + rest;
            CHECK_EQ(JOIN(&j), rest < 4 ? 10 : KH_OK);
            j.pieces--;
            CHECK_EQ(JOIN(&j), KH_OK);
            CHECK_EQ(joined, sizes[s] - 1);
        }
}

static void refusal_10_extent_without_sectors(host *h) {
    (void)h;
    for (size_t s = 0; s < COUNT_OF(sizes); s++)
        for (uint64_t i = 0; i < sizes[s]; i = next_place(i, sizes[s]))
            for (uint64_t first = 0; first < 9; first++) {
                CHECK_EQ(JOIN_MOVED(sizes[s], i, first, 0), 10);
                CHECK_EQ(JOIN_MOVED(sizes[s], i, first, 1), first < 8 ? KH_OK : 10);
            }
}

static void refusal_10_past_sector_7(host *h) {
    (void)h;
    for (size_t s = 0; s < COUNT_OF(sizes); s++)
        for (uint64_t i = 0; i < sizes[s]; i = next_place(i, sizes[s])) {
            CHECK_EQ(JOIN_MOVED(sizes[s], i, 7, 1), KH_OK);
            CHECK_EQ(JOIN_MOVED(sizes[s], i, 7, 2), 10);
            CHECK_EQ(JOIN_MOVED(sizes[s], i, 0, 8), KH_OK);
            CHECK_EQ(JOIN_MOVED(sizes[s], i, 0, 9), 10);
            CHECK_EQ(JOIN_MOVED(sizes[s], i, 8, 1), 10);
            CHECK_EQ(JOIN_MOVED(sizes[s], i, UINT64_MAX, 2), 10);
            CHECK_EQ(JOIN_MOVED(sizes[s], i, 2, UINT64_MAX), 10);
        }
}

/* Every first sector and length, and wide ones; a sum of two may come to a small number again. */
static void refusal_10_first_and_length(host *h) {
    enum { SMALL = 11, ALL = SMALL + COUNT_OF(wide) };
    (void)h;
    for (unsigned i = 0; i < ALL * ALL; i++) {
        uint64_t first = i % ALL < SMALL ? i % ALL : wide[i % ALL - SMALL];
        uint64_t length = i / ALL < SMALL ? i / ALL : wide[i / ALL - SMALL];
        bool sound = first < 8 && length > 0 && length < 9 && first + length < 9;
        CHECK_EQ(JOIN_MOVED(3, i % 3, first, length), sound ? KH_OK : 10);
    }
}

/* The disk's last sector is 2^64 - 2: where an extent ends still has a number. */
static void refusal_10_past_the_last_disk_sector(host *h) {
    (void)h;
    for (uint64_t length = 1; length <= 8; length++) {
        begin_apart(1);
        CHECK_EQ(JOIN_WITH(0, 0, length, UINT64_MAX - length), KH_OK);
        CHECK_EQ(JOIN_WITH(0, 0, length, UINT64_MAX - length - 1), KH_OK);
        CHECK_EQ(JOIN_WITH(0, 0, length, UINT64_MAX - length + 1), 10);
        CHECK_EQ(JOIN_WITH(0, 0, length, UINT64_MAX), 10);
    }
}

/* Eleven extents in a row; the disk ends at each of them in turn, and those behind it go on from sector 0. */
static void refusal_10_past_the_last_disk_sector_anywhere(host *h) {
    (void)h;
    for (uint64_t end = 0; end <= 11; end++)
        for (uint64_t left = 0; left < 3; left++) {
            begin_joint(&j, 11);
            for (uint64_t i = 0; i < 11; i++) {
                add_extent(&j, 7 + i, 0, 8);
                set_extent(&j, i, 0, 8, UINT64_MAX - left - 8 * end + 8 * i);
            }
            CHECK_EQ(JOIN(&j), end == 11 ? KH_OK : 10);
        }
}

static void refusal_10_not_behind_the_one_before(host *h) {
    (void)h;
    for (size_t s = 1; s < COUNT_OF(sizes); s++) {
        begin_apart(sizes[s]);
        for (uint64_t i = 0; i < sizes[s]; i = next_place(i, sizes[s])) {
            uint64_t due = FIRST_SECTOR + i;
            CHECK_EQ(JOIN_WITH(i, 3, 1, due), KH_OK);
            CHECK_EQ(JOIN_WITH(i, 3, 1, due + 1), 10);
            CHECK_EQ(JOIN_WITH(i, 3, 1, due - 1), 10);
            for (unsigned bit = 0; bit < 64; bit++)
                CHECK_EQ(JOIN_WITH(i, 3, 1, due ^ UINT64_C(1) << bit), 10);
            CHECK_EQ(JOIN_WITH(i, 3, 2, due), i == sizes[s] - 1 ? KH_OK : 10);
        }
    }
}

/* The first may begin anywhere, and the disk goes on however the frames lie. */
static void first_extent_anywhere_on_the_disk(host *h) {
    static const uint64_t sectors[] = {0, 1, UINT32_MAX, UINT64_C(1) << 32, UINT64_C(1) << 63, UINT64_MAX - 16};
    (void)h;
    for (size_t s = 0; s < COUNT_OF(sectors); s++) {
        begin_row(2);
        set_extent(&j, 0, 0, 8, sectors[s]);
        set_extent(&j, 1, 0, 8, sectors[s] + 8);
        CHECK_EQ(JOIN(&j), KH_OK);
        CHECK(joined == 1 && joined_runs[0].sector == sectors[s] && joined_runs[0].length == 16);
    }
}

/* Words in places from the number of extents on are not looked at. */
static void refusal_10_of_the_extents_named(host *h) {
    (void)h;
    for (uint64_t pieces = 0; pieces <= 11; pieces++)
        for (size_t i = 0; i < COUNT_OF(wide); i++) {
            begin_row(pieces);
            j.extent_words = KH_EXTENT_WORDS * 12;
            for (uint64_t k = pieces; k < 12; k++)
                set_extent(&j, k, wide[i], wide[(i + k) % COUNT_OF(wide)], wide[(i + 2 * k) % COUNT_OF(wide)]);
            CHECK_EQ(JOIN(&j), KH_OK);
            CHECK_EQ(joined, pieces > 0);
            j.pieces++;
            CHECK_EQ(JOIN(&j), 10);
        }
}

/* ---- refusals 8 and 9 (rules 17.9 and 17.10) */

static void refusal_08_fewer_machine_frames(host *h) {
    (void)h;
    for (size_t s = 0; s < COUNT_OF(sizes); s++) {
        begin_row(sizes[s]);
        for (j.frame_count = 0; j.frame_count < sizes[s]; j.frame_count = next_place(j.frame_count, sizes[s]))
            CHECK_EQ(JOIN(&j), 8);
        CHECK_EQ(JOIN(&j), KH_OK);
        CHECK_EQ(joined, 1);
        j.frame_count++;
        CHECK_EQ(JOIN(&j), KH_OK);
    }
}

/* It is the extents that need frames, not the places, nor the runs. */
static void refusal_08_by_the_extents(host *h) {
    (void)h;
    begin_apart(11);
    for (j.pieces = 0; j.pieces <= 11; j.pieces++)
        for (j.frame_count = 0; j.frame_count <= 12; j.frame_count++)
            CHECK_EQ(JOIN(&j), j.frame_count < j.pieces ? 8 : KH_OK);
}

/* So many runs of so many extents each, with records for one run fewer, for all, and for more. */
static void count_records(uint64_t runs, uint64_t each) {
    begin_joint(&j, runs * each);
    for (uint64_t i = 0; i < runs * each; i++)
        add_extent(&j, 7 + i + i / each, 0, 8);
    for (j.run_count = 0; j.run_count < runs; j.run_count = next_place(j.run_count, runs))
        CHECK_EQ(JOIN(&j), 9);
    for (; j.run_count < runs + 3; j.run_count++) {
        CHECK_EQ(JOIN(&j), KH_OK);
        CHECK_EQ(joined, runs);
    }
}

static void refusal_09_fewer_records_than_runs(host *h) {
    (void)h;
    for (size_t s = 0; s < COUNT_OF(sizes); s++)
        count_records(sizes[s], 1);
    for (uint64_t each = 2; each < 12; each++)
        for (uint64_t runs = 1; runs < 6; runs++)
            count_records(runs, each);
    count_records(1, 1024);
    count_records(2, 1000);
}

/* ---- their order (rule 17.4) */

/* 10 of the last extent comes before 8 of the first, and 8 of the last before 9 of the first. */
static void refusals_in_their_order(host *h) {
    (void)h;
    for (size_t s = 0; s < COUNT_OF(sizes); s++)
        for (size_t frames = 0; frames < 2; frames++)
            for (size_t records = 0; records < 2; records++) {
                begin_apart(sizes[s]);
                j.frame_count = frames * sizes[s];
                j.run_count = records * sizes[s];
                CHECK_EQ(JOIN_WITH(sizes[s] - 1, 0, 0, next_sector(&j) - 1), 10);
                CHECK_EQ(JOIN_WITH(sizes[s] - 1, 7, 2, next_sector(&j) - 1), 10);
                CHECK_EQ(JOIN_WITH(sizes[s] - 1, 0, 1, UINT64_MAX), 10);
                CHECK_EQ(JOIN(&j), frames == 0 ? 8 : records == 0 ? 9 : KH_OK);
                j.frame_count -= frames;
                CHECK_EQ(JOIN(&j), 8);
                j.pieces++;
                CHECK_EQ(JOIN(&j), 10);
            }
}

/* ---- no extents (rule 17.14) */

/* Done with no run, whatever else is lent; 0 of a buffer is a null pointer. */
static void no_extents(host *h) {
    (void)h;
    for (size_t words = 0; words < 9; words++)
        for (size_t frames = 0; frames < 3; frames++)
            for (size_t records = 0; records < 3; records++) {
                begin_row(3);
                set_extent(&j, 0, 9, 0, UINT64_MAX);
                j.pieces = 0;
                j.extent_words = words;
                j.frame_count = frames;
                j.run_count = records;
                CHECK_EQ(JOIN(&j), KH_OK);
                CHECK_EQ(joined, 0);
            }
}

/* ---- which neighbours join (rule 17.11) */

/* Two extents in these frames, the one with these sectors, the other with those: how many runs they are. */
static uint64_t runs_of(uint64_t frame, uint64_t first, uint64_t length, uint64_t next, uint64_t next_first,
                        uint64_t next_length) {
    begin_joint(&j, 2);
    add_extent(&j, frame, first, length);
    add_extent(&j, next, next_first, next_length);
    CHECK_EQ(do_join(&j), KH_OK);
    return joined;
}

#define RUNS_OF(frame, first, length, next, next_first, next_length)                                                   \
    MADE_HERE(runs_of(frame, first, length, next, next_first, next_length))

static void join_in_the_same_frame(host *h) {
    static const uint64_t frames[] = {0, 9, UINT32_MAX, UINT64_MAX};
    (void)h;
    for (size_t f = 0; f < COUNT_OF(frames); f++) {
        CHECK_EQ(RUNS_OF(frames[f], 0, 4, frames[f], 4, 4), 1); /* right behind */
        CHECK_EQ(RUNS_OF(frames[f], 6, 1, frames[f], 7, 1), 1);
        CHECK_EQ(RUNS_OF(frames[f], 0, 4, frames[f], 5, 3), 2); /* one apart */
        CHECK_EQ(RUNS_OF(frames[f], 0, 4, frames[f], 3, 4), 2); /* one too early */
        CHECK_EQ(RUNS_OF(frames[f], 0, 4, frames[f], 0, 4), 2); /* the same sectors */
        CHECK_EQ(RUNS_OF(frames[f], 4, 4, frames[f], 0, 4), 2); /* those before */
        CHECK_EQ(RUNS_OF(frames[f], 0, 8, frames[f], 0, 8), 2); /* from sector 7 to its own sector 0 */
        CHECK_EQ(RUNS_OF(frames[f], 7, 1, frames[f], 7, 1), 2);
    }
}

static void join_to_the_next_frame(host *h) {
    (void)h;
    CHECK_EQ(RUNS_OF(9, 0, 8, 10, 0, 8), 1);
    CHECK_EQ(RUNS_OF(9, 7, 1, 10, 0, 1), 1);
    CHECK_EQ(RUNS_OF(9, 0, 8, 11, 0, 8), 2); /* the next but one */
    CHECK_EQ(RUNS_OF(9, 0, 8, 8, 0, 8), 2);  /* the one before */
    CHECK_EQ(RUNS_OF(9, 0, 7, 10, 0, 8), 2); /* sector 6 is the last */
    CHECK_EQ(RUNS_OF(9, 0, 8, 10, 1, 7), 2); /* sector 1 is the first */
    CHECK_EQ(RUNS_OF(9, 0, 4, 10, 4, 4), 2); /* right behind, in another frame */
    CHECK_EQ(RUNS_OF(9, 4, 4, 8, 0, 8), 2);
    CHECK_EQ(RUNS_OF(0, 0, 8, 1, 0, 8), 1);
    CHECK_EQ(RUNS_OF(1, 0, 8, 0, 0, 8), 2);
}

static void join_at_the_last_frame(host *h) {
    (void)h;
    CHECK_EQ(RUNS_OF(UINT64_MAX - 1, 0, 8, UINT64_MAX, 0, 8), 1);
    CHECK_EQ(RUNS_OF(UINT64_MAX - 2, 4, 4, UINT64_MAX - 1, 0, 1), 1);
    CHECK_EQ(RUNS_OF(UINT64_MAX, 0, 8, 0, 0, 8), 2);
    CHECK_EQ(RUNS_OF(UINT64_MAX, 7, 1, 0, 0, 1), 2);
    CHECK_EQ(RUNS_OF(UINT64_MAX, 0, 8, 1, 0, 8), 2);
    CHECK_EQ(RUNS_OF(UINT64_MAX, 0, 8, UINT64_MAX, 0, 8), 2);
    CHECK_EQ(RUNS_OF(0, 0, 8, UINT64_MAX, 0, 8), 2);
}

/* A frame's number has 64 bits, in either case. */
static void join_by_the_whole_frame_number(host *h) {
    (void)h;
    for (unsigned bit = 0; bit < 64; bit++) {
        uint64_t other = UINT64_C(1) << bit;
        CHECK_EQ(RUNS_OF(9, 0, 4, 9 ^ other, 4, 4), 2);
        CHECK_EQ(RUNS_OF(9, 0, 8, 10 ^ other, 0, 8), 2);
        CHECK_EQ(RUNS_OF(other - 1, 0, 8, other, 0, 8), 1);
        CHECK_EQ(RUNS_OF(other, 0, 1, other, 1, 7), 1);
    }
}

/* Every two extents that there are, in one frame and in two: joined where the one ends as the other begins. */
static void join_of_any_two(host *h) {
    (void)h;
    for (uint64_t end = 1; end <= 8; end++)
        for (uint64_t first = 0; first < 8; first++)
            for (uint64_t i = 0; i < end * (8 - first); i++) {
                uint64_t length = 1 + i % end, next_length = 1 + i / end;
                CHECK_EQ(RUNS_OF(9, end - length, length, 9, first, next_length), end == first ? 1 : 2);
                CHECK_EQ(RUNS_OF(9, end - length, length, 10, first, next_length), end == 8 && first == 0 ? 1 : 2);
            }
}

/* ---- runs and their records (rules 17.12 to 17.15) */

static void check_run(size_t r, uint64_t frame, uint64_t first, uint64_t length, uint64_t sector) {
    CHECK_EQ(joined_runs[r].frame, frame);
    CHECK_EQ(joined_runs[r].first, first);
    CHECK_EQ(joined_runs[r].length, length);
    CHECK_EQ(joined_runs[r].sector, sector);
}

/* From the middle of one frame to that of the next but one, in parts; then over the same frames again. */
static void run_over_three_frames(host *h) {
    (void)h;
    begin_joint(&j, 11);
    add_extent(&j, 20, 3, 2);
    add_extent(&j, 20, 5, 3);
    add_extent(&j, 21, 0, 1);
    add_extent(&j, 21, 1, 7);
    add_extent(&j, 22, 0, 2);
    add_extent(&j, 21, 0, 8);
    add_extent(&j, 22, 0, 8);
    add_extent(&j, 22, 7, 1);
    add_extent(&j, 23, 0, 8);
    add_extent(&j, 20, 0, 8);
    CHECK_EQ(JOIN(&j), KH_OK);
    CHECK_EQ(joined, 4);
    check_run(0, 20, 3, 15, 1000);
    check_run(1, 21, 0, 16, 1015);
    check_run(2, 22, 7, 9, 1031);
    check_run(3, 20, 0, 8, 1040);
}

/* Frame, first sector, length, disk sector: a word each, in this order. */
static void record_is_four_words(host *h) {
    const uint64_t *record = (const uint64_t *)(const void *)joined_runs;
    (void)h;
    begin_joint(&j, 2);
    add_extent(&j, UINT64_C(0x1122334455667788), 6, 2);
    add_extent(&j, UINT64_C(0x1122334455667789), 0, 3);
    set_extent(&j, 0, 6, 2, UINT64_C(0x99AABBCCDDEEFF00));
    set_extent(&j, 1, 0, 3, UINT64_C(0x99AABBCCDDEEFF02));
    CHECK_EQ(JOIN(&j), KH_OK);
    CHECK_EQ(record[0], UINT64_C(0x1122334455667788));
    CHECK_EQ(record[1], 6);
    CHECK_EQ(record[2], 5);
    CHECK_EQ(record[3], UINT64_C(0x99AABBCCDDEEFF00));
    for (size_t i = 4; i < 8; i++)
        CHECK_EQ(record[i], UINT64_C(0xA5A5A5A5A5A5A5A5)); /* as it was before the call */
}

/* All of them one run, each alone, and by turns; as many as an answer of any length may have. */
static void more_places_than_a_turn_has(host *h) {
    static const uint64_t counts[] = {12, 1023, 1024, 1025, MOST_PLACES};
    (void)h;
    for (size_t c = 0; c < COUNT_OF(counts); c++) {
        begin_row(counts[c]);
        CHECK_EQ(JOIN(&j), KH_OK);
        CHECK_EQ(joined, 1);
        check_run(0, 7, 0, 8 * counts[c], 1000);
        begin_apart(counts[c]);
        CHECK_EQ(JOIN(&j), KH_OK);
        CHECK_EQ(joined, counts[c]);
        check_run(counts[c] - 1, 7 + 2 * (counts[c] - 1), (counts[c] - 1) % 8, 1, 1000 + counts[c] - 1);
        begin_joint(&j, counts[c]);
        for (uint64_t i = 0; i < counts[c]; i++)
            add_extent(&j, i, i % 2 == 0 ? 4 : 0, 4);
        CHECK_EQ(JOIN(&j), KH_OK);
        CHECK_EQ(joined, (counts[c] + 1) / 2);
    }
}

/* ---- what is not looked at (rules 17.2, 17.3 and 17.8) */

static void own_frame_is_not_looked_at(host *h) {
    (void)h;
    for (size_t i = 0; i < COUNT_OF(wide); i++)
        for (uint64_t step = 0; step < 3; step++) {
            begin_row(11);
            for (uint64_t k = 0; k < 11; k++)
                j.extents[KH_EXTENT_WORDS * k + KH_EXTENT_FRAME] = wide[i] + step * k;
            CHECK_EQ(JOIN(&j), KH_OK);
            CHECK_EQ(joined, 1);
            for (uint64_t k = 0; k < 11; k++)
                j.frames[k] = 100 - k;
            CHECK_EQ(JOIN(&j), KH_OK);
            CHECK_EQ(joined, 11);
        }
}

/* Machine frame i is that of extent i, and those from the number of extents on are nobody's. */
static void frames_behind_the_last_are_not_looked_at(host *h) {
    (void)h;
    for (uint64_t pieces = 0; pieces <= 11; pieces++)
        for (size_t i = 0; i < COUNT_OF(wide); i++) {
            begin_row(pieces);
            j.frame_count = 12;
            for (uint64_t k = pieces; k < 12; k++)
                j.frames[k] = i % 2 == 0 ? wide[i] : 7 + k;
            CHECK_EQ(JOIN(&j), KH_OK);
            CHECK_EQ(joined, pieces > 0);
        }
}

/* The extents, their frames and their runs end before a guard page; the lengths say that there is more of each. */
static void no_more_is_touched_than_is_named(host *h) {
    static const size_t more[] = {1, 4, 11, 1024, SIZE_MAX / 64};
    (void)h;
    if (placement != BEFORE_GUARD)
        return;
    for (uint64_t pieces = 0; pieces <= 11; pieces++)
        for (size_t i = 0; i < COUNT_OF(more); i++) {
            const uint64_t *extents, *frames;
            kh_run *runs;
            uint64_t answer = UINT64_MAX;
            begin_row(pieces);
            extents = take_copy(EXTENTS, j.extents, 8 * j.extent_words);
            frames = take_copy(FRAMES, j.frames, 8 * j.frame_count);
            runs = (kh_run *)(void *)take(RUNS, pieces > 0 ? sizeof *runs : 0);
            CHECK_EQ(kh_join_extents(extents, j.extent_words + more[i], pieces, frames, pieces + more[i], runs,
                                     pieces + more[i], &answer),
                     KH_OK);
            CHECK_EQ(answer, pieces > 0);
            CHECK_EQ(kh_join_extents(extents, 0, 1 + more[i], frames, 0, runs, 0, &answer), 10);
            CHECK_EQ(answer, pieces > 0);
        }
}

/* ---- no grouping has fewer runs (rule 17.17) */

/* Whether a cut where `cuts` has a bit, bit i behind extent i, leaves only neighbours together that join. */
static bool is_grouping(unsigned cuts) {
    bool sound = true;
    for (uint64_t i = 1; i < j.pieces; i++)
        sound = sound && ((cuts >> (i - 1) & 1) != 0 || is_joined(&j, i));
    return sound;
}

static uint64_t groups_of(unsigned cuts) {
    uint64_t groups = 1;
    for (; cuts != 0; cuts >>= 1)
        groups += cuts & 1;
    return groups;
}

/* Extents that join or do not, as the bits of `gaps` say: of all ways to group them none has fewer runs. */
static void no_grouping_has_fewer_runs(host *h) {
    enum { PIECES = 8, WAYS = 1 << (PIECES - 1) };
    (void)h;
    for (unsigned gaps = 0; gaps < WAYS; gaps++) {
        uint64_t fewest = PIECES, frame = 7;
        begin_joint(&j, PIECES);
        for (unsigned i = 0; i < PIECES; i++) {
            add_extent(&j, frame, i % 2 == 0 ? 0 : 5, i % 2 == 0 ? 5 : 3);
            frame += (gaps >> i & 1) != 0 ? 3 : i % 2;
        }
        CHECK_EQ(JOIN(&j), KH_OK);
        for (unsigned cuts = 0; cuts < WAYS; cuts++)
            if (is_grouping(cuts) && groups_of(cuts) < fewest)
                fewest = groups_of(cuts);
        CHECK_EQ(joined, fewest);
        CHECK_EQ(joined, groups_of(gaps));
    }
}

/* ---- plans of turns (rule 17.20) */

/* A turn's words, with any machine frames, and then the plan that is read from them: both come to the same runs. */
static void join_answer(const uint64_t *answer) {
    kh_plan plan = kh_read_plan(answer);
    kh_run runs[KH_EXTENTS];
    uint64_t count = 0;
    begin_joint(&j, KH_EXTENTS);
    memcpy(j.extents, answer + KH_TURN_EXTENTS, 8 * j.extent_words);
    j.pieces = answer[KH_TURN_EXTENT_COUNT];
    for (uint64_t i = 0; i < KH_EXTENTS; i++)
        j.frames[i] = i > 0 && !one_in(4) ? j.frames[i - 1] + below(2) : any();
    CHECK_EQ(do_join(&j), KH_OK);
    CHECK_EQ(kh_join_plan(&plan, j.frames, plan.extent_count, runs, KH_EXTENTS, &count), KH_OK);
    CHECK_EQ(count, joined);
    CHECK(memcmp(runs, joined_runs, sizeof *runs * count) == 0);
    if (plan.extent_count > 0) {
        CHECK_EQ(kh_join_plan(&plan, j.frames, plan.extent_count - 1, runs, KH_EXTENTS, &count), 8);
        CHECK_EQ(kh_join_plan(&plan, j.frames, KH_EXTENTS, runs, joined - 1, &count), 9);
    }
}

/* A request of any kind, at the begin of the disk or up to its end. */
static request any_request(void) {
    static const uint8_t operations[] = {KH_READ, KH_WRITE, KH_BARRIER, KH_FLUSH, KH_DISCARD};
    uint8_t operation = operations[below(COUNT_OF(operations))], n = (uint8_t)below(KH_EXTENTS + 1);
    request r = transfer(operation, n, below(64));
    uint64_t count = 0;
    for (uint8_t k = 0; k < KH_EXTENTS; k++) {
        segment *s = &r.segments[k];
        s->frame = below(16);
        s->first = (uint8_t)below(8);
        s->last = (uint8_t)(s->first + below(8U - s->first));
        count += k < n ? s->last - s->first + 1U : 0;
    }
    r.sectors = 1;
    if (one_in(2))
        r.start = UINT64_MAX - count;
    return r;
}

/* On a disk that has all the sectors that one can have. */
static void plans_are_not_refused(host *h) {
    unsigned long started = 0, most = 0;
    state = FIRST_ID;
    BEGIN(h, "1:w 2:1 3:1 4:1 6:512 7:18446744073709551615");
    for (int i = 0; i < 600; i++) {
        if (JUDGE(h, any_request()) != 0)
            continue;
        join_answer(words(h, TURNED));
        started++;
        most += j.pieces == KH_EXTENTS;
    }
    CHECK(started > 300 && most > 10);
}

/* ---- any words, counts and lengths; no expression draws twice where C leaves the order open */

enum { CALLS = 10000 };

static unsigned long came[11], by_frame[2]; /* numbers; extents that joined in their frame and into the next */

static uint64_t any_word(void) {
    uint64_t word = one_in(2) ? below(12) : wide[below(COUNT_OF(wide))];
    if (one_in(3))
        word = any();
    return one_in(6) ? word >> below(64) : word;
}

/* The machine frame behind one that an extent lies in. */
static uint64_t any_frame(uint64_t frame) {
    return one_in(8) ? any_word() : one_in(8) ? UINT64_MAX - below(2) : frame + below(2);
}

/* Extents as a plan has them, many of which go on where the one before ends. */
static void any_extents_of_a_plan(uint64_t pieces) {
    uint64_t frame = any_word(), end = 8;
    begin_joint(&j, pieces);
    for (uint64_t i = 0; i < pieces; i++) {
        uint64_t first = one_in(6) ? below(8) : end % 8;
        uint64_t length = one_in(2) ? 8 - first : 1 + below((uint32_t)(8 - first));
        frame = end == 8 || one_in(8) ? any_frame(frame) : frame;
        add_extent(&j, frame, first, length);
        j.extents[KH_EXTENT_WORDS * i + KH_EXTENT_FRAME] = any_word();
        end = first + length;
    }
}

/* Some of what was asked for is otherwise. */
static void spoil_joint(void) {
    uint32_t most = (uint32_t)j.pieces + 2;
    j.extent_words += below(12);
    if (one_in(6) && j.pieces > 0) {
        uint32_t word = below(KH_EXTENT_WORDS * (uint32_t)j.pieces);
        j.extents[word] = one_in(2) ? any_word() : j.extents[word] + below(3) - 1;
    }
    if (one_in(6))
        j.frame_count = below(most);
    if (one_in(3))
        j.run_count = below(most);
    if (one_in(16))
        j.pieces = one_in(2) ? any_word() : j.extent_words / KH_EXTENT_WORDS + below(2);
    if (one_in(16))
        j.extent_words = below(KH_EXTENT_WORDS * most);
    if (one_in(32))
        fill((uint8_t *)j.extents, 8 * j.extent_words);
}

static void count_joint(uint32_t number) {
    CHECK(number == KH_OK || number == 8 || number == 9 || number == 10);
    came[number % COUNT_OF(came)]++;
    for (uint64_t i = 1; number == KH_OK && i < j.pieces; i++)
        if (is_joined(&j, i))
            by_frame[j.frames[i] != j.frames[i - 1]]++;
}

static void any_words_and_lengths(host *h) {
    (void)h;
    state = UINT64_C(0x6B65726E656C6861);
    memset(came, 0, sizeof came);
    memset(by_frame, 0, sizeof by_frame);
    for (int i = 0; i < CALLS && running.failures == 0; i++) {
        any_extents_of_a_plan(one_in(256) ? below(1100) : below(14));
        spoil_joint();
        count_joint(JOIN(&j));
    }
    CHECK(came[KH_OK] > 1000 && came[8] > 100 && came[9] > 100 && came[10] > 100);
    CHECK(by_frame[0] > 1000 && by_frame[1] > 1000);
    if (placement != BEFORE_GUARD || running.failures > 0)
        printf("     %d calls: done %lu, refused 8: %lu, 9: %lu, 10: %lu; joined in a frame %lu, to the next %lu\n",
               CALLS, came[KH_OK], came[8], came[9], came[10], by_frame[0], by_frame[1]);
}

int main(void) {
    static const test tests[] = {
        /* few extents */
        TEST(first_extent_anywhere_on_the_disk),
        TEST(join_in_the_same_frame),
        TEST(join_to_the_next_frame),
        TEST(join_at_the_last_frame),
        TEST(join_by_the_whole_frame_number),
        TEST(join_of_any_two),
        TEST(run_over_three_frames),
        TEST(record_is_four_words),
        TEST(no_extents),
        TEST(own_frame_is_not_looked_at),
        TEST(frames_behind_the_last_are_not_looked_at),
        TEST(no_more_is_touched_than_is_named),
        TEST(refusal_10_first_and_length),
        TEST(refusal_10_past_the_last_disk_sector),
        TEST(refusal_10_past_the_last_disk_sector_anywhere),
        TEST(refusal_10_of_the_extents_named),
        TEST(refusal_08_by_the_extents),
        /* many */
        TEST(refusal_10_more_extents_than_places),
        TEST(refusal_10_words_that_are_no_place),
        TEST(refusal_10_extent_without_sectors),
        TEST(refusal_10_past_sector_7),
        TEST(refusal_10_not_behind_the_one_before),
        TEST(refusal_08_fewer_machine_frames),
        TEST(refusal_09_fewer_records_than_runs),
        TEST(refusals_in_their_order),
        TEST(more_places_than_a_turn_has),
        TEST(no_grouping_has_fewer_runs),
        TEST(plans_are_not_refused),
        TEST(any_words_and_lengths),
    };
    return run_tests(tests, COUNT_OF(tests));
}
