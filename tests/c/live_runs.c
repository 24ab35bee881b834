/*
 * The listing of docs/HOST.md that moves runs: each run is one preadv or pwritev, whatever machine frames a port's
 * grants are and wherever they are mapped, and disk and frames are left as sector by sector they would be.
 */
#include "any.h"

#include <sys/uio.h>

#include "kernelharp.h"

/* ---- the calls, seen */

static int calls, parts, fails_at, cut_at; /* since the plan began; which of them fails, and which moves less */

static ssize_t seen(ssize_t moved, int count) {
    calls++;
    parts += count;
    return calls == fails_at ? -1 : calls == cut_at ? moved - KH_SECTOR_BYTES : moved;
}

static ssize_t seen_preadv(int disk, const struct iovec *to, int count, off_t offset) {
    return seen(preadv(disk, to, count, offset), count);
}

static ssize_t seen_pwritev(int disk, const struct iovec *from, int count, off_t offset) {
    return seen(pwritev(disk, from, count, offset), count);
}

#define preadv  seen_preadv
#define pwritev seen_pwritev

#include "transfers.c" /* the listing */

/* ---- a port's frames and disk, and what both have to be */

enum { PORT = 3, FRAMES = 16, SECTORS = 256, PLANS = 4000 };

static uint8_t room[FRAMES][KH_PAGE_BYTES], due_room[FRAMES][KH_PAGE_BYTES];
static uint8_t due_disk[SECTORS][KH_SECTOR_BYTES], disk_now[SECTORS][KH_SECTOR_BYTES];

/* Grant g is the page (a g + b) mod 16 of the room. Its machine frame has the same number, or falls while pages rise.
 */
static void map_frames(void) {
    uint32_t a = 2 * below(FRAMES / 2) + 1, b = below(FRAMES);
    bool falling = one_in(3);
    if (one_in(2))
        a = 1;
    for (uint32_t g = 0; g < FRAMES; g++) {
        uint32_t page = (a * g + b) % FRAMES;
        frames[PORT][g] = (struct frame){room[page], falling ? 500 - page : 500 + page};
    }
}

/* Extents many of which go on where the one before ends; no sector is in two of them. */
static kh_plan any_plan(void) {
    kh_plan plan = {.operation = below(3), .start = below(100), .extent_count = 1 + below(KH_EXTENTS)};
    uint32_t frame = below(FRAMES), end = 8;
    for (uint32_t i = 0; i < plan.extent_count; i++) {
        uint32_t first = end % 8;
        frame = (frame + (end == 8)) % FRAMES;
        if (one_in(5))
            first += below(8 - first);
        end = one_in(2) ? 8 : first + 1 + below(8 - first);
        plan.extents[i] = (kh_extent){frame, first, end - first, plan.start + plan.count};
        plan.count += end - first;
    }
    return plan;
}

static void expect_transfer(const kh_plan *plan) {
    for (uint32_t i = 0; i < plan->extent_count; i++)
        for (uint32_t k = 0; k < plan->extents[i].length; k++) {
            const kh_extent *e = &plan->extents[i];
            uint8_t *sector = due_disk[e->sector + k];
            size_t page = (size_t)(frames[PORT][e->frame].at - room[0]) / KH_PAGE_BYTES;
            uint8_t *memory_sector = due_room[page] + KH_SECTOR_BYTES * (e->first + k);
            memcpy(plan->operation == KH_READ ? memory_sector : sector,
                   plan->operation == KH_READ ? sector : memory_sector, KH_SECTOR_BYTES);
        }
}

static uint64_t runs_of(const kh_plan *plan) {
    uint64_t machine[KH_EXTENTS], count = 0;
    kh_run runs[KH_EXTENTS];
    for (uint32_t i = 0; i < plan->extent_count; i++)
        machine[i] = frames[PORT][plan->extents[i].frame].machine;
    CHECK_EQ(kh_join_plan(plan, machine, plan->extent_count, runs, KH_EXTENTS, &count), KH_OK);
    return count;
}

static void begin_calls(int failing, int cut) {
    calls = parts = 0;
    fails_at = failing;
    cut_at = cut;
}

/* Every run is one call, and a run that fails or moves less is an error of the plan. */
static void transfer(int disk, uint64_t *joined, uint64_t *single) {
    kh_plan plan = any_plan();
    int runs = (int)runs_of(&plan), bad = 1 + (int)below((uint32_t)runs);
    expect_transfer(&plan);
    begin_calls(0, 0);
    CHECK_EQ(host_transfer(disk, PORT, &plan), (int32_t)plan.count);
    CHECK_EQ(calls, runs);
    CHECK(parts >= runs && (uint32_t)parts <= plan.extent_count);
    *joined += plan.extent_count - (uint32_t)runs;
    *single += parts == runs && (uint32_t)runs < plan.extent_count;
    begin_calls(one_in(2) ? bad : 0, bad);
    CHECK_EQ(host_transfer(disk, PORT, &plan), -EIO);
    CHECK_EQ(calls, bad);
}

int main(void) {
    static const kh_plan none = {.operation = KH_FLUSH}, wrong = {.extent_count = 1};
    uint64_t joined = 0, single = 0;
    FILE *file = tmpfile();
    int disk = file == NULL ? -1 : fileno(file);
    running.name = "live_runs";
    state = UINT64_C(0x6B65726E656C6861);
    fill(room[0], sizeof room);
    fill(due_disk[0], sizeof due_disk);
    memcpy(due_room, room, sizeof room);
    CHECK_EQ(pwrite(disk, due_disk, sizeof due_disk, 0), sizeof due_disk);
    for (int i = 0; i < PLANS && running.failures == 0; i++) {
        if (i % 16 == 0)
            map_frames();
        transfer(disk, &joined, &single);
        CHECK_EQ(pread(disk, disk_now, sizeof disk_now, 0), sizeof disk_now);
        CHECK(memcmp(disk_now, due_disk, sizeof due_disk) == 0 && memcmp(room, due_room, sizeof room) == 0);
    }
    begin_calls(0, 0);
    CHECK_EQ(host_transfer(disk, PORT, &none), 0);
    CHECK_EQ(host_transfer(disk, PORT, &wrong), -EINVAL);
    CHECK_EQ(calls, 0);
    CHECK(joined > PLANS && single > PLANS / 8);
    printf("     %d plans: %llu extents needed no call of their own; %llu plans had one iovec to a run\n", PLANS,
           (unsigned long long)joined, (unsigned long long)single);
    return running.failures != 0;
}
