#include "requests.h"

#include <stdlib.h>
#include <string.h>

static const struct disk full = {"w", "1", "1", "1", "1", "512", "2008"};
static const struct disk plain = {"w", "0", "0", "0", "0", "512", "2008"};
static const struct disk unsecured = {"w", "1", "1", "1", "0", "512", "2008"};
static const struct disk locked = {"r", "1", "1", "1", "1", "512", "2008"};
static const struct disk locked_unsecured = {"r", "1", "1", "1", "0", "512", "2008"};
static const struct disk by_2 = {"w", "1", "1", "1", "1", "1024", "2008"};
static const struct disk by_4 = {"w", "1", "1", "1", "1", "2048", "2008"};
static const struct disk by_8 = {"w", "1", "1", "1", "1", "4096", "2008"};
static const struct disk by_8_unsecured = {"w", "1", "1", "1", "0", "4096", "2008"};

/* Frames below READABLE may be read and written, those below UNGRANTED read, those below PAST nothing; there are no
 * more. */
enum { READABLE = 100, UNGRANTED = 200, PAST = 1024, WHOLE = 8 };

/* Parts of frames, on boundaries of 2 and of 4 sectors, and the same with the first one off; and such as are off by
 * themselves, at the first sector or at the last. */
static const struct span on_2[] = {{0, 1}, {2, 3}, {4, 5}, {6, 7}, {0, 3}, {2, 5}, {4, 7}, {0, 5}, {2, 7}, {0, 7}};
static const struct span on_4[] = {{0, 3}, {4, 7}, {0, 7}, {4, 7}, {0, 3}, {0, 7}, {0, 3}, {4, 7}, {0, 7}, {4, 7}};
static const struct span off_2[] = {{1, 2}, {2, 3}, {4, 5}, {6, 7}, {0, 3}, {2, 5}, {4, 7}, {0, 5}, {2, 7}, {0, 7}};
static const struct span off_4[] = {{2, 5}, {4, 7}, {0, 7}, {4, 7}, {0, 3}, {0, 7}, {0, 3}, {4, 7}, {0, 7}, {4, 7}};
static const struct span half[] = {{0, 3}, {0, 7}, {0, 7}, {0, 7}, {0, 7}, {0, 7}, {0, 7}, {0, 7}, {0, 7}, {0, 7}};
static const struct span from_1[] = {{1, 3}}, to_2[] = {{0, 2}}, from_2[] = {{2, 3}}, to_1[] = {{0, 1}};
static const struct span but_first[] = {{1, 7}}, but_last[] = {{0, 6}};

const struct request dummy = {.name = "a dummy", .operation = 200, .reason = 21, .status = 2};
const struct request held = {.name = "a held read", .operation = READ, .n = 1, .last = {5, 0, 7}, .due = 8};

#pragma GCC diagnostic ignored "-Wmissing-field-initializers" /* most rows have no parts */
const struct request requests[] = {
    {"started: read, 1 segment", &full, READ, 1, 2000, {5, 0, 7}, 0, 0, 0, 8},
    {"started: read, 4 segments", &full, READ, 4, 3, {6, 7, 7}, 0, 0, 0, 25},
    {"started: read, 11 segments", &full, READ, 11, 0, {7, 0, 7}, 0, 0, 0, 88},
    {"started: read, 1024-byte sectors", &by_2, READ, 2, 2, {7, 0, 1}, 0, 0, 0, 10},
    {"started: read, 2048-byte sectors", &by_4, READ, 2, 4, {7, 4, 7}, 0, 0, 0, 12},
    {"started: read, 4096-byte sectors", &by_8, READ, 2, 16, {7, 0, 7}, 0, 0, 0, 16},
    {"started: read, 1 part, 1024-byte sectors", &by_2, READ, 1, 2, {7, 2, 3}, 0, 0, 0, 2},
    {"started: read, 11 frames, 1024-byte sectors", &by_2, READ, 11, 2, {7, 0, 7}, 0, 0, 0, 88},
    {"started: read, 11 parts, 1024-byte sectors", &by_2, READ, 11, 8, {7, 0, 7}, 0, 0, 0, 48, on_2},
    {"started: write, 4 parts, 1024-byte sectors", &by_2, WRITE, 4, 2, {READABLE, 2, 5}, 0, 0, 0, 10, on_2},
    {"started: read, 1 part, 2048-byte sectors", &by_4, READ, 1, 4, {7, 4, 7}, 0, 0, 0, 4},
    {"started: read, 11 frames, 2048-byte sectors", &by_4, READ, 11, 4, {7, 0, 7}, 0, 0, 0, 88},
    {"started: read, 11 parts, 2048-byte sectors", &by_4, READ, 11, 8, {7, 4, 7}, 0, 0, 0, 56, on_4},
    {"started: barrier, 4 parts, 2048-byte sectors", &by_4, BARRIER, 4, 4, {READABLE, 4, 7}, 0, 0, 0, 20, on_4},
    {"started: write, 1 frame, 4096-byte sectors", &by_8, WRITE, 1, 8, {READABLE, 0, 7}, 0, 0, 0, 8},
    {"started: read, 11 frames, 4096-byte sectors", &by_8, READ, 11, 8, {7, 0, 7}, 0, 0, 0, 88},
    {"started: write, 1 segment", &full, WRITE, 1, 7, {READABLE, 2, 5}, 0, 0, 0, 4},
    {"started: write, 11 segments", &full, WRITE, 11, 100, {READABLE, 0, 7}, 0, 0, 0, 88},
    {"started: barrier, no segment", &full, BARRIER, 0, 5, {0, 0, 0}, 0, 0, 0, 0},
    {"started: barrier, 4 segments", &full, BARRIER, 4, 5, {READABLE, 0, 0}, 0, 0, 0, 25},
    {"started: flush", &full, FLUSH, 0, 5, {0, 0, 0}, 0, 0, 0, 0},
    {"started: discard", &full, DISCARD, 0, 8, {0, 0, 0}, 2000, 0, 0, 0},
    {"started: discard, 1024-byte sectors", &by_2, DISCARD, 0, 2, {0, 0, 0}, 4, 0, 0, 0},
    {"started: discard, 2048-byte sectors", &by_4, DISCARD, 0, 4, {0, 0, 0}, 8, 0, 0, 0},
    {"started: discard, 4096-byte sectors", &by_8, DISCARD, 0, 8, {0, 0, 0}, 16, 0, 0, 0},
    {"started: secure discard", &full, DISCARD, 1, 8, {0, 0, 0}, 1, 0, 0, 0},
    {"started: secure discard, flag 255", &full, DISCARD, 255, 8, {0, 0, 0}, 1, 0, 0, 0},
    {"started: discard, flag 254", &full, DISCARD, 254, 8, {0, 0, 0}, 1, 0, 0, 0},
    {"started: secure discard, 4096-byte sectors", &by_8, DISCARD, 1, 8, {0, 0, 0}, 16, 0, 0, 0},
    {"started: discard, discard-secure 0", &unsecured, DISCARD, 0, 0, {0, 0, 0}, 8, 0, 0, 0},
    {"started: discard, flag 1 ignored", &unsecured, DISCARD, 1, 0, {0, 0, 0}, 8, 0, 0, 0},
    {"started: discard, flag 254 ignored", &unsecured, DISCARD, 254, 0, {0, 0, 0}, 8, 0, 0, 0},
    {"started: discard, flag 255 ignored", &unsecured, DISCARD, 255, 0, {0, 0, 0}, 2008, 0, 0, 0},
    {"started: discard by 8, flag 1 ignored", &by_8_unsecured, DISCARD, 1, 8, {0, 0, 0}, 16, 0, 0, 0},
    {"answered 21: operation 4", &full, 4, 1, 0, {5, 0, 7}, 0, 21, 2, 0},
    {"answered 21: operation 255", &full, 255, 255, 0, {5, 0, 7}, 0, 21, 2, 0},
    {"answered 22: barrier", &plain, BARRIER, 1, 0, {5, 0, 7}, 0, 22, 2, 0},
    {"answered 22: flush", &plain, FLUSH, 0, 0, {0, 0, 0}, 0, 22, 2, 0},
    {"answered 22: discard", &plain, DISCARD, 1, 0, {0, 0, 0}, 8, 22, 2, 0},
    {"answered 24: write", &locked, WRITE, 12, 0, {5, 0, 7}, 0, 24, 1, 0},
    {"answered 24: barrier", &locked, BARRIER, 0, 0, {0, 0, 0}, 0, 24, 1, 0},
    {"answered 24: discard", &locked, DISCARD, 0, 0, {0, 0, 0}, 8, 24, 1, 0},
    {"answered 24: discard, flag 1 ignored", &locked_unsecured, DISCARD, 1, 0, {0, 0, 0}, 8, 24, 1, 0},
    {"answered 25: read, 0 segments", &full, READ, 0, 0, {0, 0, 0}, 0, 25, 1, 0},
    {"answered 25: read, 12 segments", &full, READ, 12, 0, {5, 0, 7}, 0, 25, 1, 0},
    {"answered 25: write, 255 segments", &full, WRITE, 255, 0, {5, 0, 7}, 0, 25, 1, 0},
    {"answered 25: barrier, 12 segments", &full, BARRIER, 12, 0, {5, 0, 7}, 0, 25, 1, 0},
    {"answered 25: flush, 1 segment", &full, FLUSH, 1, 0, {5, 0, 7}, 0, 25, 1, 0},
    {"answered 25: discard, 0 sectors", &full, DISCARD, 0, 0, {0, 0, 0}, 0, 25, 1, 0},
    {"answered 25: discard, flag 1 ignored", &unsecured, DISCARD, 1, 0, {0, 0, 0}, 0, 25, 1, 0},
    {"answered 26: first above last", &full, READ, 11, 0, {5, 3, 2}, 0, 26, 1, 0},
    {"answered 26: last above 7", &full, WRITE, 1, 0, {5, 0, 8}, 0, 26, 1, 0},
    {"answered 26: behind a segment by 2", &by_2, READ, 11, 2, {5, 3, 2}, 0, 26, 1, 0, off_2},
    {"answered 27: not granted", &full, WRITE, 11, 0, {UNGRANTED, 0, 7}, 0, 27, 1, 0},
    {"answered 27: granted for reading", &full, READ, 4, 0, {READABLE, 0, 7}, 0, 27, 1, 0},
    {"answered 27: frame 1024", &full, READ, 1, 0, {PAST, 0, 7}, 0, 27, 1, 0},
    {"answered 27: behind a segment by 4", &by_4, READ, 11, 4, {UNGRANTED, 0, 7}, 0, 27, 1, 0, off_4},
    {"answered 28: read past the end", &full, READ, 11, 1921, {5, 0, 7}, 0, 28, 1, 0},
    {"answered 28: start at 2^64 - 1", &full, READ, 1, UINT64_MAX, {5, 7, 7}, 0, 28, 1, 0},
    {"answered 28: discard past the end", &full, DISCARD, 1, 2008, {0, 0, 0}, 1, 28, 1, 0},
    {"answered 28: discard, flag 1 ignored", &unsecured, DISCARD, 1, 2001, {0, 0, 0}, 8, 28, 1, 0},
    {"answered 28: two halves by 8", &by_8, READ, 2, 2008, {5, 4, 7}, 0, 28, 1, 0, half},
    {"answered 29: start by 2", &by_2, WRITE, 1, 1, {5, 0, 7}, 0, 29, 1, 0},
    {"answered 29: count by 4", &by_4, READ, 2, 4, {5, 0, 2}, 0, 29, 1, 0},
    {"answered 29: write by 8", &by_8, WRITE, 1, 4, {5, 0, 7}, 0, 29, 1, 0},
    {"answered 29: start by 4", &by_4, READ, 2, 6, {5, 0, 3}, 0, 29, 1, 0},
    {"answered 29: only segment by 2", &by_2, READ, 1, 2, {5, 1, 2}, 0, 29, 1, 0},
    {"answered 29: first segment by 2", &by_2, READ, 11, 8, {5, 0, 7}, 0, 29, 1, 0, off_2},
    {"answered 29: last segment by 2", &by_2, WRITE, 11, 2, {READABLE, 3, 4}, 0, 29, 1, 0, on_2},
    {"answered 29: last of whole frames by 2", &by_2, READ, 11, 2, {5, 1, 6}, 0, 29, 1, 0},
    {"answered 29: two first sectors by 2", &by_2, READ, 2, 2, {5, 3, 3}, 0, 29, 1, 0, from_1},
    {"answered 29: two last sectors by 2", &by_2, READ, 2, 2, {5, 4, 4}, 0, 29, 1, 0, to_2},
    {"answered 29: one first sector by 2", &by_2, READ, 4, 2, {5, 1, 7}, 0, 29, 1, 0},
    {"answered 29: one last sector by 2", &by_2, READ, 4, 2, {5, 0, 6}, 0, 29, 1, 0},
    {"answered 29: only segment by 4", &by_4, READ, 1, 4, {5, 2, 5}, 0, 29, 1, 0},
    {"answered 29: first segment by 4", &by_4, WRITE, 11, 8, {READABLE, 4, 7}, 0, 29, 1, 0, off_4},
    {"answered 29: last segment by 4", &by_4, READ, 11, 4, {5, 3, 6}, 0, 29, 1, 0, on_4},
    {"answered 29: last of whole frames by 4", &by_4, READ, 11, 4, {5, 1, 4}, 0, 29, 1, 0},
    {"answered 29: two first sectors by 4", &by_4, BARRIER, 2, 4, {READABLE, 6, 7}, 0, 29, 1, 0, from_2},
    {"answered 29: two last sectors by 4", &by_4, READ, 2, 4, {5, 4, 5}, 0, 29, 1, 0, to_1},
    {"answered 29: one first sector by 4", &by_4, READ, 4, 4, {5, 2, 7}, 0, 29, 1, 0},
    {"answered 29: one last sector by 4", &by_4, READ, 4, 4, {5, 0, 5}, 0, 29, 1, 0},
    {"answered 29: two halves by 8", &by_8, READ, 2, 8, {5, 4, 7}, 0, 29, 1, 0, half},
    {"answered 29: halves at both ends by 8", &by_8, WRITE, 11, 8, {READABLE, 4, 7}, 0, 29, 1, 0, half},
    {"answered 29: two first sectors by 8", &by_8, BARRIER, 2, 8, {READABLE, 7, 7}, 0, 29, 1, 0, but_first},
    {"answered 29: two last sectors by 8", &by_8, READ, 2, 8, {5, 0, 0}, 0, 29, 1, 0, but_last},
    {"answered 29: one last sector by 8", &by_8, READ, 11, 8, {5, 0, 3}, 0, 29, 1, 0},
    {"answered 29: discard by 2", &by_2, DISCARD, 0, 2, {0, 0, 0}, 3, 29, 1, 0},
    {"answered 29: discard by 4", &by_4, DISCARD, 0, 2, {0, 0, 0}, 4, 29, 1, 0},
    {"answered 29: discard by 8", &by_8, DISCARD, 0, 8, {0, 0, 0}, 4, 29, 1, 0},
    {"answered 29: discard by 8, flag 1 ignored", &by_8_unsecured, DISCARD, 1, 8, {0, 0, 0}, 4, 29, 1, 0},
};

const unsigned request_count = sizeof requests / sizeof *requests;

void grant_frames(void) {
    for (unsigned i = 0; i < KH_GRANTS_BYTES; i++) {
        unsigned frame = i % 1024;
        bench.grants[i] = frame < READABLE ? 2 : frame < UNGRANTED ? 1 : 0;
    }
}

static size_t write_sheet(uint8_t *sheet, const struct shape *shape, const struct disk *disk) {
    const char *bodies[] = {disk->mode,
                            disk->barrier,
                            disk->flush,
                            disk->discard,
                            disk->secure,
                            disk->sector_size,
                            disk->sectors,
                            layouts[shape->abi].protocol,
                            shape->pages == 2 ? "1" : "0"};
    enum { NODES = sizeof bodies / sizeof *bodies };
    size_t end = 1 + 4 * NODES;
    sheet[0] = NODES;
    for (unsigned i = 0; i < NODES; i++) {
        uint8_t length = (uint8_t)strlen(bodies[i]);
        memcpy(sheet + 1 + 4 * i, (uint8_t[]){(uint8_t)(i + 1), 0, length, 0}, 4);
        memcpy(sheet + end, bodies[i], length);
        end += length;
    }
    return end;
}

static unsigned unit_of(const struct disk *disk) {
    return (unsigned)atoi(disk->sector_size) / KH_SECTOR_BYTES;
}

void open_port(unsigned port, const struct shape *shape, const struct disk *disk) {
    uint8_t sheet[128];
    if (!disk)
        disk = &full;
    size_t bytes = write_sheet(sheet, shape, disk);
    uint32_t refusal = kh_open(&bench.memory, port, sheet, bytes);
    if (refusal != KH_OK)
        fail("open of port %u refused: %u", port, refusal);
    bench.ports[port] = (struct book){.state = OPEN,
                                      .abi = shape->abi,
                                      .pages = shape->pages,
                                      .unit = unit_of(disk),
                                      .secure = disk->secure[0] == '1'};
    store32(rings + header_at(port, REQ_PROD), 0);
}

static struct segment segment_of(const struct request *request, unsigned i) {
    struct span part = {0, WHOLE - 1};
    if (i + 1 == request->n)
        return request->last;
    if (request->parts)
        part = request->parts[i];
    return (struct segment){10 + i, part.first, part.last};
}

/* What no field covers keeps the bytes that were there, which are rubbish. */
void write_request(uint8_t *slot, const struct layout *layout, uint32_t index, const struct request *request) {
    slot[0] = request->operation;
    slot[1] = request->n;
    store64(slot + layout->id, 0x1122334455667700 + index);
    store64(slot + layout->start, request->start);
    if (request->operation == DISCARD) {
        store64(slot + layout->segments, request->sectors);
        return;
    }
    for (unsigned i = 0; i < request->n && i < 11; i++) {
        struct segment segment = segment_of(request, i);
        uint8_t *at = slot + layout->segments + 8 * i;
        store32(at, segment.frame);
        at[4] = segment.first;
        at[5] = segment.last;
    }
}

void put_request(unsigned port, uint32_t index, const struct request *request) {
    write_request(rings + slot_at(port, index), layout_of(port), index, request);
    store32(rings + header_at(port, REQ_PROD), index + 1);
}

bool is_secure(unsigned port, const struct request *request) {
    return request->operation == DISCARD && request->n % 2 != 0 && bench.ports[port].secure;
}
