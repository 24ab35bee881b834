/*
 * The listing of docs/HOST.md that serves a wake-up: when it returns, every request of a guest has its response, in
 * both ways of lending, and the guest of a ring that makes no sense is closed.
 */
#include "wake_listing.c"

#include <stdio.h>
#include <string.h>

enum { PORT = 2, REQUESTS = 20 };

static kh_host host;
static kh_guest guest;
static _Alignas(KH_PAGE_BYTES) uint8_t row[KH_RINGS_BYTES]; /* the port's page is where live pages have it */
static unsigned carried, rung;

int32_t carry_out(uint32_t port, const kh_plan *plan) {
    carried += port == PORT;
    return kh_expected_result(plan);
}

void notify(uint32_t port) {
    rung += port == PORT;
}

static uint8_t *page(void) {
    return row + KH_RING_BYTES * PORT;
}

/* Flushes, and between them reads that are refused: their frame is not granted. */
static bool put(uint64_t id) {
    const kh_request request = {id % 2 ? KH_FLUSH : KH_READ, id, 0, id % 2 ? 0 : 1, 0, 0, {{9, 0, 0}}};
    uint64_t words[KH_REQUEST_WORDS], answer[KH_PUT_WORDS];
    kh_write_request(&request, words);
    return kh_guest_put(&guest, page(), KH_PAGE_BYTES, words, answer) == KH_OK;
}

/* With no response left the guest asks to be notified of the next. */
static unsigned collect(int status) {
    uint64_t answer[KH_COLLECT_WORDS];
    unsigned found = 0;
    while (kh_guest_collect(&guest, page(), KH_PAGE_BYTES, answer) == KH_OK && kh_read_collected(answer).found)
        found += kh_read_collected(answer).status == status;
    return found;
}

static bool serves(bool begun) {
    const kh_sheet disk = {true, false, true, false, false, 512, 2008, KH_BITS64, 1};
    uint8_t sheet[KH_SHEET_BYTES];
    void *pages[] = {page()};
    memset(row, 0, sizeof row);
    memset(&guest, 0, sizeof guest);
    carried = rung = 0;
    if (!begun || kh_host_open(&host, PORT, sheet, kh_write_sheet(&disk, sheet), pages) != KH_OK)
        return false;
    for (uint64_t id = 0; id < REQUESTS; id++)
        if (!put(id))
            return false;
    host_serve(&host);
    if (carried != REQUESTS / 2 || rung != 0 || collect(KH_OKAY) != REQUESTS / 2 || !put(REQUESTS + 1))
        return false;
    host_serve(&host);
    if (rung != 1 || collect(KH_OKAY) != 1 || !put(REQUESTS + 2) || !put(REQUESTS + 3) || !put(REQUESTS + 5))
        return false;
    host_serve(&host); /* the refused one rings, and the two behind it are served as well */
    if (rung != 2 || collect(KH_OKAY) != 2)
        return false;
    memset(page() + KH_REQ_PROD, 0xEE, 4);
    host_serve(&host);
    return kh_host_close(&host, PORT) == KH_IS_CLOSED;
}

int main(void) {
    return serves(kh_host_init(&host)) && serves(kh_host_init_pages(&host, row)) ? 0 : 1;
}
