/*
 * The library with one fault put before or after its calls, named by the environment variable WRONG, to see that the
 * tests find it. Linked between a test and the archive (the linker's --wrap).
 */
#include "wrong_23.h"
#include "wrong_29.h"
#include "wrong_join.h"
#include "wrong_lists.h"
#include "wrong_rings.h"

typedef void raise_meter(kh_meter *meter, uint32_t returned, const uint64_t *answer);
raise_meter __real_kh_meter_turn, __wrap_kh_meter_turn, __wrap_kh_meter_completion, __wrap_kh_meter_many;

/* ---- a 32-bit port's slots taken for those of a 64-bit one */

/* Copies the slots of each 32-bit port from where they are in the one ring to where they are in the other. */
static void move_slots(uint8_t *to, size_t to_bytes, const uint8_t *from, size_t from_bytes) {
    for (uint64_t port = 0; port < KH_PORTS; port++)
        for (size_t i = 0; abis[port] == KH_BITS32 && i < kh_slots(pages_of(port)); i++)
            memcpy(to + KH_RING_BYTES * port + KH_HEADER_BYTES + to_bytes * i,
                   from + KH_RING_BYTES * port + KH_HEADER_BYTES + from_bytes * i, KH_SLOT32_BYTES);
}

/* A turn that looks for the slots of 32-bit ports, and puts their responses, where those of 64-bit ports are. */
static uint32_t turn_by_112(kh_memory *memory, uint8_t *rings, const uint8_t *grants, size_t grants_bytes,
                            uint64_t *answer) {
    static uint8_t moved[KH_RINGS_BYTES];
    uint32_t number;
    memcpy(moved, rings, sizeof moved);
    move_slots(moved, KH_SLOT32_BYTES, rings, KH_SLOT_BYTES);
    number = __real_kh_turn(memory, moved, sizeof moved, grants, grants_bytes, answer);
    for (uint64_t port = 0; port < KH_PORTS; port++)
        memcpy(share_of(rings, port), share_of(moved, port), abis[port] == KH_BITS32 ? KH_HEADER_BYTES : KH_RING_BYTES);
    move_slots(rings, KH_SLOT_BYTES, moved, KH_SLOT32_BYTES);
    return number;
}

/* What the library would answer, if every disk had 512-byte sectors where 29 is judged here. */
static uint32_t try_turn(const kh_memory *memory, const uint8_t *rings, const uint8_t *grants, size_t grants_bytes,
                         uint64_t *answer) {
    static kh_memory tried;
    static uint8_t copy[KH_RINGS_BYTES];
    tried = *memory;
    memcpy(copy, rings, sizeof copy);
    for (uint64_t port = 0; is_29_judged_here() && port < KH_PORTS; port++)
        words_of_port(&tried, port)[SECTOR_SIZE] = 0;
    return __real_kh_turn(&tried, copy, sizeof copy, grants, grants_bytes, answer);
}

/* The slot that a port takes its next request from. */
static uint8_t *next_slot(kh_memory *memory, uint8_t *rings, uint64_t port) {
    return slot_of(rings, port, (uint32_t)words_of_port(memory, port)[CONSUMED]);
}

/* Where a slot of that port has its start; what it has of segments or of a discard's count lies behind. */
static unsigned start_in(uint64_t port) {
    return abis[port] == KH_BITS32 ? 12 : 16;
}

/* A turn with 29 judged here. Where it is due, the library finds a start past any end, and its 28 is said as 29. */
static uint32_t turn_by_own_29(kh_memory *memory, uint8_t *rings, const uint8_t *grants, size_t grants_bytes,
                               uint64_t *answer) {
    uint64_t seen[KH_TURN_WORDS], port, *kept, size;
    uint8_t *slot, *start_at, start[8];
    uint32_t number;
    bool refused;
    if (try_turn(memory, rings, grants, grants_bytes, seen) != KH_OK || !is_29_next(seen))
        return __real_kh_turn(memory, rings, KH_RINGS_BYTES, grants, grants_bytes, answer);
    port = seen[KH_TURN_PORT];
    kept = words_of_port(memory, port);
    size = kept[SECTOR_SIZE];
    slot = next_slot(memory, rings, port);
    start_at = slot + start_in(port);
    memcpy(start, start_at, sizeof start);
    refused = is_29(slot, start_at, 1U << size);
    if (refused)
        memset(start_at, 0xFF, sizeof start);
    kept[SECTOR_SIZE] = 0;
    number = __real_kh_turn(memory, rings, KH_RINGS_BYTES, grants, grants_bytes, answer);
    kept[SECTOR_SIZE] = size;
    memcpy(start_at, start, sizeof start);
    if (refused)
        answer[KH_TURN_REASON] = KH_UNALIGNED;
    return number;
}

/* A turn over a discard whose flag is ignored, with its disk, or its count of 0, taken for another. */
static uint32_t turn_over_ignored(kh_memory *memory, uint8_t *rings, const uint8_t *grants, size_t grants_bytes,
                                  const uint64_t *seen, uint64_t *answer) {
    uint64_t port = seen[KH_TURN_PORT], *kept = words_of_port(memory, port);
    uint64_t was[CONSUMED]; /* the words of the disk */
    uint8_t *count_at = next_slot(memory, rings, port) + start_in(port) + 8;
    bool is_filled = wrong("23_skips_25") && seen[KH_TURN_REASON] == KH_WRONG_AMOUNT;
    memcpy(was, kept, sizeof was);
    change_disk(kept, seen[KH_TURN_KIND] == KH_STARTED);
    count_at[0] |= is_filled ? 8 : 0;
    __real_kh_turn(memory, rings, KH_RINGS_BYTES, grants, grants_bytes, answer);
    count_at[0] ^= is_filled ? 8 : 0;
    memcpy(kept, was, sizeof was);
    if (is_filled)
        answer[KH_TURN_COUNT] = 0;
    if (answer[KH_TURN_REASON] == KH_FEATURE_OFF && kept[DISCARD] == 1)
        answer[KH_TURN_REASON] = 23;
    if (wrong("23_refused_as_not_supported") && answer[KH_TURN_STATUS] == 1) {
        answer[KH_TURN_STATUS] = 2;
        last_response(rings, port)[10] = 0xFE;
    }
    return KH_OK;
}

/* A turn with the flag judged here. */
static uint32_t turn_by_own_flag(kh_memory *memory, uint8_t *rings, const uint8_t *grants, size_t grants_bytes,
                                 uint64_t *answer) {
    uint64_t seen[KH_TURN_WORDS], port;
    uint32_t number = try_turn(memory, rings, grants, grants_bytes, seen);
    const uint8_t *slot;
    if (number != KH_OK || seen[KH_TURN_KIND] == KH_IDLE || seen[KH_TURN_KIND] == KH_OVERRUN)
        return __real_kh_turn(memory, rings, KH_RINGS_BYTES, grants, grants_bytes, answer);
    port = seen[KH_TURN_PORT];
    slot = next_slot(memory, rings, port);
    if (is_flag_ignored(slot, words_of_port(memory, port)))
        number = turn_over_ignored(memory, rings, grants, grants_bytes, seen, answer);
    else
        number = __real_kh_turn(memory, rings, KH_RINGS_BYTES, grants, grants_bytes, answer);
    if (answer[KH_TURN_KIND] == KH_STARTED)
        answer[KH_TURN_SECURE] =
            is_marked(slot, words_of_port(memory, wrong("23_mark_by_port_0") ? 0 : port)[SECURE] == 1);
    return number;
}

/* A sheet whose protocol is the one that the port was opened with before. */
static const uint8_t *with_old_layout(uint32_t port, const uint8_t *sheet, size_t sheet_bytes) {
    static uint8_t changed[256];
    if (port >= KH_PORTS || sheet_bytes < 10 || sheet_bytes > sizeof changed)
        return sheet;
    memcpy(changed, sheet, sheet_bytes);
    for (size_t at = 0; at + 10 <= sheet_bytes; at++)
        if (memcmp(changed + at, "x86_", 4) == 0)
            memcpy(changed + at, abis[port] == KH_BITS32 ? "x86_32" : "x86_64", 6);
    return changed;
}

/* ---- the calls */

/* What the port is taken to have been opened for, where it was. */
static void note_opening(kh_memory *memory, uint32_t port, const uint8_t *sheet, size_t sheet_bytes) {
    if (wrong("pages_kept") && pages_of(port) == 2)
        words_of_port(memory, port)[PAGES] = SECOND_PAGE;
    abis[port] = kh_read_abi(sheet, sheet_bytes);
    orders[port] = kh_read_pages(sheet, sheet_bytes) - 1;
}

uint32_t __wrap_kh_open(kh_memory *memory, uint32_t port, const uint8_t *sheet, size_t sheet_bytes) {
    const uint8_t *seen = sheet;
    uint32_t number;
    peek("before_sheet", "after_sheet", sheet, sheet_bytes);
    peek("before_memory", "after_memory", memory, sizeof(kh_memory));
    if (wrong("layout_kept"))
        seen = with_old_layout(port, sheet, sheet_bytes);
    if (wrong("node_9_ignored"))
        seen = with_one_page(sheet, sheet_bytes);
    number = __real_kh_open(memory, port, seen, sheet_bytes);
    if (number == KH_OK)
        note_opening(memory, port, sheet, sheet_bytes);
    if (wrong("open_13_for_14") && number == 14)
        return 13;
    if (wrong("no_32_bit_guests") && number == KH_OK && abis[port] == KH_BITS32)
        return 13;
    if (wrong("no_two_pages") && number == KH_OK && pages_of(port) == 2)
        return 14;
    if (wrong("refused_open_writes") && number != KH_OK)
        memory->words[KH_MEMORY_WORDS - 1] ^= 1;
    return number;
}

uint32_t __wrap_kh_close(kh_memory *memory, uint32_t port) {
    uint32_t number = __real_kh_close(memory, port);
    if (wrong("refused_close_writes") && number != KH_OK)
        memory->words[0] ^= 1;
    if (wrong("close_keeps_pages") && number == KH_OK)
        words_of_port(memory, port)[PAGES] = SECOND_PAGE * orders[port];
    if (wrong("close_keeps_last_tag") && number == KH_OK)
        words_of_tag(memory, port, KH_TAGS - 1)[TAG_SERIAL] = orders[port];
    return number;
}

static void spoil_turn(kh_memory *memory, uint8_t *rings, uint64_t *answer) {
    touch_second_halves(memory, rings);
    if (wrong("idle_touches_closed_port") && answer[KH_TURN_KIND] == KH_IDLE)
        rings[3 * KH_RING_BYTES + KH_REQ_EVENT] ^= 1;
    if (wrong("padding_left") && answer[KH_TURN_KIND] == KH_ANSWERED)
        last_response(rings, answer[KH_TURN_PORT])[KH_RESPONSE32_BYTES] ^= 1;
    if (wrong("answered_as_64_bit") && answer[KH_TURN_KIND] == KH_ANSWERED)
        pad_response(rings, answer[KH_TURN_PORT]);
    if (wrong("never_notify"))
        answer[KH_TURN_NOTIFY] = 0;
    if (wrong("always_notify") && answer[KH_TURN_KIND] == KH_ANSWERED)
        answer[KH_TURN_NOTIFY] = 1;
    if (wrong("spare_word"))
        answer[KH_TURN_WORDS - 1] = 1;
    if (wrong("last_extent") && answer[KH_TURN_EXTENT_COUNT] == KH_EXTENTS)
        answer[KH_TURN_EXTENTS + KH_EXTENT_WORDS * (KH_EXTENTS - 1) + KH_EXTENT_SECTOR]++;
    if (wrong("reason_28_for_29") && answer[KH_TURN_REASON] == KH_UNALIGNED)
        answer[KH_TURN_REASON] = KH_PAST_END;
    if (wrong("never_secure"))
        answer[KH_TURN_SECURE] = 0;
}

/* The turn of a library with another way to read the rings, or a request. */
static uint32_t turn_wrongly(kh_memory *memory, uint8_t *rings, const uint8_t *grants, size_t grants_bytes,
                             uint64_t *answer) {
    if (wrong("slots_by_112"))
        return turn_by_112(memory, rings, grants, grants_bytes, answer);
    if (wrong("line_at_32_on_two_pages") || wrong("line_at_64_on_one_page"))
        return turn_by_other_line(memory, rings, grants, grants_bytes, answer);
    if (wrong("slots_by_32") || wrong("slots_by_64"))
        return turn_by_other_slots(memory, rings, grants, grants_bytes, answer);
    if (wrong("shares_of_4096"))
        return turn_by_pages(memory, rings, grants, grants_bytes, answer);
    if (is_29_judged_here())
        return turn_by_own_29(memory, rings, grants, grants_bytes, answer);
    if (is_23_judged_here())
        return turn_by_own_flag(memory, rings, grants, grants_bytes, answer);
    return __real_kh_turn(memory, rings, KH_RINGS_BYTES, grants, grants_bytes, answer);
}

uint32_t __wrap_kh_turn(kh_memory *memory, uint8_t *rings, size_t rings_bytes, const uint8_t *grants,
                        size_t grants_bytes, uint64_t *answer) {
    uint32_t number;
    peek("before_rings", "after_rings", rings, rings_bytes);
    peek("before_grants", "after_grants", grants, grants_bytes);
    peek("before_turned", "after_turned", answer, 8 * KH_TURN_WORDS);
    if (wrong("rings_of_32768") && rings_bytes == KH_PORTS * KH_PAGE_BYTES && grants_bytes == KH_GRANTS_BYTES)
        return KH_OK;
    if (rings_bytes == KH_RINGS_BYTES)
        number = turn_wrongly(memory, rings, grants, grants_bytes, answer);
    else
        number = __real_kh_turn(memory, rings, rings_bytes, grants, grants_bytes, answer);
    if (wrong("refused_turn_writes") && number != KH_OK)
        answer[KH_TURN_KIND] = 0;
    if (number == KH_OK)
        spoil_turn(memory, rings, answer);
    return number;
}

/* A completion by a library that has tags for two pages on every port. */
static uint32_t complete_by_64_tags(kh_memory *memory, uint8_t *rings, size_t rings_bytes, uint32_t port, uint32_t tag,
                                    uint32_t serial, int32_t result, uint64_t *answer) {
    uint64_t *kept = words_of_port(memory, port);
    uint32_t number;
    kept[PAGES] = SECOND_PAGE;
    number = __real_kh_complete(memory, rings, rings_bytes, port, tag, serial, result, answer);
    kept[PAGES] = 0;
    return number;
}

static bool is_response_misplaced(void) {
    return wrong("responses_by_32") || wrong("responses_by_64");
}

static void spoil_completion(uint8_t *rings, const uint8_t *before, uint32_t port) {
    if (wrong("rest_of_slot"))
        last_response(rings, port)[kh_response_bytes(abis[port])] ^= 1;
    if (wrong("completed_as_64_bit"))
        pad_response(rings, port);
    if (is_response_misplaced())
        misplace_response(rings, before, port);
}

uint32_t __wrap_kh_complete(kh_memory *memory, uint8_t *rings, size_t rings_bytes, uint32_t port, uint32_t tag,
                            uint32_t serial, int32_t result, uint64_t *answer) {
    static uint8_t before[KH_RINGS_BYTES];
    bool is_upper = port < KH_PORTS && tag >= KH_PAGE_SLOTS && tag < KH_TAGS;
    uint32_t number;
    peek("before_done", "after_done", answer, 8 * KH_DONE_WORDS);
    if (is_response_misplaced() && rings_bytes == KH_RINGS_BYTES)
        memcpy(before, rings, sizeof before);
    if (wrong("serial_of_31_bits"))
        serial &= INT32_MAX;
    if (wrong("short_count_is_okay") && result == 7)
        result = 8;
    if (wrong("tags_above_31_refused") && is_upper && pages_of(port) == 2)
        return KH_NOT_BUSY;
    if (wrong("tags_to_63_on_one_page") && is_upper && pages_of(port) == 1)
        number = complete_by_64_tags(memory, rings, rings_bytes, port, tag, serial, result, answer);
    else
        number = __real_kh_complete(memory, rings, rings_bytes, port, tag, serial, result, answer);
    if (wrong("refused_complete_writes") && number != KH_OK)
        answer[KH_DONE_PORT] = 0;
    if (number == KH_OK)
        spoil_completion(rings, before, port);
    return number;
}

uint32_t __wrap_kh_complete_many(kh_memory *memory, uint8_t *rings, size_t rings_bytes, uint32_t port,
                                 const uint64_t *entries, size_t entry_words, uint64_t *answer) {
    if (entry_words > 0 && entry_words <= KH_ENTRY_WORDS * KH_ENTRIES)
        peek("before_entries", "after_entries", entries, sizeof *entries * entry_words);
    peek("before_listed", "after_listed", answer, 8 * KH_MANY_WORDS);
    if (wrong("stores_to_entries") && entry_words == KH_ENTRY_WORDS)
        *(volatile uint64_t *)(uintptr_t)entries = entries[0];
    if (are_lists_done_here())
        return complete_list_here(memory, rings, rings_bytes, port, entries, entry_words, answer);
    return __real_kh_complete_many(memory, rings, rings_bytes, port, entries, entry_words, answer);
}

/* ---- meters */

/* What a meter takes an answer's kind for. */
static uint64_t kind_seen(uint64_t kind) {
    if (wrong("overrun_is_taken") && kind == KH_OVERRUN)
        return KH_STARTED;
    if (wrong("idle_is_taken") && kind == KH_IDLE)
        return KH_STARTED;
    if (wrong("answered_as_started") && kind == KH_ANSWERED)
        return KH_STARTED;
    return wrong("kind_of_32_bits") ? (uint32_t)kind : kind;
}

static uint64_t status_seen(uint64_t status) {
    if (wrong("error_for_not_supported") && status == 2)
        return 1;
    if (wrong("any_other_status_is_error") && status > 2)
        return 1;
    return wrong("status_of_32_bits") ? (uint32_t)status : status;
}

static bool is_at_top(const kh_meter *meter) {
    return meter->taken == UINT64_MAX || meter->okay == UINT64_MAX || meter->error == UINT64_MAX ||
           meter->not_supported == UINT64_MAX;
}

/* Raises a meter with no regard to the top. */
static void raise_over_top(raise_meter *real, kh_meter *meter, uint32_t returned, const uint64_t *answer) {
    kh_meter by = {0, 0, 0, 0};
    real(&by, returned, answer);
    meter->taken += by.taken;
    meter->okay += by.okay;
    meter->error += by.error;
    meter->not_supported += by.not_supported;
}

/* `answer` is what was lent, and `seen` what is taken for it. */
static void spoil_meter(raise_meter *real, kh_meter *meter, uint32_t returned, const uint64_t *answer,
                        const uint64_t *seen) {
    volatile uint64_t *lent = (volatile uint64_t *)(uintptr_t)answer;
    peek("before_meter", "after_meter", meter, sizeof *meter);
    if (wrong("stores_to_answer"))
        lent[0] = lent[0];
    if (wrong("numbers_wrap"))
        raise_over_top(real, meter, returned, seen);
    else if (!wrong("numbers_stop_together") || !is_at_top(meter))
        real(meter, returned, seen);
}

void __wrap_kh_meter_turn(kh_meter *meter, uint32_t returned, const uint64_t *answer) {
    uint64_t seen[KH_TURN_WORDS];
    peek("before_metered_turn", "after_metered_turn", answer, sizeof seen);
    memcpy(seen, answer, sizeof seen);
    seen[KH_TURN_KIND] = kind_seen(answer[KH_TURN_KIND]);
    seen[KH_TURN_STATUS] = status_seen(answer[KH_TURN_STATUS]);
    if (wrong("refused_turn_counts"))
        returned = KH_OK;
    if (wrong("returned_of_8_bits"))
        returned &= UINT8_MAX;
    spoil_meter(__real_kh_meter_turn, meter, returned, answer, seen);
}

void __wrap_kh_meter_completion(kh_meter *meter, uint32_t returned, const uint64_t *answer) {
    uint64_t seen[KH_DONE_WORDS];
    peek("before_metered_done", "after_metered_done", answer, sizeof seen);
    memcpy(seen, answer, sizeof seen);
    seen[KH_DONE_STATUS] = status_seen(answer[KH_DONE_STATUS]);
    if (wrong("refused_completion_counts"))
        returned = KH_OK;
    spoil_meter(__real_kh_meter_completion, meter, returned, answer, seen);
}

void __wrap_kh_meter_many(kh_meter *meter, uint32_t returned, const uint64_t *answer) {
    volatile uint64_t *lent = (volatile uint64_t *)(uintptr_t)answer;
    peek("before_metered_list", "after_metered_list", answer, 8 * KH_MANY_WORDS);
    if (wrong("many_meter_stores_to_answer"))
        lent[0] = lent[0];
    if (wrong("many_meter_wraps"))
        raise_over_top(__real_kh_meter_many, meter, returned, answer);
    else if (are_lists_done_here())
        meter_list_here(meter, returned, answer);
    else
        __real_kh_meter_many(meter, returned, answer);
}
