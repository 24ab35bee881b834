/*
 * The vectors of tests/vectors, each line of them: what is given goes through the library, and what came of it, in the
 * words of its file, is what is due there. Lines that name no layout are run in both, and those that name no number of
 * pages with rings of one and of two.
 */
#include "joining.h"

#include <inttypes.h>
#include <stdarg.h>

#include "port_words.h"

/* ---- the files */

enum { LINE_BYTES = 1024 };

typedef struct {
    char at[LINE_BYTES];
    size_t length;
} text;

__attribute__((format(printf, 2, 3))) static void say(text *came, const char *format, ...) {
    va_list values;
    va_start(values, format);
    came->length += (size_t)vsnprintf(came->at + came->length, sizeof came->at - came->length, format, values);
    va_end(values);
    CHECK(came->length < sizeof came->at);
}

/* Says what came of the case that is given; false where it can't be read. */
typedef bool runner(host *h, const char *given, text *came);

/* A line is GIVEN = DUE; a star before it is for another reader. */
static void run_line(host *h, char *line, runner *run) {
    text came = {"", 0};
    char *due = strstr(line, " = ");
    CHECK(due != NULL);
    if (due == NULL)
        return;
    *due = '\0';
    due += 3;
    CHECK(run(h, line + (line[0] == '*' ? 2 : 0), &came));
    if (strcmp(came.at, due) != 0) {
        report(__FILE__, __LINE__, line);
        printf(": is %s, not %s\n", came.at, due);
    }
}

/* Runs every line of a file but blank ones and comments; the number of them. */
static unsigned run_file(host *h, const char *path, runner *run) {
    char line[LINE_BYTES];
    unsigned cases = 0;
    FILE *file = fopen(path, "r");
    CHECK(file != NULL);
    while (file != NULL && fgets(line, sizeof line, file) != NULL) {
        size_t length = strcspn(line, "\n");
        CHECK(line[length] == '\n');
        line[length] = '\0';
        if (line[0] == '\0' || line[0] == '#')
            continue;
        reset(h);
        run_line(h, line, run);
        cases++;
    }
    if (file != NULL)
        fclose(file);
    CHECK(cases > 0);
    return cases;
}

/* Once for both places of the buffers, and for all shapes. */
__attribute__((format(printf, 2, 3))) static void print_count(const host *h, const char *format, ...) {
    va_list values;
    va_start(values, format);
    if (placement != BEFORE_GUARD && h->ring.abi == KH_BITS64 && h->ring.pages == 1)
        vprintf(format, values);
    va_end(values);
}

/* What is given behind so many numbers; NULL where there are not so many. */
static const char *read_some(const char *given, uint64_t *numbers, size_t count) {
    char *end;
    for (size_t i = 0; i < count; i++, given = end) {
        numbers[i] = strtoull(given, &end, 10);
        if (end == given)
            return NULL;
    }
    return given;
}

/* So many numbers and nothing else. */
static bool read_numbers(const char *given, uint64_t *numbers, size_t count) {
    given = read_some(given, numbers, count);
    return given != NULL && *given == '\0';
}

/* ---- sheets */

static uint64_t *port_words(const host *h, uint32_t port) {
    return words_of_port(memory_of(h), port);
}

enum { LONGEST_SHEET = 5 + 65535 };

/* Bytes in hex, BYTE*N for a byte N times. */
static bool read_bytes(const char *given, uint8_t *bytes, size_t *count) {
    char *end;
    for (*count = 0; *given != '\0'; given = end) {
        unsigned long byte = strtoul(given, &end, 16), times = 1;
        if (end == given || byte > 255)
            return false;
        if (*end == '*')
            times = strtoul(end + 1, &end, 10);
        if (times > LONGEST_SHEET - *count)
            return false;
        memset(bytes + *count, (int)byte, times);
        *count += times;
    }
    return true;
}

static void say_features(const host *h, text *came) {
    static const char *const names[] = {"barrier", "flush", "discard", "secure"};
    for (unsigned i = 0; i < COUNT_OF(names); i++)
        if (port_words(h, 0)[BARRIER + i] != 0)
            say(came, "%s ", names[i]);
}

static unsigned sector_size(const host *h) {
    return 512U << port_words(h, 0)[SECTOR_SIZE] % 4;
}

/* NAME: BYTES */
static bool run_sheet(host *h, const char *given, text *came) {
    static uint8_t bytes[LONGEST_SHEET];
    const char *colon = strchr(given, ':');
    size_t count;
    uint32_t number;
    if (colon == NULL || !read_bytes(colon + 1, bytes, &count))
        return false;
    number = OPEN(h, 0, bytes, count);
    if (number != KH_OK) {
        say(came, "refused %" PRIu32, number);
        return true;
    }
    say(came, "%s", port_words(h, 0)[WRITABLE] != 0 ? "writable " : "");
    say_features(h, came);
    say(came, "%s", port_words(h, 0)[LAYOUT] == KH_BITS32 ? "32-bit " : "");
    say(came, "%s", port_words(h, 0)[PAGES] == SECOND_PAGE ? "two-page " : "");
    say(came, "sector %u sectors %" PRIu64, sector_size(h), port_words(h, 0)[SECTORS]);
    return true;
}

static void sheet_vectors(host *h) {
    print_count(h, "     %u sheets\n", run_file(h, "tests/vectors/sheets.txt", run_sheet));
}

/* ---- requests */

/* A segment, and the grant byte of its frame. */
typedef struct {
    uint64_t frame, first, last, right;
} place;

/* What a line gives. */
typedef struct {
    uint64_t writable, barrier, flush, discard, secure, sector_size, sectors;
    uint64_t operation, n, start, count; /* a discard's count */
    place places[KH_EXTENTS];
} numbers;

enum { HEAD = offsetof(numbers, places) / sizeof(uint64_t), PLACE = sizeof(place) / sizeof(uint64_t) };

static void set_places(numbers *is, place all) {
    for (int i = 0; i < KH_EXTENTS; i++)
        is->places[i] = all;
}

/* A turn over the request on port 0, and its completion where it starts. */
static void serve_next(host *h) {
    CHECK_EQ(TURN(h), KH_OK);
    if (words(h, TURNED)[KH_TURN_KIND] == KH_STARTED)
        CHECK_EQ(FINISH(h), KH_OK);
}

/* The same on an empty backend, which is opened and posted to before. */
static void serve(host *h, const numbers *is, uint64_t id) {
    request r = transfer((uint8_t)is->operation, (uint8_t)is->n, is->start);
    char nodes[128];
    snprintf(
        nodes, sizeof nodes, "1:%c 2:%" PRIu64 " 3:%" PRIu64 " 4:%" PRIu64 " 5:%" PRIu64 " 6:%" PRIu64 " 7:%" PRIu64,
        is->writable != 0 ? 'w' : 'r', is->barrier, is->flush, is->discard, is->secure, is->sector_size, is->sectors);
    BEGIN(h, nodes);
    memset(h->at[GRANTS], KH_GRANT_NONE, KH_GRANTS_BYTES);
    for (int i = 0; i < KH_EXTENTS; i++) {
        const place *at = &is->places[i];
        r.segments[i] = (segment){(uint32_t)at->frame, (uint8_t)at->first, (uint8_t)at->last};
        if (at->frame < KH_PORT_GRANTS)
            grant(h, 0, (uint32_t)at->frame, (uint8_t)at->right);
    }
    r.sectors = is->count;
    post(h, 0, r);
    put(slot_of(h, 0, 0) + layout_of(h, 0)->id, 8, id);
    serve_next(h);
}

static void say_plan(const uint64_t *answer, text *came) {
    kh_plan plan = kh_read_plan(answer);
    say(came, "start %" PRIu32 " %" PRIu64 " %" PRIu64 " %d %" PRIu32, plan.operation, plan.start, plan.count,
        plan.secure, plan.extent_count);
    for (uint32_t i = 0; i < plan.extent_count && i < KH_EXTENTS; i++)
        say(came, " | %" PRIu32 " %" PRIu32 " %" PRIu32 " %" PRIu64, plan.extents[i].frame, plan.extents[i].first,
            plan.extents[i].length, plan.extents[i].sector);
}

/* What the turn says of the request. */
static void say_turn(const host *h, text *came) {
    kh_turned turned = kh_read_turn(words(h, TURNED));
    if (turned.kind == KH_STARTED)
        say_plan(words(h, TURNED), came);
    else
        say(came, "refused %" PRIu32 " %" PRId32, turned.reason, turned.status);
}

static uint64_t cases_before; /* of this file */

/* The id is read off the response. */
static void serve_case(host *h, const numbers *is, text *came) {
    serve(h, is, ++cases_before);
    say(came, "%" PRIu64 " ", get(slot_of(h, 0, 0), 8));
    say_turn(h, came);
}

/* One segment for all places, and the count last. */
static bool run_request(host *h, const char *given, text *came) {
    struct {
        uint64_t head[HEAD - 1];
        place all;
        uint64_t count;
    } line;
    numbers is;
    if (!read_numbers(given, (uint64_t *)&line, sizeof line / sizeof(uint64_t)))
        return false;
    memcpy(&is, line.head, sizeof line.head);
    set_places(&is, line.all);
    is.count = line.count;
    serve_case(h, &is, came);
    return true;
}

/* Each segment behind a bar; in the places behind them every byte is EE. */
static bool run_segments(host *h, const char *given, text *came) {
    numbers is;
    set_places(&is, (place){0xEEEEEEEE, 0xEE, 0xEE, KH_GRANT_NONE});
    given = read_some(given, (uint64_t *)&is, HEAD);
    for (int i = 0; i < KH_EXTENTS && given != NULL && strncmp(given, " |", 2) == 0; i++)
        given = read_some(given + 2, (uint64_t *)&is.places[i], PLACE);
    if (given == NULL || *given != '\0')
        return false;
    serve_case(h, &is, came);
    return true;
}

static void request_vectors(host *h) {
    cases_before = 0;
    print_count(h, "     %u requests\n", run_file(h, "tests/vectors/requests.txt", run_request));
}

static void segment_vectors(host *h) {
    cases_before = 0;
    print_count(h, "     %u requests by their segments\n", run_file(h, "tests/vectors/segments.txt", run_segments));
}

/* ---- records */

/* The layout of so many bits; NULL where there is none. */
static const layout *layout_of_bits(unsigned long bits) {
    return bits == 64 ? &layouts[KH_BITS64] : bits == 32 ? &layouts[KH_BITS32] : NULL;
}

/* Opens a port with these nodes for a ring of that layout and so many pages. */
static void open_as(host *h, uint32_t port, const char *nodes, const layout *l, uint32_t pages) {
    sheet s = sheet_for((shape){(enum kh_abi)(l - layouts), pages}, nodes);
    CHECK_EQ(OPEN(h, port, s.bytes, s.length), KH_OK);
}

/* The response in a port's first slot. */
static void say_response(const host *h, uint32_t port, text *came) {
    for (unsigned i = 0; i < layout_of(h, port)->response; i++)
        say(came, "%s%02X", i == 0 ? "" : " ", slot_of(h, port, 0)[i]);
}

/* BITS: BYTES */
static bool run_record(host *h, const char *given, text *came) {
    static uint8_t bytes[LONGEST_SHEET];
    char *end;
    const layout *l = layout_of_bits(strtoul(given, &end, 10));
    size_t count;
    if (l == NULL || *end != ':' || !read_bytes(end + 1, bytes, &count) || count != l->slot)
        return false;
    open_as(h, 0, "1:w 2:1 3:1 4:1 5:1 6:512 7:18446744073709551615", l, h->ring.pages);
    memset(h->at[GRANTS], KH_GRANT_READ_WRITE, KH_GRANTS_BYTES);
    memcpy(slot_of(h, 0, 0), bytes, count);
    set_index(h, 0, KH_REQ_PROD, 1);
    serve_next(h);
    say_turn(h, came);
    say(came, " : ");
    say_response(h, 0, came);
    return true;
}

static void record_vectors(host *h) {
    print_count(h, "     %u records\n", run_file(h, "tests/vectors/records.txt", run_record));
}

/* ---- the rules' worked cases */

/* BYTES = MODE SECTOR-SIZE SECTORS */
static bool run_worked_sheet(host *h, const char *given, text *came) {
    static uint8_t bytes[LONGEST_SHEET];
    size_t count;
    if (!read_bytes(given, bytes, &count))
        return false;
    CHECK_EQ(OPEN(h, 0, bytes, count), KH_OK);
    say(came, "%s ", port_words(h, 0)[WRITABLE] != 0 ? "w" : "r");
    say_features(h, came);
    say(came, "%u %" PRIu64, sector_size(h), port_words(h, 0)[SECTORS]);
    return true;
}

/* The mode of a disk with every feature, and so many numbers. */
static bool read_worked(const char *given, numbers *is, uint64_t *n, size_t count) {
    *is = (numbers){.writable = given[0] == 'w', .barrier = 1, .flush = 1, .discard = 1, .secure = 1};
    return strchr("rw", given[0]) != NULL && read_numbers(given + 1, n, count);
}

/* start COUNT, with `secure` behind it where it is, or the reason */
static void serve_worked(host *h, const numbers *is, text *came) {
    const uint64_t *answer = words(h, TURNED);
    serve(h, is, FIRST_ID);
    if (answer[KH_TURN_KIND] == KH_STARTED)
        say(came, "start %" PRIu64 "%s", answer[KH_TURN_COUNT], answer[KH_TURN_SECURE] != 0 ? " secure" : "");
    else
        say(came, "%" PRIu64, answer[KH_TURN_REASON]);
}

/* MODE SECTOR-SIZE SECTORS GRANT OPERATION N START FIRST LAST */
static bool run_worked_request(host *h, const char *given, text *came) {
    numbers is;
    uint64_t n[8];
    if (!read_worked(given, &is, n, COUNT_OF(n)))
        return false;
    is.sector_size = n[0], is.sectors = n[1], is.operation = n[3], is.n = n[4], is.start = n[5];
    set_places(&is, (place){5, n[6], n[7], n[2]});
    serve_worked(h, &is, came);
    return true;
}

/* MODE DISCARD-SECURE SECTOR-SIZE SECTORS FLAG START COUNT */
static bool run_worked_discard(host *h, const char *given, text *came) {
    numbers is;
    uint64_t n[6];
    if (!read_worked(given, &is, n, COUNT_OF(n)))
        return false;
    is.secure = n[0], is.sector_size = n[1], is.sectors = n[2];
    is.operation = KH_DISCARD, is.n = n[3], is.start = n[4], is.count = n[5];
    serve_worked(h, &is, came);
    return true;
}

/* Puts C and R of a port into its words, with the lowest tags busy. */
static void set_indices(host *h, uint32_t port, uint32_t taken, uint32_t answered) {
    uint32_t in_flight = taken - answered;
    uint64_t busy = in_flight < KH_TAGS ? (UINT64_C(1) << in_flight) - 1 : UINT64_MAX;
    port_words(h, port)[CONSUMED] = h->books[port].taken = taken;
    port_words(h, port)[PRODUCED] = h->books[port].answered = answered;
    port_words(h, port)[BUSY] = h->books[port].busy = busy;
}

/* PAGES C R REQ_PROD = waits SLOT, overrun or nothing. On port 3; each slot asks for the sector of its number. */
static bool run_index(host *h, const char *given, text *came) {
    enum { PORT = 3 };
    uint64_t n[4];
    if (!read_numbers(given, n, COUNT_OF(n)))
        return false;
    open_as(h, PORT, USUAL_NODES, &layouts[h->ring.abi], (uint32_t)n[0]);
    for (unsigned slot = 0; slot < slots_of(h, PORT); slot++)
        post(h, PORT, transfer(KH_READ, 1, slot));
    set_index(h, PORT, KH_REQ_PROD, (uint32_t)n[3]);
    set_indices(h, PORT, (uint32_t)n[1], (uint32_t)n[2]);
    CHECK_EQ(TURN(h), KH_OK);
    if (words(h, TURNED)[KH_TURN_KIND] == KH_STARTED)
        say(came, "waits %" PRIu64, words(h, TURNED)[KH_TURN_START]);
    else
        say(came, "%s", words(h, TURNED)[KH_TURN_KIND] == KH_OVERRUN ? "overrun" : "nothing");
    return true;
}

/* Where these bytes stand in a port's share, which has them nowhere else. */
static unsigned find_in_share(const host *h, uint32_t port, const uint8_t *bytes, unsigned count) {
    unsigned at = 0, found = KH_RING_BYTES;
    for (; at + count <= KH_RING_BYTES; at++)
        if (memcmp(ring(h, port) + at, bytes, count) == 0) {
            CHECK_EQ(found, KH_RING_BYTES);
            found = at;
        }
    return found;
}

/* BITS PAGES INDEX = AT. On port 6, with both indices there: where the response to its next request is. */
static bool run_place(host *h, const char *given, text *came) {
    enum { PORT = 6 };
    uint64_t n[3];
    uint8_t id[8];
    if (!read_numbers(given, n, COUNT_OF(n)) || layout_of_bits(n[0]) == NULL)
        return false;
    open_as(h, PORT, USUAL_NODES, layout_of_bits(n[0]), (uint32_t)n[1]);
    memset(ring(h, PORT), 0xEE, KH_RING_BYTES);
    set_indices(h, PORT, (uint32_t)n[2], (uint32_t)n[2]);
    set_index(h, PORT, KH_REQ_PROD, (uint32_t)n[2]);
    post(h, PORT, transfer(KH_WRITE, 1, 7));
    CHECK_EQ(SERVE(h, PORT), KH_STARTED);
    CHECK_EQ(words(h, TURNED)[KH_TURN_START], 7);
    memset(slot_of(h, PORT, (uint32_t)n[2]), 0xEE, layout_of(h, PORT)->slot);
    CHECK_EQ(FINISH(h), KH_OK);
    put(id, sizeof id, FIRST_ID + n[2]);
    say(came, "%u", find_in_share(h, PORT, id, sizeof id));
    return true;
}

static void say_list(const host *h, text *came) {
    kh_completed_many completed = kh_read_many(words(h, LISTED));
    say(came, "done");
    for (uint32_t i = 0; i < completed.count && i < KH_ENTRIES; i++)
        say(came, " %" PRId32, completed.statuses[i]);
    say(came, "%s", completed.notify ? " notify" : "");
}

/* PAGES FIRST STARTED RSP_EVENT | TAG SERIAL RESULT .. = what is due. On port 5. */
static bool run_list(host *h, const char *given, text *came) {
    enum { PORT = 5 };
    uint64_t n[4];
    list l = {.count = 0};
    uint32_t number;
    given = read_some(given, n, COUNT_OF(n));
    for (; given != NULL && strncmp(given, " |", 2) == 0; l.count++)
        given = read_some(given + 2, entry_of(&l, l.count), KH_ENTRY_WORDS);
    if (given == NULL || *given != '\0')
        return false;
    open_as(h, PORT, USUAL_NODES, &layouts[h->ring.abi], (uint32_t)n[0]);
    set_indices(h, PORT, (uint32_t)n[1], (uint32_t)n[1]);
    set_index(h, PORT, KH_REQ_PROD, (uint32_t)n[1]);
    for (uint64_t i = 0; i < n[2]; i++) {
        post(h, PORT, transfer(KH_READ, 1, i));
        CHECK_EQ(SERVE(h, PORT), KH_STARTED);
    }
    set_index(h, PORT, KH_RSP_EVENT, (uint32_t)n[3]);
    number = COMPLETE_LIST(h, PORT, &l);
    if (number == KH_OK)
        say_list(h, came);
    else
        say(came, "refused %" PRIu32, number);
    return true;
}

static void list_vectors(host *h) {
    print_count(h, "     %u lists of completions\n", run_file(h, "tests/vectors/lists.txt", run_list));
}

/* One place of a plan and its machine frame; what is given behind it, or NULL. */
static const char *read_place(const char *given, joint *j, size_t i) {
    uint64_t n[4];
    given = i < MOST_PLACES ? read_some(given, n, COUNT_OF(n)) : NULL;
    if (given != NULL) {
        set_extent(j, i, n[0], n[1], n[2]);
        j->extents[KH_EXTENT_WORDS * i + KH_EXTENT_FRAME] = ~n[3];
        j->frames[i] = n[3];
    }
    return given;
}

/* PIECES FRAMES RECORDS | FIRST LENGTH SECTOR MACHINE .. = what is due */
static bool run_join(host *h, const char *given, text *came) {
    static joint j;
    uint64_t n[3];
    uint32_t number;
    (void)h;
    given = read_some(given, n, COUNT_OF(n));
    for (j.extent_words = 0; given != NULL && strncmp(given, " |", 2) == 0; j.extent_words += KH_EXTENT_WORDS)
        given = read_place(given + 2, &j, j.extent_words / KH_EXTENT_WORDS);
    if (given == NULL || *given != '\0' || n[1] > MOST_PLACES || n[2] > MOST_PLACES)
        return false;
    j.pieces = n[0];
    j.frame_count = n[1];
    j.run_count = n[2];
    number = JOIN(&j);
    if (number != KH_OK) {
        say(came, "refused %" PRIu32, number);
        return true;
    }
    say(came, "done");
    for (const kh_run *run = joined_runs; run < joined_runs + joined && joined <= j.run_count; run++)
        say(came, " | %" PRIu64 " %" PRIu64 " %" PRIu64 " %" PRIu64, run->frame, run->first, run->length, run->sector);
    return true;
}

static void run_vectors(host *h) {
    print_count(h, "     %u joinings of extents\n", run_file(h, "tests/vectors/runs.txt", run_join));
}

/* EXPECTED RESULT = STATUS */
static bool run_result(host *h, const char *given, text *came) {
    request r = transfer(KH_READ, 1, 0);
    char *rest, *end;
    unsigned long expected = strtoul(given, &rest, 10);
    long result = strtol(rest, &end, 10);
    if (end == rest || *end != '\0' || expected < 1 || expected > KH_FRAME_SECTORS)
        return false;
    r.segments[0].last = (uint8_t)(expected - 1);
    BEGIN(h, USUAL_NODES);
    post(h, 0, r);
    CHECK_EQ(TURN(h), KH_OK);
    CHECK_EQ(words(h, TURNED)[KH_TURN_COUNT], expected);
    CHECK_EQ(COMPLETE(h, 0, 0, 0, (int32_t)result), KH_OK);
    say(came, "%" PRId32, kh_read_completion(words(h, COMPLETED)).status);
    return true;
}

/* BITS ID OPERATION STATUS = BYTES. On port 7: a request of that id and operation, completed with a result of that
 * status. */
static bool run_response(host *h, const char *given, text *came) {
    enum { PORT = 7 };
    static const int32_t results[] = {8, -5, KH_RESULT_NOT_SUPPORTED};
    char *rest;
    const layout *l = layout_of_bits(strtoul(given, &rest, 10));
    uint64_t id;
    uint8_t operation;
    int status, end = 0;
    if (l == NULL || sscanf(rest, "%" SCNx64 " %" SCNu8 " %d%n", &id, &operation, &status, &end) != 3)
        return false;
    if (rest[end] != '\0' || status > KH_OKAY || status < KH_NOT_SUPPORTED || operation > KH_BARRIER)
        return false;
    open_as(h, PORT, ALL_FEATURES, l, h->ring.pages);
    post(h, PORT, transfer(operation, 1, 0));
    put(slot_of(h, PORT, 0) + l->id, 8, id);
    CHECK_EQ(TURN(h), KH_OK);
    CHECK_EQ(COMPLETE(h, PORT, 0, 0, results[-status]), KH_OK);
    say_response(h, PORT, came);
    return true;
}

static struct {
    const char *word;
    runner *run;
    unsigned cases;
} kinds[] = {
    {"sheet ", run_worked_sheet, 0},
    {"request ", run_worked_request, 0},
    {"discard ", run_worked_discard, 0},
    {"index ", run_index, 0},
    {"place ", run_place, 0},
    {"result ", run_result, 0},
    {"response ", run_response, 0},
};

static bool run_worked(host *h, const char *given, text *came) {
    for (size_t i = 0; i < COUNT_OF(kinds); i++)
        if (strncmp(given, kinds[i].word, strlen(kinds[i].word)) == 0) {
            kinds[i].cases++;
            return kinds[i].run(h, given + strlen(kinds[i].word), came);
        }
    return false;
}

static void worked_cases(host *h) {
    for (size_t i = 0; i < COUNT_OF(kinds); i++)
        kinds[i].cases = 0;
    print_count(h, "     %u worked cases:", run_file(h, "tests/vectors/worked.txt", run_worked));
    for (size_t i = 0; i < COUNT_OF(kinds); i++) {
        CHECK(kinds[i].cases > 0);
        print_count(h, " %s%u%s", kinds[i].word, kinds[i].cases, i + 1 < COUNT_OF(kinds) ? "," : "\n");
    }
}

int main(void) {
    static const test named[] = {TEST(sheet_vectors), TEST(run_vectors)};
    static const test any_shape[] = {TEST(request_vectors), TEST(segment_vectors), TEST(record_vectors),
                                     TEST(list_vectors), TEST(worked_cases)};
    int failed = run_tests(named, COUNT_OF(named));
    return run_in_every_shape(any_shape, COUNT_OF(any_shape)) | failed;
}
