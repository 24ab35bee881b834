/* What a host can read of kernelharp_host.h: the lines of a trace, and the counters as text and as JSON. */
#include "trace.h"

#include <inttypes.h>
#include <stdarg.h>
#include <stdio.h>
#include <string.h>

/* ---- text */

struct text {
    char *at;
    size_t bytes;
    size_t length; /* of the whole; what has no room is left out */
};

__attribute__((format(printf, 2, 3))) static void add(struct text *text, const char *format, ...) {
    size_t left = text->length < text->bytes ? text->bytes - text->length : 0;
    va_list values;
    va_start(values, format);
    int length = vsnprintf(left > 0 ? text->at + text->length : NULL, left, format, values);
    va_end(values);
    text->length += length > 0 ? (size_t)length : 0;
}

/* ---- the trace, as replay reads it: at most 256 numbers to a line, of 20 digits at most */

enum { LINE_NUMBERS = 256, LINE_BYTES = 64 + 21 * LINE_NUMBERS, COPY_WORDS = KH_RING_BYTES / 4 };

struct line {
    char bytes[LINE_BYTES];
    struct text text;
};

static struct text *begin_line(struct line *line) {
    line->bytes[0] = '\0';
    line->text.at = line->bytes;
    line->text.bytes = sizeof line->bytes;
    line->text.length = 0;
    return &line->text;
}

/* A line of changed words, from this one on. Returns the first that it has no more. */
static uint32_t trace_words(const kh_host *host, uint32_t port, uint32_t at) {
    const uint32_t *now = host->copies[port], *before = host->traced[port];
    struct line line;
    struct text *text = begin_line(&line);
    uint32_t numbers = 2;
    add(text, "b %u %u", port, 4 * at);
    for (; at < COPY_WORDS && now[at] != before[at] && numbers + 4 <= LINE_NUMBERS; at++, numbers += 4)
        for (unsigned shift = 0; shift < 32; shift += 8)
            add(text, " %u", now[at] >> shift & 0xFF);
    host->trace(host->context, line.bytes);
    return at;
}

static void trace_ring(const kh_host *host, uint32_t port) {
    for (uint32_t at = 0; at < COPY_WORDS;)
        at = host->copies[port][at] == host->traced[port][at] ? at + 1 : trace_words(host, port, at);
}

/* The same of a port's grant bytes. */
static uint32_t trace_granted(const kh_host *host, uint32_t port, uint32_t frame) {
    const uint8_t *now = host->grants + KH_PORT_GRANTS * port, *before = host->traced_grants + KH_PORT_GRANTS * port;
    struct line line;
    struct text *text = begin_line(&line);
    uint32_t numbers = 2;
    add(text, "g %u %u", port, frame);
    for (; frame < KH_PORT_GRANTS && now[frame] != before[frame] && numbers < LINE_NUMBERS; frame++, numbers++)
        add(text, " %u", now[frame]);
    host->trace(host->context, line.bytes);
    return frame;
}

static void trace_grants(const kh_host *host, uint32_t port) {
    const uint8_t *now = host->grants + KH_PORT_GRANTS * port, *before = host->traced_grants + KH_PORT_GRANTS * port;
    for (uint32_t frame = 0; frame < KH_PORT_GRANTS;)
        frame = now[frame] == before[frame] ? frame + 1 : trace_granted(host, port, frame);
}

/* What changed since the call before, then this call. */
static void trace_call(const kh_host *host, const struct line *call) {
    for (uint32_t port = 0; port < KH_PORTS; port++)
        if (memcmp(host->copies[port], host->traced[port], KH_RING_BYTES) != 0)
            trace_ring(host, port);
    if (memcmp(host->grants, host->traced_grants, sizeof host->grants) != 0)
        for (uint32_t port = 0; port < KH_PORTS; port++)
            trace_grants(host, port);
    host->trace(host->context, call->bytes);
}

/* What the call itself changed, replay finds by itself. */
static void trace_answer(kh_host *host, const struct line *answer) {
    memcpy(host->traced, host->copies, sizeof host->traced);
    memcpy(host->traced_grants, host->grants, sizeof host->traced_grants);
    host->trace(host->context, answer->bytes);
}

void kh_trace_open(const kh_host *host, uint32_t port, const uint8_t *sheet, size_t sheet_bytes) {
    struct line line;
    struct text *text = begin_line(&line);
    if (sheet_bytes >= LINE_NUMBERS)
        add(text, "# a sheet of %zu bytes has no line:", sheet_bytes);
    else
        add(text, "o %u", port);
    for (size_t i = 0; sheet_bytes < LINE_NUMBERS && i < sheet_bytes; i++)
        add(text, " %u", sheet[i]);
    trace_call(host, &line);
}

void kh_trace_close(const kh_host *host, uint32_t port) {
    struct line line;
    add(begin_line(&line), "c %u", port);
    trace_call(host, &line);
}

void kh_trace_turn(const kh_host *host) {
    struct line line;
    add(begin_line(&line), "t");
    trace_call(host, &line);
}

/* The least result has no place in a line; the one above it gives the same status. */
void kh_trace_complete(const kh_host *host, uint32_t port, uint32_t tag, uint32_t serial, int32_t result) {
    struct line line;
    add(begin_line(&line), "f %u %u %u %d", port, tag, serial, result == INT32_MIN ? result + 1 : result);
    trace_call(host, &line);
}

/* A list that is too long for a line is refused by its length, and so is as much of it as a line has. */
void kh_trace_list(const kh_host *host, uint32_t port, const uint64_t *entries, size_t count) {
    struct line line;
    struct text *text = begin_line(&line);
    add(text, "l %u", port);
    for (size_t i = 0; i < KH_ENTRY_WORDS * count && i + 1 < LINE_NUMBERS; i++)
        add(text, " %" PRIu64, entries[i]);
    trace_call(host, &line);
}

void kh_trace_begin(kh_host *host) {
    memset(host->traced, 0, sizeof host->traced);
    memset(host->traced_grants, 0, sizeof host->traced_grants);
    host->trace(host->context, "# every port is closed: cut here, a trace begins below this line");
}

static void add_notify(struct text *text, bool notify) {
    if (notify)
        add(text, " notify");
}

void kh_trace_reply(kh_host *host, const char *call, uint32_t refusal) {
    struct line line;
    struct text *text = begin_line(&line);
    if (refusal == KH_OK)
        add(text, "# %s done", call);
    else
        add(text, "# %s refused %u", call, refusal);
    trace_answer(host, &line);
}

void kh_trace_turned(kh_host *host, const kh_turned *turned) {
    static const char *const kinds[] = {"idle", "started", "answered", "overrun"};
    const kh_plan *plan = &turned->plan;
    struct line line;
    struct text *text = begin_line(&line);
    add(text, "# turn %s", kinds[turned->kind]);
    if (turned->kind != KH_IDLE)
        add(text, " port %u", turned->port);
    if (turned->kind == KH_ANSWERED)
        add(text, " reason %u status %d", turned->reason, turned->status);
    add_notify(text, turned->notify);
    if (turned->kind == KH_STARTED)
        add(text, " tag %u serial %u operation %u start %" PRIu64 " count %" PRIu64 "%s extents %u", plan->tag,
            plan->serial, plan->operation, plan->start, plan->count, plan->secure ? " secure" : "", plan->extent_count);
    for (uint32_t i = 0; i < plan->extent_count; i++)
        add(text, " | %u %u %u %" PRIu64, plan->extents[i].frame, plan->extents[i].first, plan->extents[i].length,
            plan->extents[i].sector);
    trace_answer(host, &line);
}

void kh_trace_completed(kh_host *host, uint32_t refusal, const uint64_t *answer) {
    struct line line;
    struct text *text = begin_line(&line);
    if (refusal != KH_OK) {
        kh_trace_reply(host, "complete", refusal);
        return;
    }
    kh_completed completed = kh_read_completion(answer);
    add(text, "# complete done port %u status %d", completed.port, completed.status);
    add_notify(text, completed.notify);
    trace_answer(host, &line);
}

void kh_trace_completed_many(kh_host *host, uint32_t refusal, const uint64_t *answer) {
    struct line line;
    struct text *text = begin_line(&line);
    if (refusal != KH_OK) {
        kh_trace_reply(host, "list", refusal);
        return;
    }
    kh_completed_many completed = kh_read_many(answer);
    add(text, "# list done");
    for (uint32_t i = 0; i < completed.count; i++)
        add(text, " %d", completed.statuses[i]);
    add_notify(text, completed.notify);
    trace_answer(host, &line);
}

/* ---- the counters as text */

/* In the order of both forms; heads as in xentop where it has them. */
static const struct field {
    const char *name;
    const char *head;
    size_t at;
} fields[] = {
    {"in_flight", "IN_FLIGHT", offsetof(kh_counters, in_flight)},
    {"reads", "VBD_RD", offsetof(kh_counters, reads)},
    {"writes", "VBD_WR", offsetof(kh_counters, writes)},
    {"barriers", "BARRIERS", offsetof(kh_counters, barriers)},
    {"flushes", "FLUSHES", offsetof(kh_counters, flushes)},
    {"discards", "DISCARDS", offsetof(kh_counters, discards)},
    {"sectors_read", "VBD_RSECT", offsetof(kh_counters, sectors_read)},
    {"sectors_written", "VBD_WSECT", offsetof(kh_counters, sectors_written)},
    {"sectors_discarded", "DSECT", offsetof(kh_counters, sectors_discarded)},
    {"refused", "REFUSED", offsetof(kh_counters, refused)},
    {"okay", "OKAY", offsetof(kh_counters, okay)},
    {"errors", "ERRORS", offsetof(kh_counters, errors)},
    {"not_supported", "NOT_SUPP", offsetof(kh_counters, not_supported)},
    {"completions_refused", "C_REFUSED", offsetof(kh_counters, completions_refused)},
    {"overruns", "OVERRUNS", offsetof(kh_counters, overruns)},
    {"opens", "OPENS", offsetof(kh_counters, opens)},
    {"closes", "CLOSES", offsetof(kh_counters, closes)},
    {"notifies", "NOTIFIES", offsetof(kh_counters, notifies)},
};
enum { FIELDS = sizeof fields / sizeof fields[0] };

static uint64_t value_of(const kh_counters *counters, const struct field *field) {
    uint64_t value;
    memcpy(&value, (const char *)counters + field->at, sizeof value);
    return value;
}

static bool is_by_reason(const struct field *field) {
    return field->at == offsetof(kh_counters, refused);
}

static const char *state_of(const kh_host_ring *ring) {
    return ring->pages == 0 ? "closed" : ring->broken ? "broken" : "open";
}

static void add_port(struct text *text, const kh_host *host, uint32_t port) {
    kh_counters counters = kh_host_counters(host, port);
    uint64_t refused = 0;
    for (uint32_t i = 0; i < KH_REASONS; i++)
        refused += counters.refused[i];
    add(text, "%4u %6s", port, state_of(&host->rings[port]));
    for (uint32_t i = 0; i < FIELDS; i++)
        add(text, " %9" PRIu64, is_by_reason(&fields[i]) ? refused : value_of(&counters, &fields[i]));
    add(text, "\n");
}

size_t kh_host_write_text(const kh_host *host, char *text, size_t bytes) {
    struct text table = {text, bytes, 0};
    add(&table, "PORT  STATE");
    for (uint32_t i = 0; i < FIELDS; i++)
        add(&table, " %9s", fields[i].head);
    add(&table, "\n");
    for (uint32_t port = 0; port < KH_PORTS; port++)
        if (host->counters[port].opens > 0)
            add_port(&table, host, port);
    return table.length;
}

static void add_reasons(struct text *text, const kh_counters *counters) {
    const char *before = "{";
    for (uint32_t reason = KH_UNKNOWN_OPERATION; reason <= KH_UNALIGNED; reason++) {
        if (reason == KH_READ_ONLY - 1) /* 23 is withdrawn */
            continue;
        add(text, "%s\"%u\":%" PRIu64, before, reason, counters->refused[reason - KH_UNKNOWN_OPERATION]);
        before = ",";
    }
    add(text, "}");
}

size_t kh_host_write_json(const kh_host *host, uint32_t port, char *text, size_t bytes) {
    struct text line = {text, bytes, 0};
    kh_counters counters = kh_host_counters(host, port);
    const char *state = port < KH_PORTS ? state_of(&host->rings[port]) : "closed";
    add(&line, "{\"port\":%u,\"state\":\"%s\"", port, state);
    for (uint32_t i = 0; i < FIELDS; i++) {
        add(&line, ",\"%s\":", fields[i].name);
        if (is_by_reason(&fields[i]))
            add_reasons(&line, &counters);
        else
            add(&line, "%" PRIu64, value_of(&counters, &fields[i]));
    }
    add(&line, "}");
    return line.length;
}
