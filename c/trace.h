/* The lines of the hook trace, which kernelharp_host.c has kernelharp_report.c write. No part of the interface. */
#ifndef TRACE_H
#define TRACE_H

#include <kernelharp_host.h>

static inline bool is_traced(const kh_host *host) {
    return host->trace != NULL && host->row == NULL;
}

/* A call that is about to be made, with what changed in rings and grants since the one before. */
void kh_trace_open(const kh_host *host, uint32_t port, const uint8_t *sheet, size_t sheet_bytes);
void kh_trace_close(const kh_host *host, uint32_t port);
void kh_trace_turn(const kh_host *host);
void kh_trace_complete(const kh_host *host, uint32_t port, uint32_t tag, uint32_t serial, int32_t result);
void kh_trace_list(const kh_host *host, uint32_t port, const uint64_t *entries, size_t count);

/* From here on replay can begin: memory and copies are zeros, and the grants that are left are told again. */
void kh_trace_begin(kh_host *host);

/* What it returned, and where it was done the answer. */
void kh_trace_reply(kh_host *host, const char *call, uint32_t refusal); /* of an open or a close */
void kh_trace_turned(kh_host *host, const kh_turned *turned);
void kh_trace_completed(kh_host *host, uint32_t refusal, const uint64_t *answer);
void kh_trace_completed_many(kh_host *host, uint32_t refusal, const uint64_t *answer);

#endif
