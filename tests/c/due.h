/* What is due of a turn that takes a request of kinds.h. */
#ifndef DUE_H
#define DUE_H

#include "check.h"
#include "kernelharp.h"
#include "kinds.h"

static inline void check_plan(const kind *k, const kh_plan *plan) {
    bool is_empty = k->n == 0 && k->operation != BLKIF_OP_DISCARD;
    uint64_t length = (uint64_t)(k->last - k->first + 1);
    CHECK_EQ(plan->operation, k->operation);
    CHECK_EQ(plan->start, is_empty ? 0 : k->start);
    CHECK_EQ(plan->count, count_of(k));
    CHECK_EQ(plan->extent_count, k->operation == BLKIF_OP_DISCARD ? 0 : k->n);
    for (uint32_t i = 0; i < plan->extent_count; i++) {
        CHECK_EQ(plan->extents[i].frame, k->frame);
        CHECK_EQ(plan->extents[i].first, k->first);
        CHECK_EQ(plan->extents[i].length, length);
        CHECK_EQ(plan->extents[i].sector, k->start + i * length);
    }
}

/* The turn took that request of its port. */
static inline void check_taken(const kh_turned *turned, uint32_t number) {
    CHECK_EQ(turned->reason, reason_due(turned->port, number));
    CHECK_EQ(turned->kind, turned->reason == 0 ? KH_STARTED : KH_ANSWERED);
    CHECK_EQ(turned->plan.secure, turned->kind == KH_STARTED && is_secure(turned->port, number));
    if (turned->kind == KH_STARTED)
        check_plan(kind_of(turned->port, number), &turned->plan);
    else
        CHECK_EQ(turned->status, status_due(turned->port, number));
}

#endif
