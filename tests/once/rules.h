/* Which ring bytes a call may load and store, and the verdict on a trace. */
#ifndef ONCE_RULES_H
#define ONCE_RULES_H

#include "scenarios.h"
#include "trap.h"

/* Whether the outcome is the one that the scenario is there for. */
bool is_expected(const struct scenario *scenario, const struct outcome *outcome);

/* The number of faults: bytes loaded or stored twice, or not named by the rules. Each is printed. */
unsigned judge(const struct scenario *scenario, const struct trace *trace);

/* A byte of the rings, as a reader of docs/RULES.md would call it. */
const char *place_name(unsigned at);

#endif
