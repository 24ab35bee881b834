/* The checks of this test, over the scenarios. Each answers the number of faults. */
#ifndef ONCE_ONCE_H
#define ONCE_ONCE_H

#include "bench.h"

/* Every access of every call against the rules; for a stand-in, of the samples. */
unsigned check_accesses(const struct backend *backend);

/* Every call with the pages out of reach that it has no business in: second halves of one-page ports, and the shares of
   closed ones. */
unsigned check_shut(const struct backend *backend);

/* Guest bytes changed before each access of the samples: of those whose names begin with `only`; for a stand-in, with
   rings of one page. */
unsigned check_changes(const struct backend *backend, const char *only);

/* The accesses of the archive's samples, in the words of valgrind's lackey. The calls go to a file. */
void list_accesses(const char *path);

/* The calls of that file with no trap, between stores to the markers, for another tracer. */
void run_plainly(const char *path);

#endif
