/* The samples for two tracers: the trap of this test, and one that knows nothing of it. What they see must be the same.
   The other is slow, and is spared all that makes a call ready: it gets the calls as the trap has met them, in a file.
 */
#include <fcntl.h>
#include <stdio.h>
#include <unistd.h>

#include "once.h"
#include "scenarios.h"
#include "trap.h"

static int calls;

static void open_calls(const char *path, int flags) {
    calls = open(path, flags, 0666);
    if (calls < 0)
        fail("no calls in the file %s", path);
}

static void save(const void *bytes, size_t count) {
    if (write(calls, bytes, count) != (ssize_t)count)
        fail("a call is not written");
}

/* False at the end of the file. */
static bool load(void *bytes, size_t count) {
    ssize_t found = read(calls, bytes, count);
    if (found != 0 && found != (ssize_t)count)
        fail("a call is not read");
    return found != 0;
}

static void list(const struct scenario *scenario) {
    static struct trace trace;
    struct outcome outcome;
    save(&bench, sizeof bench);
    save(rings, KH_RINGS_BYTES);
    save(&scenario->call, sizeof scenario->call);
    trap_begin(&trace, NULL);
    call_backend(&archive, &scenario->call, out_of_reach, &outcome);
    trap_end();
    printf("call\n");
    for (unsigned i = 0; i < trace.count; i++) {
        const struct access *access = &trace.list[i];
        char what = access->load && access->store ? 'M' : access->load ? 'L' : 'S';
        printf(" %c %08lx,%u\n", what, (unsigned long)(uintptr_t)rings + access->at, access->size);
    }
}

void list_accesses(const char *path) {
    open_calls(path, O_WRONLY | O_CREAT | O_TRUNC);
    each_scenario(list, FEW);
}

void run_plainly(const char *path) {
    struct call call;
    struct outcome outcome;
    open_calls(path, O_RDONLY);
    while (load(&bench, sizeof bench)) {
        if (!load(rings, KH_RINGS_BYTES) || !load(&call, sizeof call))
            fail("half a call is read");
        markers[0] = 1;
        call_backend(&archive, &call, rings, &outcome);
        markers[1] = 1;
    }
}
