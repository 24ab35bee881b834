/* once accesses [STANDIN]         every access to the rings against the rules
   once shut [STANDIN]             the same calls with every page out of reach that is in no ring
   once changes [STANDIN [NAME]]   guest bytes changed in the middle of a call, in scenarios of that name
   once list FILE                  the accesses of the samples, which go to the file
   once plain FILE                 the calls of the file with no trap, for another tracer
   Exit status: 0 all is well, 1 a fault was found, 2 the test could not be made. */
#include <string.h>

#include "once.h"
#include "standins.h"
#include "trap.h"

int main(int words, char **word) {
    const char *check = words > 1 ? word[1] : "";
    map_buffers();
    if (strcmp(check, "plain") == 0 && words > 2) {
        run_plainly(word[2]);
        return 0;
    }
    if (strcmp(check, "list") == 0 && words > 2) {
        trap_install();
        list_accesses(word[2]);
        return 0;
    }
    const struct backend *backend = backend_named(words > 2 ? word[2] : NULL);
    if (strcmp(check, "shut") == 0)
        return check_shut(backend) != 0;
    trap_install();
    if (strcmp(check, "accesses") == 0)
        return check_accesses(backend) != 0;
    if (strcmp(check, "changes") == 0)
        return check_changes(backend, words > 3 ? word[3] : "") != 0;
    fail("which check? accesses, shut, changes, list or plain");
}
