/* What layout.c says of Xen's headers, for a 32-bit guest: this is for the compiler's -m32. */
#include "records.h"

int main(void) {
    static uint32_t ring[KH_RING_BYTES / 4];
    running.name = "layout_for_i386";
    HOLDS(sizeof(void *) == 4);
    check_slots((uint8_t *)ring);
    CHECK_EQ(strcmp(XEN_IO_PROTO_ABI_NATIVE, "x86_32-abi"), 0);
    return running.failures != 0;
}
