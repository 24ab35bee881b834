/* What one x86-64 instruction does to memory: enough of the instruction set for code that moves and compares. */
#ifndef ONCE_DECODE_H
#define ONCE_DECODE_H

#include <stdbool.h>
#include <stdint.h>
#include <ucontext.h>

struct operand {
    uintptr_t address;
    unsigned size;
    bool load, store;
    /* Where it stands in the instruction: ModRM, perhaps SIB, a displacement; then the immediate operand. */
    const uint8_t *modrm, *displacement, *immediate;
    unsigned immediate_bytes;
    int32_t far;
    bool has_base;
};

/* False where the instruction is not known here: a width is never guessed. */
bool decode(const ucontext_t *at, struct operand *operand);

enum { MOST_MOVED_BYTES = 32 };

/* Writes the instruction that was decoded so that it finds its operand so much further on, and goes on behind where it
   was. False where the displacement has no room for that. */
bool write_moved(const ucontext_t *at, const struct operand *operand, int32_t by, uint8_t *code);

#endif
