#define _GNU_SOURCE
#include "decode.h"

#include <string.h>

struct instruction {
    const uint8_t *next;
    bool narrow, repne, rep; /* the prefixes 66, F2, F3 */
    uint8_t rex;
};

enum { REX_B = 1, REX_X = 2, REX_W = 8 };

static void prefixes(struct instruction *in) {
    for (;; in->next++) {
        if (*in->next == 0x66)
            in->narrow = true;
        else if (*in->next == 0xF2)
            in->repne = true;
        else if (*in->next == 0xF3)
            in->rep = true;
        else
            break;
    }
    if ((*in->next & 0xF0) == 0x40)
        in->rex = *in->next++;
}

static uint64_t reg(const ucontext_t *at, unsigned number) {
    static const int order[16] = {REG_RAX, REG_RCX, REG_RDX, REG_RBX, REG_RSP, REG_RBP, REG_RSI, REG_RDI,
                                  REG_R8,  REG_R9,  REG_R10, REG_R11, REG_R12, REG_R13, REG_R14, REG_R15};
    return (uint64_t)at->uc_mcontext.gregs[order[number]];
}

/* The address that ModRM, SIB and displacement name. Not known: a register operand, or one that counts from the next
 * instruction. */
static bool address(const ucontext_t *at, const struct instruction *in, struct operand *out) {
    unsigned mode = *in->next >> 6, base = *in->next & 7;
    const uint8_t *displacement = in->next + 1;
    uint64_t sum = 0;
    if (mode == 3 || (mode == 0 && base == 5))
        return false;
    if (base == 4) {
        uint8_t sib = *displacement++;
        unsigned index = (sib >> 3 & 7) + (in->rex & REX_X ? 8 : 0);
        base = sib & 7;
        if (index != 4)
            sum += reg(at, index) << (sib >> 6);
    }
    out->has_base = mode != 0 || base != 5;
    if (out->has_base)
        sum += reg(at, base + (in->rex & REX_B ? 8 : 0));
    else
        mode = 2;
    out->far = 0;
    if (mode == 1)
        out->far = (int8_t)*displacement;
    else if (mode == 2)
        memcpy(&out->far, displacement, sizeof out->far);
    out->modrm = in->next;
    out->displacement = displacement;
    out->immediate = displacement + (mode == 2 ? 4 : mode);
    out->address = sum + (uint64_t)(int64_t)out->far;
    return true;
}

static unsigned general_size(const struct instruction *in) {
    return in->rex & REX_W ? 8 : in->narrow ? 2 : 4;
}

static bool set(struct operand *operand, unsigned size, bool load, bool store) {
    operand->size = size;
    operand->load = load;
    operand->store = store;
    return true;
}

/* add, or, adc, sbb, and, sub, xor, cmp: the fifth digit of the opcode says which, its low bits the direction and size.
 */
static bool arithmetic(const struct instruction *in, uint8_t opcode, struct operand *operand) {
    unsigned size = opcode & 1 ? general_size(in) : 1;
    bool into_memory = !(opcode & 2) && opcode >> 3 != 7;
    return set(operand, size, true, into_memory);
}

static bool one_byte(const struct instruction *in, uint8_t opcode, uint8_t modrm, struct operand *operand) {
    unsigned digit = modrm >> 3 & 7, size = opcode & 1 ? general_size(in) : 1;
    if (opcode < 0x40 && (opcode & 7) < 4)
        return arithmetic(in, opcode, operand);
    switch (opcode) {
    case 0x63:
        return set(operand, 4, true, false);
    case 0x80:
    case 0x81:
    case 0x83:
        return set(operand, size, true, digit != 7);
    case 0x84:
    case 0x85:
    case 0x8A:
    case 0x8B:
        return set(operand, size, true, false);
    case 0x88:
    case 0x89:
    case 0xC6:
    case 0xC7:
        return set(operand, size, false, true);
    case 0xF6:
    case 0xF7:
        return digit == 0 && set(operand, size, true, false);
    }
    return false;
}

/* Of the opcodes that are known, those have one. */
static unsigned immediate_size(const struct instruction *in, uint8_t opcode) {
    switch (opcode) {
    case 0x80:
    case 0x83:
    case 0xC6:
    case 0xF6:
        return 1;
    case 0x81:
    case 0xC7:
    case 0xF7:
        return general_size(in) == 2 ? 2 : 4;
    }
    return 0;
}

static unsigned vector_size(const struct instruction *in) {
    return in->rep ? 4 : in->repne ? 8 : 16;
}

static bool two_bytes(const struct instruction *in, uint8_t opcode, struct operand *operand) {
    if ((opcode & 0xF0) == 0x40) /* cmov loads whether it moves or not */
        return set(operand, general_size(in), true, false);
    switch (opcode) {
    case 0xB6:
    case 0xBE:
        return set(operand, 1, true, false);
    case 0xB7:
    case 0xBF:
        return set(operand, 2, true, false);
    case 0x10:
    case 0x11:
        return set(operand, vector_size(in), opcode == 0x10, opcode == 0x11);
    case 0x28:
    case 0x29:
        return set(operand, 16, opcode == 0x28, opcode == 0x29);
    case 0x6F:
    case 0x7F:
        return (in->narrow || in->rep) && set(operand, 16, opcode == 0x6F, opcode == 0x7F);
    case 0x12:
    case 0x13:
    case 0x16:
    case 0x17:
        return !in->rep && !in->repne && set(operand, 8, !(opcode & 1), opcode & 1);
    case 0x6E:
        return in->narrow && set(operand, in->rex & REX_W ? 8 : 4, true, false);
    case 0x7E:
        if (in->rep)
            return set(operand, 8, true, false);
        return in->narrow && set(operand, in->rex & REX_W ? 8 : 4, false, true);
    case 0xD6:
        return in->narrow && set(operand, 8, false, true);
    }
    return false;
}

bool decode(const ucontext_t *at, struct operand *operand) {
    struct instruction in = {.next = (const uint8_t *)at->uc_mcontext.gregs[REG_RIP]};
    prefixes(&in);
    uint8_t opcode = *in.next++;
    bool known;
    if (opcode == 0x0F) {
        opcode = *in.next++;
        known = two_bytes(&in, opcode, operand);
        operand->immediate_bytes = 0;
    } else {
        known = one_byte(&in, opcode, *in.next, operand);
        operand->immediate_bytes = immediate_size(&in, opcode);
    }
    return known && address(at, &in, operand);
}

static uint8_t *append(uint8_t *to, const void *bytes, size_t count) {
    memcpy(to, bytes, count);
    return to + count;
}

bool write_moved(const ucontext_t *at, const struct operand *operand, int32_t by, uint8_t *code) {
    static const uint8_t jump[] = {0xFF, 0x25, 0, 0, 0, 0}; /* to the address that follows */
    const uint8_t *first = (const uint8_t *)at->uc_mcontext.gregs[REG_RIP];
    const uint8_t *next = operand->immediate + operand->immediate_bytes, *modrm = operand->modrm;
    int32_t far;
    if (__builtin_add_overflow(operand->far, by, &far))
        return false;
    code = append(code, first, (size_t)(modrm - first));
    *code++ = operand->has_base ? (*modrm & 0x3F) | 0x80 : *modrm; /* with a displacement of four bytes */
    code = append(code, modrm + 1, (size_t)(operand->displacement - modrm - 1));
    code = append(code, &far, sizeof far);
    code = append(code, operand->immediate, operand->immediate_bytes);
    code = append(code, jump, sizeof jump);
    append(code, &next, sizeof next);
    return true;
}
