/* RISC-V's instructions, attributes and flags: the widths 64, 32 and, by the extension Zfh, 16. */
#include "lines.h"

const char *const back_end = "riscv";

void prepare(void) {}

/* The fields of fflags, from its lowest bit on, are inexact, underflow, overflow, division by zero and invalid. */
static unsigned flags_of(uint64_t fflags) {
    return (fflags & 1 ? INEXACT : 0) | (fflags & 2 ? UNDERFLOW : 0) | (fflags & 4 ? OVERFLOW : 0) |
           (fflags & 8 ? DIVBYZERO : 0) | (fflags & 16 ? INVALID : 0);
}

/* Operands go to ft1, ft2 and ft3, the result comes from ft0. The assembler takes the attribute from frm where an
   instruction names none; the half-width instructions want their extension allowed. */
#define CALCULATE(MOVE_IN, STEPS, MOVE_OUT)                                                                              \
    __asm__ volatile(".option push\n\t.option arch, +zfh\n\t"                                                            \
                     "fsrm %[attribute]\n\tfsflags zero\n\t" MOVE_IN " ft1, %[x]\n\t" MOVE_IN " ft2, %[y]\n\t" MOVE_IN   \
                     " ft3, %[z]\n\t" STEPS "\n\tfrflags %[fflags]\n\t" MOVE_OUT " %[result], ft0\n\t.option pop"        \
                     : [result] "=&r"(result), [fflags] "=&r"(fflags)                                                    \
                     : [x] "r"(x), [y] "r"(y), [z] "r"(z), [attribute] "r"((uint64_t)attribute)                          \
                     : "ft0", "ft1", "ft2", "ft3", "t0", "memory")

#define BY_WIDTH(MNEMONIC, REST)                                                                                         \
    switch (width) {                                                                                                     \
    case W64: CALCULATE("fmv.d.x", MNEMONIC ".d" REST, "fmv.x.d"); break;                                                \
    case W32: CALCULATE("fmv.w.x", MNEMONIC ".s" REST, "fmv.x.w"); break;                                                \
    default: CALCULATE("fmv.h.x", MNEMONIC ".h" REST, "fmv.x.h"); break;                                                 \
    }

/* To a 64-bit integer and back; the sign is the operand's, so that a zero keeps it. */
#define INTEGER(LETTER, ATTRIBUTE)                                                                                       \
    "fcvt.l." LETTER " t0, ft1, " ATTRIBUTE "\n\tfcvt." LETTER ".l ft0, t0\n\tfsgnj." LETTER " ft0, ft0, ft1"

#define INTEGER_BY_WIDTH(ATTRIBUTE)                                                                                      \
    switch (width) {                                                                                                     \
    case W64: CALCULATE("fmv.d.x", INTEGER("d", ATTRIBUTE), "fmv.x.d"); break;                                           \
    case W32: CALCULATE("fmv.w.x", INTEGER("s", ATTRIBUTE), "fmv.x.w"); break;                                           \
    default: CALCULATE("fmv.h.x", INTEGER("h", ATTRIBUTE), "fmv.x.h"); break;                                            \
    }

enum outcome work_out(const struct request *request, struct answer *answer) {
    const enum width width = request->width;
    /* The instructions of floor, trunc and ceil name their own. */
    const enum attribute attribute = rounding_of(request);
    const uint64_t x = request->operand[0], y = request->operand[1], z = request->operand[2];
    uint64_t result, fflags;
    if (is_integral(request->operation)) {
        enum outcome outcome = fits_an_integer(width, x);
        if (outcome != ANSWERED)
            return outcome;
    }
    switch (request->operation) {
    case SQRT: BY_WIDTH("fsqrt", " ft0, ft1"); break;
    case FMA: BY_WIDTH("fmadd", " ft0, ft1, ft2, ft3"); break;
    case SCALBN: BY_WIDTH("fmul", " ft0, ft1, ft2"); break;
    case FLOOR: INTEGER_BY_WIDTH("rdn"); break;
    case CEIL: INTEGER_BY_WIDTH("rup"); break;
    default: INTEGER_BY_WIDTH("rtz"); break;
    }
    /* The narrow moves extend the sign. */
    answer->bits = width == W64 ? result : result & ((UINT64_C(1) << 4 * digits[width]) - 1);
    answer->flags = flags_of(fflags);
    return ANSWERED;
}
