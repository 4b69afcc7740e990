/* This machine's processor and C library by fenv.h: four attributes, the widths 64 and 32. */
#include <fenv.h>
#include <float.h>
#include <math.h>
#include <string.h>

#include "lines.h"

#if FLT_EVAL_METHOD != 0
#error "this machine computes in a format other than the operands'"
#endif

const char *const back_end = "machine";

/* Found by computing, as no name of a processor tells it. */
static bool before_rounding, product_raises;

/* An operation's operands and its result go through memory, so that the compiler neither folds it nor moves it past the
   calls that set the attribute and read the flags. */
static volatile double x64, y64, z64, r64;
static volatile float x32, y32, z32, r32;

static void calculate64(enum operation operation) {
    switch (operation) {
    case SQRT: r64 = sqrt(x64); break;
    case FMA: r64 = fma(x64, y64, z64); break;
    case SCALBN: r64 = x64 * y64; break;
    default: r64 = rint(x64); break;
    }
}

static void calculate32(enum operation operation) {
    switch (operation) {
    case SQRT: r32 = sqrtf(x32); break;
    case FMA: r32 = fmaf(x32, y32, z32); break;
    case SCALBN: r32 = x32 * y32; break;
    default: r32 = rintf(x32); break;
    }
}

static void lay64(volatile double *to, uint64_t bits) {
    double value;
    memcpy(&value, &bits, sizeof value);
    *to = value;
}

static void lay32(volatile float *to, uint64_t bits) {
    uint32_t word = (uint32_t)bits;
    float value;
    memcpy(&value, &word, sizeof value);
    *to = value;
}

static uint64_t bits64(void) {
    double value = r64;
    uint64_t bits;
    memcpy(&bits, &value, sizeof bits);
    return bits;
}

static uint64_t bits32(void) {
    float value = r32;
    uint32_t bits;
    memcpy(&bits, &value, sizeof bits);
    return bits;
}

static unsigned flags_raised(void) {
    int raised = fetestexcept(FE_ALL_EXCEPT);
    return (raised & FE_INVALID ? INVALID : 0) | (raised & FE_DIVBYZERO ? DIVBYZERO : 0) |
           (raised & FE_OVERFLOW ? OVERFLOW : 0) | (raised & FE_UNDERFLOW ? UNDERFLOW : 0) |
           (raised & FE_INEXACT ? INEXACT : 0);
}

static int attribute_of(const struct request *request) {
    static const int modes[] = {[EVEN] = FE_TONEAREST, [ZERO] = FE_TOWARDZERO, [DOWN] = FE_DOWNWARD, [UP] = FE_UPWARD};
    switch (request->operation) {
    case FLOOR: return FE_DOWNWARD;
    case TRUNC: return FE_TOWARDZERO;
    case CEIL: return FE_UPWARD;
    default: return modes[rounding_of(request)];
    }
}

static struct answer calculate(const struct request *request) {
    const uint64_t x = request->operand[0], y = request->operand[1], z = request->operand[2];
    struct answer answer;
    fesetround(attribute_of(request));
    if (request->width == W64) {
        lay64(&x64, x), lay64(&y64, y), lay64(&z64, z);
        feclearexcept(FE_ALL_EXCEPT);
        calculate64(request->operation);
    } else {
        lay32(&x32, x), lay32(&y32, y), lay32(&z32, z);
        feclearexcept(FE_ALL_EXCEPT);
        calculate32(request->operation);
    }
    answer.flags = flags_raised();
    fesetround(FE_TONEAREST);
    answer.bits = canonical(request->width, request->width == W64 ? bits64() : bits32());
    return answer;
}

static bool raises(unsigned flag, const struct request *request) {
    return (calculate(request).flags & flag) != 0;
}

void prepare(void) {
    /* (1 + 2^-52) 2^-511 times (1 - 2^-52) 2^-511, and 2^-1022 - 2^-540 2^-540, are below 2^-1022 and round to it. */
    const struct request product = {SCALBN, W64, EVEN, {0x2000000000000001, 0x1ffffffffffffffe, 0}, 0};
    const struct request difference = {FMA, W64, EVEN, {0x9e30000000000000, 0x1e30000000000000, 0x0010000000000000}, 0};
    const struct request unknown = {FMA, W64, EVEN, {0, infinity(W64), 0x7ff8000000000000}, 0};
    before_rounding = raises(UNDERFLOW, &product) || raises(UNDERFLOW, &difference);
    product_raises = raises(INVALID, &unknown);
}

/* Zero times infinity plus a quiet NaN: whether it is invalid is left open by IEEE 754. */
static bool is_open_product(const struct request *request) {
    const enum width width = request->width;
    const uint64_t x = magnitude(width, request->operand[0]), y = magnitude(width, request->operand[1]);
    const uint64_t z = magnitude(width, request->operand[2]);
    return request->operation == FMA && ((x == 0 && y == infinity(width)) || (x == infinity(width) && y == 0)) &&
           z >= canonical(width, z) && is_nan(width, z);
}

enum outcome work_out(const struct request *request, struct answer *answer) {
    if (request->width == W16)
        return NO_WIDTH;
    if (request->attribute == AWAY)
        return NO_ATTRIBUTE;
    if (!product_raises && is_open_product(request))
        return PRODUCT;
    *answer = calculate(request);
    /* Tininess judged before and after rounding differ at this result alone. */
    if (before_rounding && (answer->flags & UNDERFLOW) && magnitude(request->width, answer->bits) == least_normal(request->width))
        return TININESS;
    return ANSWERED;
}
