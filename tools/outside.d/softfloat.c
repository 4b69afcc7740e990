/* Berkeley SoftFloat 3e at 64 bits, as the text that tools/oracle fetches has it. */
#include "lines.h"

#include <softfloat.h>

const char *const back_end = "softfloat";

void prepare(void) {
    softfloat_detectTininess = softfloat_tininess_afterRounding;
}

static unsigned flags_raised(void) {
    static const struct {
        unsigned theirs, ours;
    } flags[] = {{softfloat_flag_inexact, INEXACT},
                 {softfloat_flag_underflow, UNDERFLOW},
                 {softfloat_flag_overflow, OVERFLOW},
                 {softfloat_flag_infinite, DIVBYZERO},
                 {softfloat_flag_invalid, INVALID}};
    unsigned raised = 0;
    for (size_t i = 0; i < sizeof flags / sizeof flags[0]; i++)
        if (softfloat_exceptionFlags & flags[i].theirs)
            raised |= flags[i].ours;
    return raised;
}

/* The text has no rounding to an integral value, so by way of an integer; the sign is the operand's, so that a zero keeps it. */
static float64_t integral(float64_t x, uint_fast8_t attribute) {
    float64_t result = i64_to_f64(f64_to_i64(x, attribute, true));
    result.v = magnitude(W64, result.v) | (x.v ^ magnitude(W64, x.v));
    return result;
}

static enum outcome in_reach(const struct request *request) {
    if (request->width != W64)
        return NO_WIDTH;
    if (is_integral(request->operation))
        return fits_an_integer(W64, request->operand[0]);
    return ANSWERED;
}

enum outcome work_out(const struct request *request, struct answer *answer) {
    const float64_t x = {request->operand[0]}, y = {request->operand[1]}, z = {request->operand[2]};
    float64_t result;
    enum outcome outcome = in_reach(request);
    if (outcome != ANSWERED)
        return outcome;
    softfloat_exceptionFlags = 0;
    /* The attributes have its own numbers. */
    softfloat_roundingMode = rounding_of(request);
    switch (request->operation) {
    case SQRT: result = f64_sqrt(x); break;
    case FMA: result = f64_mulAdd(x, y, z); break;
    case SCALBN: result = f64_mul(x, y); break;
    case FLOOR: result = integral(x, softfloat_round_min); break;
    case CEIL: result = integral(x, softfloat_round_max); break;
    default: result = integral(x, softfloat_round_minMag); break;
    }
    answer->bits = canonical(W64, result.v);
    answer->flags = flags_raised();
    return ANSWERED;
}
