/* scalbn by products with powers of two, as the back ends have no instruction for it. All products but the last are exact, so that
   the result is rounded once. */
#include "lines.h"

enum outcome scale(const struct request *request, struct answer *answer) {
    struct request product = *request;
    int32_t n = nearer_power(request->width, request->operand[0], request->n), step;
    unsigned flags = 0;
    do {
        step = exact_step(request->width, n);
        product.operand[1] = power_of_two(request->width, step);
        enum outcome outcome = work_out(&product, answer);
        if (outcome != ANSWERED)
            return outcome;
        /* An exact product raises nothing: a flag that one raised all the same is told. */
        flags = answer->flags |= flags;
        product.operand[0] = answer->bits;
    } while ((n -= step) != 0);
    return ANSWERED;
}
