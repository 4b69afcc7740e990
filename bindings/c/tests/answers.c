/* Holds the C functions, but those of numerals, to the claims on standard input, as lines.h says. Exit status: 0 all is as it
   must be, 1 something is not. */
#include "lines.h"

/* Those that take an attribute come first. */
static const char *const names[] = {
    "sqrt64", "sqrt32", "scalbn64", "scalbn32", "fma64", "fma32", "floor64", "floor32", "trunc64", "trunc32", "ceil64",
    "ceil32", "modf64", "modf32", "frexp64", "frexp32", "ilogb64", "ilogb32", "nextafter64", "nextafter32", "fmod64",
    "fmod32", "remquo64", "reduce64", "reduce32", "list64"};
#define NAMES (sizeof names / sizeof names[0])
#define ROUNDED 6

static uint64_t xs[PLACES], ys[PLACES];

/* ---- answers, written into `said` */
static const struct {
    uint32_t bit;
    const char *word;
} words[] = {{PK_INVALID, "INVALID"}, {PK_DIVBYZERO, "DIVBYZERO"}, {PK_OVERFLOW, "OVERFLOW"},
             {PK_UNDERFLOW, "UNDERFLOW"}, {PK_INEXACT, "INEXACT"}};

static void add_flags(uint32_t raised) {
    const char *before = " ";
    size_t i;
    if (raised == PK_OK) strcat(said, " OK");
    for (i = 0; i < sizeof words / sizeof words[0]; i++) {
        if ((raised & words[i].bit) == 0) continue;
        strcat(strcat(said, before), words[i].word);
        before = "+";
        raised &= ~words[i].bit;
    }
    if (raised != 0) strcat(strcat(said, before), "no flag");
}

/* What the last call with flags raised. Before each request all bits are set, so that what a call leaves of them shows. */
static uint32_t raised;
/* What it wrote besides a value: a quotient or an exponent, which functions on numbers have as an int. */
static int32_t integer;
static int plain_int;
static void spoil(void) { raised = UINT32_MAX, integer = plain_int = INT32_MIN; }

static void give64(uint64_t value) { sprintf(said, "%016" PRIx64, value); }
static void give32(uint32_t value) { sprintf(said, "%08" PRIx32, value); }
/* The value alone must be the one that comes with flags. */
static void flags64(uint64_t alone, uint64_t value) {
    give64(value);
    add_flags(raised);
    if (alone != value) strcat(said, ", and another value alone");
}
static void flags32(uint32_t alone, uint32_t value) {
    give32(value);
    add_flags(raised);
    if (alone != value) strcat(said, ", and another value alone");
}
static void give_integer(int32_t value) { sprintf(said, "%" PRId32, value); }
static void with_integer64(uint64_t value) { sprintf(said, "%016" PRIx64 " %" PRId32, value, integer); }
static void with_integer32(uint32_t value) { sprintf(said, "%08" PRIx32 " %" PRId32, value, integer); }
static void with_value64(uint64_t value) { sprintf(said, "%016" PRIx64 " %016" PRIx64, value, value64); }
static void with_value32(uint32_t value) { sprintf(said, "%08" PRIx32 " %08" PRIx32, value, value32); }
static void rounded64(uint32_t refusal) { refusal64(refusal), add_flags(raised); }
static void rounded32(uint32_t refusal) { refusal32(refusal), add_flags(raised); }

static size_t read_list(const char *text, uint64_t *places) {
    size_t n = 0;
    char *rest;
    if (strcmp(text, "-") == 0) return 0;
    for (;; text = rest + 1) {
        places[n++] = strtoull(text, &rest, 16);
        if (*rest != ',' || n == PLACES) return n;
    }
}

static void list(uint32_t op, const char *input, const char *output) {
    size_t xs_len = read_list(input, xs), ys_len = read_list(output, ys), i;
    char *at = said + sprintf(said, "%" PRIu32 " ", pk_list64(op, xs, xs_len, ys, ys_len));
    if (ys_len == 0) strcpy(at, "-");
    for (i = 0; i < ys_len; i++) at += sprintf(at, i == 0 ? "%016" PRIx64 : ",%016" PRIx64, ys[i]);
}

/* ---- requests */
/* Operand i as a decimal number with a sign or none. */
static int32_t n(int i) { return i < fields ? (int32_t)strtol(field[i], NULL, 10) : 0; }

static void on_patterns(void) {
    if (is("sqrt64", 1)) flags64(pk_sqrt64(W(1)), pk_sqrt64_flags(W(1), &raised));
    if (is("sqrt32", 1)) flags32(pk_sqrt32(w(1)), pk_sqrt32_flags(w(1), &raised));
    if (is("floor64", 1)) flags64(pk_floor64(W(1)), pk_floor64_flags(W(1), &raised));
    if (is("floor32", 1)) flags32(pk_floor32(w(1)), pk_floor32_flags(w(1), &raised));
    if (is("trunc64", 1)) flags64(pk_trunc64(W(1)), pk_trunc64_flags(W(1), &raised));
    if (is("trunc32", 1)) flags32(pk_trunc32(w(1)), pk_trunc32_flags(w(1), &raised));
    if (is("ceil64", 1)) flags64(pk_ceil64(W(1)), pk_ceil64_flags(W(1), &raised));
    if (is("ceil32", 1)) flags32(pk_ceil32(w(1)), pk_ceil32_flags(w(1), &raised));
    if (is("modf64", 1)) with_value64(pk_modf64(W(1), &value64));
    if (is("modf32", 1)) with_value32(pk_modf32(w(1), &value32));
    if (is("frexp64", 1)) with_integer64(pk_frexp64(W(1), &integer));
    if (is("frexp32", 1)) with_integer32(pk_frexp32(w(1), &integer));
    if (is("ilogb64", 1)) give_integer(pk_ilogb64(W(1)));
    if (is("ilogb32", 1)) give_integer(pk_ilogb32(w(1)));
    if (is("nextafter64", 2)) give64(pk_nextafter64(W(1), W(2)));
    if (is("nextafter32", 2)) give32(pk_nextafter32(w(1), w(2)));
    if (is("scalbn64", 2)) flags64(pk_scalbn64(W(1), n(2)), pk_scalbn64_flags(W(1), n(2), &raised));
    if (is("scalbn32", 2)) flags32(pk_scalbn32(w(1), n(2)), pk_scalbn32_flags(w(1), n(2), &raised));
    if (is("fma64", 3)) flags64(pk_fma64(W(1), W(2), W(3)), pk_fma64_flags(W(1), W(2), W(3), &raised));
    if (is("fma32", 3)) flags32(pk_fma32(w(1), w(2), w(3)), pk_fma32_flags(w(1), w(2), w(3), &raised));
    if (is("fmod64", 2)) give64(pk_fmod64(W(1), W(2)));
    if (is("fmod32", 2)) give32(pk_fmod32(w(1), w(2)));
    if (is("remquo64", 2)) with_integer64(pk_remquo64(W(1), W(2), &integer));
    if (is("reduce64", 3)) refusal64(pk_reduce64(W(1), u(2), W(3), &value64));
    if (is("reduce32", 3)) refusal32(pk_reduce32(w(1), u(2), w(3), &value32));
    if (is("list64", 3)) list(u(1), field[2], field[3]);
    if (under("sqrt64", 1)) rounded64(pk_sqrt64_rounded(attribute, W(1), &value64, &raised));
    if (under("sqrt32", 1)) rounded32(pk_sqrt32_rounded(attribute, w(1), &value32, &raised));
    if (under("scalbn64", 2)) rounded64(pk_scalbn64_rounded(attribute, W(1), n(2), &value64, &raised));
    if (under("scalbn32", 2)) rounded32(pk_scalbn32_rounded(attribute, w(1), n(2), &value32, &raised));
    if (under("fma64", 3)) rounded64(pk_fma64_rounded(attribute, W(1), W(2), W(3), &value64, &raised));
    if (under("fma32", 3)) rounded32(pk_fma32_rounded(attribute, w(1), w(2), w(3), &value32, &raised));
}

static void double_rounded(uint32_t refusal) { value64 = P(number64), rounded64(refusal); }
static void float_rounded(uint32_t refusal) { value32 = p(number32), rounded32(refusal); }
static void double_with_integer(double value) { integer = plain_int, with_integer64(P(value)); }
static void float_with_integer(float value) { integer = plain_int, with_integer32(p(value)); }
static void double_with_double(double value) { value64 = P(number64), with_value64(P(value)); }
static void float_with_float(float value) { value32 = p(number32), with_value32(p(value)); }

/* The same on numbers, where there is such a function. */
static void on_numbers(void) {
    if (is("sqrt64", 1)) flags64(P(pk_sqrt(D(1))), P(pk_sqrt_flags(D(1), &raised)));
    if (is("sqrt32", 1)) flags32(p(pk_sqrtf(d(1))), p(pk_sqrtf_flags(d(1), &raised)));
    if (is("floor64", 1)) flags64(P(pk_floor(D(1))), P(pk_floor_flags(D(1), &raised)));
    if (is("floor32", 1)) flags32(p(pk_floorf(d(1))), p(pk_floorf_flags(d(1), &raised)));
    if (is("trunc64", 1)) flags64(P(pk_trunc(D(1))), P(pk_trunc_flags(D(1), &raised)));
    if (is("trunc32", 1)) flags32(p(pk_truncf(d(1))), p(pk_truncf_flags(d(1), &raised)));
    if (is("ceil64", 1)) flags64(P(pk_ceil(D(1))), P(pk_ceil_flags(D(1), &raised)));
    if (is("ceil32", 1)) flags32(p(pk_ceilf(d(1))), p(pk_ceilf_flags(d(1), &raised)));
    if (is("modf64", 1)) double_with_double(pk_modf(D(1), &number64));
    if (is("modf32", 1)) float_with_float(pk_modff(d(1), &number32));
    if (is("frexp64", 1)) double_with_integer(pk_frexp(D(1), &plain_int));
    if (is("frexp32", 1)) float_with_integer(pk_frexpf(d(1), &plain_int));
    if (is("ilogb64", 1)) give_integer(pk_ilogb(D(1)));
    if (is("ilogb32", 1)) give_integer(pk_ilogbf(d(1)));
    if (is("nextafter64", 2)) give64(P(pk_nextafter(D(1), D(2))));
    if (is("nextafter32", 2)) give32(p(pk_nextafterf(d(1), d(2))));
    if (is("scalbn64", 2)) flags64(P(pk_scalbn(D(1), n(2))), P(pk_scalbn_flags(D(1), n(2), &raised)));
    if (is("scalbn32", 2)) flags32(p(pk_scalbnf(d(1), n(2))), p(pk_scalbnf_flags(d(1), n(2), &raised)));
    if (is("fma64", 3)) flags64(P(pk_fma(D(1), D(2), D(3))), P(pk_fma_flags(D(1), D(2), D(3), &raised)));
    if (is("fma32", 3)) flags32(p(pk_fmaf(d(1), d(2), d(3))), p(pk_fmaf_flags(d(1), d(2), d(3), &raised)));
    if (is("fmod64", 2)) give64(P(pk_fmod(D(1), D(2))));
    if (is("fmod32", 2)) give32(p(pk_fmodf(d(1), d(2))));
    if (is("remquo64", 2)) double_with_integer(pk_remquo(D(1), D(2), &plain_int));
    if (under("sqrt64", 1)) double_rounded(pk_sqrt_rounded(attribute, D(1), &number64, &raised));
    if (under("sqrt32", 1)) float_rounded(pk_sqrtf_rounded(attribute, d(1), &number32, &raised));
    if (under("scalbn64", 2)) double_rounded(pk_scalbn_rounded(attribute, D(1), n(2), &number64, &raised));
    if (under("scalbn32", 2)) float_rounded(pk_scalbnf_rounded(attribute, d(1), n(2), &number32, &raised));
    if (under("fma64", 3)) double_rounded(pk_fma_rounded(attribute, D(1), D(2), D(3), &number64, &raised));
    if (under("fma32", 3)) float_rounded(pk_fmaf_rounded(attribute, d(1), d(2), d(3), &number32, &raised));
}

int main(void) {
    static const struct operations all = {names, NAMES, ROUNDED, spoil, on_patterns, on_numbers};
    return hold_lines(&all);
}
