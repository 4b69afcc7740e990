/* Holds the reader and the writer of numerals to the claims on standard input, as lines.h says. The bytes behind a text that
   is read would go on with it, and none is written but those of the text. Exit status: 0 all is as it must be, 1 something is
   not. */
#include "lines.h"

/* Those that take an attribute come first. */
static const char *const names[] = {"read64", "read32", "write64", "write32"};
#define NAMES (sizeof names / sizeof names[0])
#define ROUNDED 2

/* The most bytes of a text or an output here. */
#define MOST 4096
#define NEXT_DIGIT '1'
#define UNTOUCHED '#'

/* The text is at the front of a place that is filled up; one byte stands before the output. */
static uint8_t text[MOST], place[MOST + 2];
static uint8_t *const out = place + 1;
static size_t text_len, size;
static uint32_t length;

static void spoil(void) {
    length = UINT32_MAX, size = SIZE_MAX;
    memset(place, UNTOUCHED, sizeof place);
    memset(text, NEXT_DIGIT, sizeof text);
    text_len = fields > 1 ? strlen(field[1]) : 0;
    if (text_len < MOST && text_len > 0) memcpy(text, field[1], text_len);
}

static int reads(const char *name) { return is(name, 1) && text_len < MOST; }
static int rounds(const char *name) { return under(name, 1) && text_len < MOST; }
static int writes(const char *name) { return is(name, 2) && u(2) <= MOST; }

/* The text that was written. No other byte may have changed. */
static void written(uint32_t refusal) {
    size_t i, end = refusal == PK_DONE && length <= u(2) ? length : 0;
    char *at = said + sprintf(said, "%" PRIu32 " %" PRIu32, refusal, length);
    if (refusal == PK_DONE) *at++ = ' ';
    memcpy(at, out, end);
    at[end] = '\0';
    for (i = 0; i < sizeof place; i++) {
        if ((i >= 1 && i < 1 + end) || place[i] == UNTOUCHED) continue;
        strcat(said, ", and another byte");
        return;
    }
}

static void on_patterns(void) {
    if (reads("read64")) refusal64(pk_read_hex64(text, text_len, &value64));
    if (reads("read32")) refusal32(pk_read_hex32(text, text_len, &value32));
    if (rounds("read64")) refusal64(pk_read_hex64_rounded(attribute, text, text_len, &value64));
    if (rounds("read32")) refusal32(pk_read_hex32_rounded(attribute, text, text_len, &value32));
    if (writes("write64")) written(pk_write_hex64(W(1), out, u(2), &length));
    if (writes("write32")) written(pk_write_hex32(w(1), out, u(2), &length));
}

static void double_read(uint32_t refusal) { value64 = P(number64), refusal64(refusal); }
static void float_read(uint32_t refusal) { value32 = p(number32), refusal32(refusal); }
static void number_written(uint32_t refusal) { length = (uint32_t)size, written(refusal); }

static void on_numbers(void) {
    const char *from = (const char *)text;
    char *to = (char *)out;
    if (reads("read64")) double_read(pk_read_hex(from, text_len, &number64));
    if (reads("read32")) float_read(pk_read_hexf(from, text_len, &number32));
    if (rounds("read64")) double_read(pk_read_hex_rounded(attribute, from, text_len, &number64));
    if (rounds("read32")) float_read(pk_read_hexf_rounded(attribute, from, text_len, &number32));
    if (writes("write64")) number_written(pk_write_hex(D(1), to, u(2), &size));
    if (writes("write32")) number_written(pk_write_hexf(d(1), to, u(2), &size));
}

int main(void) {
    static const struct operations all = {names, NAMES, ROUNDED, spoil, on_patterns, on_numbers};
    return hold_lines(&all);
}
