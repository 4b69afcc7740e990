/* Reads a request of docs/LINES.md: sqrt64.up X, fma32.even X Y Z, scalbn16.away X N, floor64 X. */
#include <stdio.h>
#include <string.h>

#include "lines.h"

static const int operands[OPERATIONS] = {[SQRT] = 1, [FMA] = 3, [SCALBN] = 2, [FLOOR] = 1, [TRUNC] = 1, [CEIL] = 1};

/* What a message shows of a field: its beginning, and no byte that is not to be printed. */
static const char *shown(struct text field) {
    static char copy[41];
    size_t length = (size_t)(field.end - field.start);
    if (length > sizeof copy - 1)
        length = sizeof copy - 1;
    for (size_t i = 0; i < length; i++)
        copy[i] = field.start[i] >= ' ' && field.start[i] <= '~' ? field.start[i] : '?';
    copy[length] = '\0';
    return copy;
}

/* Takes the word off the front, if it stands there. */
static bool takes(struct text *text, const char *word) {
    size_t length = strlen(word);
    if ((size_t)(text->end - text->start) < length || memcmp(text->start, word, length) != 0)
        return false;
    text->start += length;
    return true;
}

static bool is(struct text text, const char *word) {
    return takes(&text, word) && text.start == text.end;
}

/* A decimal number without a sign or leading zeros, up to the limit. */
static bool read_number(struct text field, uint64_t limit, uint64_t *number) {
    if (field.start == field.end || (*field.start == '0' && field.end - field.start > 1))
        return false;
    *number = 0;
    for (; field.start < field.end; field.start++) {
        if (*field.start < '0' || *field.start > '9')
            return false;
        *number = *number * 10 + (uint64_t)(*field.start - '0');
        if (*number > limit)
            return false;
    }
    return true;
}

static bool read_signed(struct text field, int32_t *n) {
    uint64_t number;
    bool negative = takes(&field, "-");
    if (!read_number(field, negative ? UINT64_C(2147483648) : UINT64_C(2147483647), &number) || (negative && number == 0))
        return false;
    *n = (int32_t)(negative ? -(int64_t)number : (int64_t)number);
    return true;
}

/* A hexadecimal digit's value, and 16 for every other byte. */
static unsigned digit_value(char digit) {
    if (digit >= '0' && digit <= '9')
        return (unsigned)(digit - '0');
    return digit >= 'a' && digit <= 'f' ? (unsigned)(digit - 'a' + 10) : 16;
}

static bool read_word(struct text field, enum width width, uint64_t *bits) {
    if (field.end - field.start != digits[width])
        return false;
    *bits = 0;
    unsigned wrong = 0;
    for (; field.start < field.end; field.start++) {
        unsigned value = digit_value(*field.start);
        *bits = *bits << 4 | (value & 15);
        wrong |= value & 16;
    }
    return wrong == 0;
}

/* What stands after the width: nothing, or a point and an attribute's name or number, but for floor, trunc and ceil. */
static bool read_attribute(struct text text, struct request *request) {
    uint64_t number;
    request->attribute = NONE;
    if (text.start == text.end)
        return true;
    if (is_integral(request->operation) || !takes(&text, "."))
        return false;
    for (int attribute = EVEN; attribute <= AWAY; attribute++) {
        request->attribute = attribute;
        if (is(text, attribute_name(attribute)))
            return true;
    }
    if (!read_number(text, UINT32_MAX, &number))
        return false;
    request->attribute = number > AWAY ? OTHER : (enum attribute)number;
    return true;
}

static bool read_name(struct text name, struct request *request) {
    static const char *const widths[WIDTHS] = {"64", "32", "16"};
    for (int operation = 0; operation < OPERATIONS; operation++) {
        struct text rest = name;
        if (!takes(&rest, operation_name(operation)))
            continue;
        request->operation = operation;
        for (int width = 0; width < WIDTHS; width++) {
            request->width = width;
            if (takes(&rest, widths[width]))
                return read_attribute(rest, request);
        }
    }
    return false;
}

/* The field up to the next blank, which is taken too; false where nothing is left. */
static bool next_field(struct text *text, struct text *field) {
    if (text->start > text->end)
        return false;
    const char *blank = memchr(text->start, ' ', (size_t)(text->end - text->start));
    field->start = text->start;
    field->end = blank ? blank : text->end;
    text->start = field->end + 1;
    return true;
}

static bool read_operand(struct text field, int i, struct request *request, char *error, size_t room) {
    if (request->operation == SCALBN && i == 1) {
        if (read_signed(field, &request->n))
            return true;
        snprintf(error, room, "operand field 2 is \"%s\"; expected a decimal number from -2147483648 to 2147483647", shown(field));
        return false;
    }
    if (read_word(field, request->width, &request->operand[i]))
        return true;
    snprintf(error, room, "operand field %d is \"%s\"; expected %d lower-case hex digits", i + 1, shown(field), digits[request->width]);
    return false;
}

/* Where the answer of a claim begins. */
static const char *request_end(struct text text) {
    for (const char *at = text.start; text.end - at >= 4; at++) {
        at = memchr(at, ' ', (size_t)(text.end - at) - 3);
        if (!at)
            break;
        if (memcmp(at, " -> ", 4) == 0)
            return at;
    }
    return text.end;
}

bool read_request(struct text *line, struct request *request, char *error, size_t room) {
    line->end = request_end(*line);
    struct text text = *line, field = *line;
    next_field(&text, &field);
    if (!read_name(field, request)) {
        snprintf(error, room, "no operation \"%s\"; expected sqrtW, fmaW, scalbnW, floorW, truncW or ceilW, or sqrtW.A, fmaW.A or scalbnW.A", shown(field));
        return false;
    }
    int wanted = operands[request->operation], found = 0;
    for (; found < wanted && next_field(&text, &field); found++)
        if (!read_operand(field, found, request, error, room))
            return false;
    if (found == wanted && !next_field(&text, &field))
        return true;
    if (found < wanted)
        snprintf(error, room, "%d operand field%s; expected %d", found, found == 1 ? "" : "s", wanted);
    else
        snprintf(error, room, "\"%s\" stands after the operands; expected %d operand field%s", shown(field), wanted, wanted == 1 ? "" : "s");
    return false;
}
