/* Reads lines, the fields in a line and the numbers in a field. */
#include "lines.h"

bool read_line(FILE *input, line *l)
{
    int c = getc(input);

    l->length = 0;
    while (c != '\n' && c != EOF) {
        if (l->length < sizeof l->bytes)
            l->bytes[l->length++] = (uint8_t)c;
        c = getc(input);
    }
    l->cut_off = c == EOF;
    if (l->cut_off && (ferror(input) || l->length == 0))
        return false;
    if (l->length > 0 && l->bytes[l->length - 1] == '\r')
        l->length--;
    return true;
}

/* Tabs between fields count as spaces. */
static bool is_separator(uint8_t c)
{
    return c == ' ' || c == '\t';
}

static void drop_separators_behind(span *text)
{
    while (text->length > 0 && is_separator(text->start[text->length - 1]))
        text->length--;
}

span text_of_line(const line *l)
{
    span text = {l->bytes, l->length > LINE_KEPT ? 0 : l->length};

    drop_separators_behind(&text);
    while (text.length > 0 && is_separator(*text.start)) {
        text.start++;
        text.length--;
    }
    return text;
}

span take_last_field(span *text)
{
    size_t start = text->length;
    span field;

    while (start > 0 && !is_separator(text->start[start - 1]))
        start--;
    field = (span){text->start + start, text->length - start};
    text->length = start;
    drop_separators_behind(text);
    return field;
}

/* The number with a digit behind it, or the largest of the type. */
static uint32_t with_digit(uint32_t number, uint32_t digit)
{
    return number > (UINT32_MAX - digit) / 10 ? UINT32_MAX : number * 10 + digit;
}

bool is_digit(uint8_t c)
{
    return c >= '0' && c <= '9';
}

bool read_number(span text, uint32_t *number)
{
    *number = 0;
    for (size_t i = 0; i < text.length; i++) {
        if (!is_digit(text.start[i]))
            return false;
        *number = with_digit(*number, (uint32_t)(text.start[i] - '0'));
    }
    return text.length > 0;
}

uint32_t number_in(span field)
{
    uint32_t number;

    return read_number(field, &number) ? number : UINT32_MAX;
}

uint32_t tenths_in(span field)
{
    uint32_t whole, tenth = 0;

    if (field.length > 2 && field.start[field.length - 2] == '.') {
        span last = {field.start + field.length - 1, 1};

        if (!read_number(last, &tenth))
            return UINT32_MAX;
        field.length -= 2;
    }
    return read_number(field, &whole) ? with_digit(whole, tenth) : UINT32_MAX;
}

int32_t signed_tenths_in(span field)
{
    bool negative = field.length > 0 && *field.start == '-';
    uint32_t tenths;

    if (negative || (field.length > 0 && *field.start == '+')) {
        field.start++;
        field.length--;
    }
    tenths = tenths_in(field);
    if (tenths > INT32_MAX)
        return INT32_MAX;
    return negative ? -(int32_t)tenths : (int32_t)tenths;
}
