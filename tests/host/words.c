// What stands behind the word of a call.
#include "host.h"
#include "play.h"

// Above every width, and far below what 64 bits hold.
static const int64_t large = 1000000000000;

// The digits of a number; where it ends, or the beginning if there is none.
static const char *read_digits(const char *at, const char *end, int64_t *value)
{
    *value = 0;
    for (; at < end && *at >= '0' && *at <= '9'; at++)
        if (*value < large)
            *value = *value * 10 + (*at - '0');
    return at;
}

bool read_numbers(const char *text, size_t length, struct numbers *numbers)
{
    const char *at = text, *end = text + length;
    for (numbers->count = 0; at < end; numbers->count++) {
        if (*at++ != ' ' || numbers->count == MOST_NUMBERS)
            return false;
        bool below = at < end && *at == '-';
        const char *digits = at + below;
        int64_t value;
        at = read_digits(digits, end, &value);
        if (at == digits)
            return false;
        numbers->of[numbers->count] = below ? -value : value;
    }
    return true;
}

bool read_pairs(const char *text, size_t length, struct numbers *numbers)
{
    numbers->count = length / 2;
    if (length == 0)
        return true;
    if (text[0] != ' ' || length == 1 || length % 2 == 0 || numbers->count > MOST_BYTES)
        return false;
    for (size_t i = 0; i < numbers->count; i++) {
        int high = hex_digit(text[1 + 2 * i]), low = hex_digit(text[2 + 2 * i]);
        if (high < 0 || low < 0)
            return false;
        numbers->of[i] = high * 16 + low;
    }
    return true;
}
