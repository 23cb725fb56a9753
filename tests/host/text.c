// Bytes and numbers as text.
#include "host.h"

#include <stdio.h>

int hex_digit(char letter)
{
    if (letter >= '0' && letter <= '9')
        return letter - '0';
    if (letter >= 'a' && letter <= 'f')
        return letter - 'a' + 10;
    if (letter >= 'A' && letter <= 'F')
        return letter - 'A' + 10;
    return -1;
}

size_t hex_bytes(const char *text, size_t length, uint8_t *out, size_t room)
{
    size_t count = 0;
    int first = -1;
    for (const char *at = text; at < text + length && count < room; at++) {
        int digit = hex_digit(*at);
        if (digit >= 0 && first >= 0) {
            out[count++] = (uint8_t)(first * 16 + digit);
            first = -1;
        } else if (digit >= 0) {
            first = digit;
        }
    }
    return count;
}

void say_hex(const uint8_t *bytes, size_t count)
{
    static const char digits[] = "0123456789abcdef";
    for (size_t i = 0; i < count; i++) {
        putchar(digits[bytes[i] / 16]);
        putchar(digits[bytes[i] % 16]);
    }
}

void say_bytes(const uint8_t *bytes, size_t count)
{
    for (size_t i = 0; i < count; i++)
        printf(" %02X", bytes[i]);
}

void say_number(int32_t value)
{
    int32_t size = value < 0 ? -value : value;
    printf("%s", value < 0 ? "-" : "");
    if (size < 1000)
        printf("%d", size);
    else
        printf("%d,%03d", size / 1000, size % 1000);
}
