// The parts of the program that plays streams.
#ifndef PLAY_H
#define PLAY_H

#include <stdbool.h>
#include <stddef.h>
#include <stdint.h>

// ---- pages.c and script.c: the beginning, and then each line without its newline.

void start_pages(void);
void answer_record(const char *line, size_t length);

void start_script(void);
void answer_call(const char *line, size_t length);

// ---- words.c: what stands behind the word of a call. Each says whether it is as it has to be.

enum {
    MOST_NUMBERS = 1000,
    MOST_BYTES = 6000,
};

struct numbers {
    size_t count;
    int64_t of[MOST_BYTES];
};

// Whole numbers, each after a single blank. One that no width has room for is only known to be large.
bool read_numbers(const char *text, size_t length, struct numbers *numbers);

// Nothing, or after a blank pairs of hexadecimal digits, each a number.
bool read_pairs(const char *text, size_t length, struct numbers *numbers);

#endif
