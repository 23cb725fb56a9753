// What both codes are given: good inputs of any size, and faults to put into them.
#ifndef INPUT_H
#define INPUT_H

#include "ricecrock.h"

// Entries past what any record has, for lists and bytes that are too long.
enum { SPARE = 4 };

// How a record looks: its numbers, how many of its seats lose sends, and whether every edit takes the most bytes.
struct shape {
    uint8_t seats, bound;
    uint16_t rounds, edits;
    uint8_t losers, wide;
};

struct input {
    struct shape shape;
    // A record as lists.
    uint32_t seats, bound, rounds;
    uint16_t losses[RICECROCK_LOSS_SETS + SPARE];
    uint8_t editors[RICECROCK_EDITS + SPARE];
    uint16_t times[RICECROCK_EDITS + SPARE];
    uint32_t cells[RICECROCK_EDITS + SPARE];
    int16_t changes[RICECROCK_EDITS + SPARE];
    size_t losses_count, editors_count, times_count, cells_count, changes_count;
    // The same as bytes.
    uint8_t bytes[RICECROCK_RECORD + SPARE];
    size_t bytes_count;
    // The same as a live table.
    struct ricecrock_table table;
    // What is asked about.
    struct ricecrock_seat seat;
    struct ricecrock_time time;
    // What an opening, a live round and a live edit get.
    uint32_t new_seats, new_bound;
    uint16_t sets[RICECROCK_SEATS + SPARE];
    size_t sets_count;
    struct ricecrock_seat editor;
    uint32_t cell;
    int32_t change;
    // How much room is lent.
    struct {
        size_t losses, editors, times, cells, changes, record, numbers, marks, page;
    } room;
};

// A number below the given one, or 0. The same seed gives the same numbers.
uint32_t any(uint32_t below);

// An input of this shape without a fault. Still 9, 11 and 12 may be given, and 5 for the new edit.
void build_input(struct input *input, struct shape shape);

// A shape as any record may have, small or with as many rounds and edits as there can be.
struct shape any_shape(void);

// Puts one fault of any kind into an input.
void spoil_input(struct input *input);

#endif
