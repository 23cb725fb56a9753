// What the programs here share: buffers lent between guards, the library's calls on them, bytes and numbers as text.
#ifndef HOST_H
#define HOST_H

#include "ricecrock.h"

#include <stdbool.h>

// ---- lent.c: a row lends buffers, calls the library, and says at its end what is not as it has to be.

// A buffer of so many entries, painted like the guards around it; it is the row's until its end.
void *lend(const char *name, size_t width, size_t count);

// A buffer that stays lent when rows end, until it is taken back.
void *lend_for_long(const char *name, size_t width, size_t count);
void take_back(void *entries);

// The host has written into a buffer that calls have had already.
void host_wrote(const void *entries);

// Before a call: everything lent is remembered as it is.
void before_call(void);

// After a call that was not refused: it may have changed so many bytes of a buffer from a byte on.
void may_change(const void *entries, size_t from, size_t size);

// After a call: everything else has to be as remembered, the guards too.
void after_call(void);

// Beside a refusal the rest of a result has to be empty.
void expect_empty(uint8_t refusal, bool empty);

// Ends the row's line, with the name of each buffer that was changed where it may not be.
void end_row(void);

// ---- calls.c: the calls other than questions, on lent buffers.

struct bytes {
    uint8_t *start;
    size_t count;
};

// A record as lists: three numbers, the loss sets, and the four fields of the edits.
enum list { LOSSES, EDITORS, TIMES, CELLS, CHANGES, LIST_COUNT };

struct lists {
    uint32_t seats, bound, rounds;
    size_t counts[LIST_COUNT];
    void *entries[LIST_COUNT];
};

// What a list is called, and the bytes of an entry.
extern const struct list_kind {
    const char *name;
    size_t width;
} list_kinds[LIST_COUNT];

// Room for the lists of any record.
extern const size_t any_record[LIST_COUNT];

// Lists of so many entries, painted; their numbers are 0.
struct lists lend_lists(const size_t counts[LIST_COUNT]);

void put_entry(const struct lists *lists, enum list list, size_t index, int64_t value);

// The record with this header that was read into lists.
struct lists used_of(const struct lists *lists, struct ricecrock_header header);

// Lists as the library takes them, part by part.
#define PARTS_OF(lists)                                                                                               \
    (lists).seats, (lists).bound, (lists).rounds, (lists).entries[LOSSES], (lists).counts[LOSSES],                    \
        (lists).entries[EDITORS], (lists).counts[EDITORS], (lists).entries[TIMES], (lists).counts[TIMES],             \
        (lists).entries[CELLS], (lists).counts[CELLS], (lists).entries[CHANGES], (lists).counts[CHANGES]

struct ricecrock_header check_bytes(struct bytes record);
struct ricecrock_header read_bytes(struct bytes record, const struct lists *lists);
struct ricecrock_length print_page(struct bytes record, struct bytes out);

struct ricecrock_header judge_lists(const struct lists *lists);
struct ricecrock_length measure_lists(const struct lists *lists);
struct ricecrock_length write_lists(const struct lists *lists, struct bytes out);

uint8_t open_table(struct ricecrock_table *table, uint32_t seats, uint32_t bound);
uint8_t add_round(struct ricecrock_table *table, const uint16_t *sets, size_t count);
uint8_t add_edit(struct ricecrock_table *table, struct ricecrock_seat seat, uint32_t cell, int32_t change);
struct ricecrock_length write_table(const struct ricecrock_table *table, struct bytes out);

// ---- questions.c: the questions, each to one of the three carriers of a record.

enum carrier { BYTES, LISTS, TABLE };

struct carried {
    struct bytes bytes;
    struct lists lists;
    struct ricecrock_table *table;
};

struct place {
    struct ricecrock_seat seat;
    struct ricecrock_time time;
};

struct ricecrock_seen ask_seen(const struct carried *of, enum carrier carrier, struct place place);
struct ricecrock_agreed ask_agreed(const struct carried *of, enum carrier carrier, struct place place);
struct ricecrock_standing ask_standing(const struct carried *of, enum carrier carrier, struct ricecrock_seat seat);
uint8_t ask_view(const struct carried *of, enum carrier carrier, struct place place, int16_t *out, size_t room);
uint8_t ask_core(const struct carried *of, enum carrier carrier, struct place place, int16_t *out, size_t room);
uint8_t ask_marks(const struct carried *of, enum carrier carrier, struct place place, uint8_t *out, size_t room);

// ---- text.c

// The value of a hexadecimal digit in either case, or -1.
int hex_digit(char letter);

// Puts the bytes that pairs of hexadecimal digits are, as many as there is room for, and says how many. Whatever is no
// digit is skipped, and a lone last digit is dropped.
size_t hex_bytes(const char *text, size_t length, uint8_t *out, size_t room);

// Each byte as two lower-case digits, without blanks.
void say_hex(const uint8_t *bytes, size_t count);

// Each byte as two upper-case digits after a blank.
void say_bytes(const uint8_t *bytes, size_t count);

// With a comma before the last three digits, as in document 01.
void say_number(int32_t value);

#endif
