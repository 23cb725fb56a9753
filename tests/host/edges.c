// Runs document 01's P11 and P12 and every row of its "Edges to run", and then rows of our own for each refusal of
// reading and writing, 1 to 7 and 10, by the calls of a host. Each row prints a line. What has to come out stands in
// edges.expected, which was worked out by hand from the document.
#include "host.h"

#include <stdio.h>
#include <string.h>

enum {
    SPACE = 16,      // bytes to write into, more than the rows below need
    BEFORE_CELL = 6, // bytes of a record of one edit without rounds, before the edit's cell
};

// What a row has no use for is 0.
struct row {
    void (*run)(const struct row *row);
    const char *name;
    const char *record;        // as hexadecimal digits
    size_t zeros;              // bytes 0 after those
    int32_t value;             // a cell, a change, or the number that a change is written as
    size_t counts[LIST_COUNT]; // the lists' lengths
    size_t space;              // bytes to write into
};

// ---- What a row does

static struct bytes lend_record(const struct row *row)
{
    size_t digits = 0;
    for (const char *at = row->record; *at; at++)
        digits += hex_digit(*at) >= 0;
    struct bytes record = {.count = digits / 2 + row->zeros};
    record.start = lend("the record", 1, record.count);
    memset(record.start, 0, record.count);
    hex_bytes(row->record, strlen(row->record), record.start, digits / 2);
    return record;
}

static void say_answer(uint8_t refusal)
{
    if (refusal == 0)
        printf("good");
    else
        printf("refused %u", refusal);
}

// Where a row gives no counts, there is room for any record.
static void reads(const struct row *row)
{
    struct lists lists = lend_lists(row->counts[LOSSES] > 0 ? row->counts : any_record);
    printf("%s: ", row->name);
    say_answer(read_bytes(lend_record(row), &lists).refusal);
}

static struct bytes lend_space(size_t count)
{
    return (struct bytes){lend("the space for the record", 1, count), count};
}

// Reads, and writes again from as many entries as the header says.
static void writes_again(const struct row *row)
{
    struct lists lists = lend_lists(any_record);
    struct bytes space = lend_space(SPACE);
    struct ricecrock_header header = read_bytes(lend_record(row), &lists);
    lists = used_of(&lists, header);
    struct ricecrock_length written = write_lists(&lists, space);
    printf("%s is written again as", row->name);
    if (header.refusal == 0 && written.refusal == 0)
        say_bytes(space.start, written.length);
    else
        printf(" refused %u", header.refusal != 0 ? header.refusal : written.refusal);
}

// The change of the first edit, which the record writes as this number.
static void reads_change(const struct row *row)
{
    struct lists lists = lend_lists(any_record);
    read_bytes(lend_record(row), &lists);
    printf("number ");
    say_number(row->value);
    printf(" is read as change ");
    say_number(*(int16_t *)lists.entries[CHANGES]);
}

static struct lists lend_zeros(const size_t counts[LIST_COUNT])
{
    struct lists lists = lend_lists(counts);
    for (int list = 0; list < LIST_COUNT; list++)
        memset(lists.entries[list], 0, counts[list] * list_kinds[list].width);
    return lists;
}

// Writes one round of two seats from lists of zeros.
static void writes(const struct row *row)
{
    struct lists lists = lend_zeros(row->counts);
    lists.seats = 2;
    lists.rounds = 1;
    printf("%s: ", row->name);
    say_answer(write_lists(&lists, lend_space(row->space)).refusal);
}

// The bytes of an edit's cell and change, from a record of two seats that has only this edit.
static struct bytes write_edit(uint32_t cell, int16_t change)
{
    struct lists lists = lend_zeros((size_t[LIST_COUNT]){0, 1, 1, 1, 1});
    struct bytes space = lend_space(SPACE);
    lists.seats = 2;
    put_entry(&lists, CELLS, 0, cell);
    put_entry(&lists, CHANGES, 0, change);
    size_t length = write_lists(&lists, space).length;
    if (length < BEFORE_CELL)
        return (struct bytes){space.start, 0};
    return (struct bytes){space.start + BEFORE_CELL, length - BEFORE_CELL};
}

// A number as a cell, which a change of one byte follows.
static void writes_number(const struct row *row)
{
    struct bytes edit = write_edit((uint32_t)row->value, 0);
    printf("number ");
    say_number(row->value);
    printf(" is written as");
    say_bytes(edit.start, edit.count > 0 ? edit.count - 1 : 0);
}

// A change after a cell of one byte; its groups of seven bits are put together again.
static void writes_change(const struct row *row)
{
    struct bytes edit = write_edit(0, (int16_t)row->value);
    int32_t mapped = 0;
    for (size_t i = edit.count; i-- > 1;)
        mapped = mapped * 128 + edit.start[i] % 128;
    printf("change ");
    say_number(row->value);
    printf(" is written as ");
    say_number(mapped);
}

// ---- The rows

static const struct row rows[] = {
    // Document 01's P11 and P12.
    {writes_again, "the printed record", .record = "03 01 02 01 00 00 01 00 00 00 02 00 05 05"},
    {writes_number, .value = 127},
    {writes_number, .value = 128},
    {writes_number, .value = 16384},
    {writes_number, .value = 65535},

    // The ranges of the header: seats, bound, rounds, edits.
    {reads, "seats 1", .record = "01 00 00 00"},
    {reads, "seats 8", .record = "08 00 00 00"},
    {reads, "seats 2", .record = "02 00 00 00"},
    {reads, "seats 7", .record = "07 00 00 00"},
    {reads, "bound equal to seats", .record = "03 03 00 00"},
    {reads, "bound one below seats", .record = "03 02 00 00"},
    {reads, "rounds 128", .record = "02 00 80 01 00"},
    {reads, "rounds 127", .record = "02 00 7F 00", .zeros = 2 * 127},
    {reads, "edits 513", .record = "02 00 00 81 04"},
    {reads, "edits 512, none following", .record = "02 00 00 80 04"},

    // The form of a number, here the bound of two seats.
    {reads, "80 00", .record = "02 80 00 00 00"},
    {reads, "FF FF FF", .record = "02 FF FF FF 00 00"},
    {reads, "80 at the end", .record = "02 80"},

    // A change and its number, both ways; the number is the last of the record.
    {writes_change, .value = -1},
    {writes_change, .value = 1},
    {writes_change, .value = -32768},
    {writes_change, .value = 32767},
    {reads_change, .value = 1, .record = "02 00 00 01 00 00 00 01"},
    {reads_change, .value = 2, .record = "02 00 00 01 00 00 00 02"},
    {reads_change, .value = 65535, .record = "02 00 00 01 00 00 00 FF FF 03"},
    {reads_change, .value = 65534, .record = "02 00 00 01 00 00 00 FE FF 03"},

    // Refusals 1 to 3.
    {reads, "no bytes", .record = ""},
    {reads, "80 80 at the end", .record = "02 80 80"},
    {reads, "80 80 00", .record = "02 80 80 00 00 00"},
    {reads, "FF FF FF at the end", .record = "02 FF FF FF"},
    {reads, "edit by a seat equal to seats", .record = "02 00 00 01 02 00 00 00"},
    {reads, "edit at a time above rounds", .record = "02 00 00 01 00 01 00 00"},
    {reads, "cell 65,536", .record = "02 00 00 01 00 00 80 80 04 00"},
    {reads, "change number 65,536", .record = "02 00 00 01 00 00 00 80 80 04"},

    // Refusals 4 to 6: one round of two seats; two edits; a record without either.
    {reads, "loss set with the own bit", .record = "02 00 01 00 01 00"},
    {reads, "loss set with a bit at seats", .record = "02 00 01 00 04 00"},
    {reads, "loss set 80 01", .record = "02 00 01 00 80 01 00"},
    {reads, "loss set 80 00", .record = "02 00 01 00 80 00 00"},
    {reads, "loss sets of all other seats", .record = "02 00 01 00 02 01"},
    {reads, "equal edits", .record = "02 00 00 02 00 00 05 02 00 00 05 02"},
    {reads, "edits equal but for the change", .record = "02 00 00 02 00 00 05 02 00 00 05 04"},
    {reads, "edits one cell apart", .record = "02 00 00 02 00 00 05 02 00 00 06 02"},
    {reads, "one byte left over", .record = "02 00 00 00 00"},

    // Refusal 7: room for loss sets, seats, times, cells and changes.
    {reads, "room for any record", .record = "02 00 00 00", .counts = {889, 512, 512, 512, 512}},
    {reads, "room for 888 loss sets", .record = "02 00 00 00", .counts = {888, 512, 512, 512, 512}},
    {reads, "room for 511 seats", .record = "02 00 00 00", .counts = {889, 511, 512, 512, 512}},
    {reads, "room for 511 times", .record = "02 00 00 00", .counts = {889, 512, 511, 512, 512}},
    {reads, "room for 511 cells", .record = "02 00 00 00", .counts = {889, 512, 512, 511, 512}},
    {reads, "room for 511 changes", .record = "02 00 00 00", .counts = {889, 512, 512, 512, 511}},
    {reads, "no bytes, room for 511 seats", .record = "", .counts = {889, 511, 512, 512, 512}},

    // Refusal 10: how many loss sets, seats, times, cells and changes, and how many bytes to write into.
    {writes, "lists that fit", .counts = {2, 1, 1, 1, 1}, .space = 10},
    {writes, "one loss set too few", .counts = {1, 1, 1, 1, 1}, .space = 10},
    {writes, "one loss set too many", .counts = {3, 1, 1, 1, 1}, .space = 10},
    {writes, "one time too few", .counts = {2, 1, 0, 1, 1}, .space = 10},
    {writes, "one cell too many", .counts = {2, 1, 1, 2, 1}, .space = 10},
    {writes, "one change too few", .counts = {2, 1, 1, 1, 0}, .space = 10},
    {writes, "513 seats, no times", .counts = {2, 513, 0, 0, 0}, .space = 10},
    {writes, "buffer one byte too short", .counts = {2, 1, 1, 1, 1}, .space = 9},
};

int main(void)
{
    for (size_t i = 0; i < sizeof rows / sizeof rows[0]; i++) {
        rows[i].run(&rows[i]);
        end_row();
    }
}
