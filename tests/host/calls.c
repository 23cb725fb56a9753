// The library's calls other than questions, on lent buffers: what each may change stands here, and all else has to
// stay. Beside a refusal the other fields of a result have to be 0, a length too, so that nothing may change.
#include "host.h"

#include <string.h>

// ---- Lists

const struct list_kind list_kinds[LIST_COUNT] = {
    [LOSSES] = {"the loss sets", sizeof(uint16_t)}, [EDITORS] = {"the editors", sizeof(uint8_t)},
    [TIMES] = {"the times", sizeof(uint16_t)},      [CELLS] = {"the cells", sizeof(uint32_t)},
    [CHANGES] = {"the changes", sizeof(int16_t)},
};

const size_t any_record[LIST_COUNT] = {
    RICECROCK_LOSS_SETS, RICECROCK_EDITS, RICECROCK_EDITS, RICECROCK_EDITS, RICECROCK_EDITS,
};

struct lists lend_lists(const size_t counts[LIST_COUNT])
{
    struct lists lists = {0};
    for (int list = 0; list < LIST_COUNT; list++) {
        lists.counts[list] = counts[list];
        lists.entries[list] = lend(list_kinds[list].name, list_kinds[list].width, counts[list]);
    }
    return lists;
}

// The lowest bytes of a number stand first here, as the library needs it.
void put_entry(const struct lists *lists, enum list list, size_t index, int64_t value)
{
    size_t width = list_kinds[list].width;
    memcpy((uint8_t *)lists->entries[list] + index * width, &value, width);
}

struct lists used_of(const struct lists *lists, struct ricecrock_header header)
{
    struct lists used = *lists;
    used.seats = header.seats;
    used.bound = header.bound;
    used.rounds = header.rounds;
    for (int list = 0; list < LIST_COUNT; list++)
        used.counts[list] = list == LOSSES ? (size_t)header.seats * header.rounds : header.edits;
    return used;
}

// ---- Results

static struct ricecrock_header expect_header(struct ricecrock_header header)
{
    expect_empty(header.refusal, header.seats == 0 && header.bound == 0 && header.rounds == 0 && header.edits == 0);
    return header;
}

// After a call that writes bytes. A length past the buffer counts as a change of it; nobody has to read so far.
static struct ricecrock_length written_to(struct bytes out, struct ricecrock_length written)
{
    may_change(out.start, 0, written.length);
    after_call();
    expect_empty(written.refusal, written.length == 0);
    if (written.length > out.count)
        written.length = out.count;
    return written;
}

// ---- A record as bytes

struct ricecrock_header check_bytes(struct bytes record)
{
    before_call();
    struct ricecrock_header header = ricecrock_bytes_check(record.start, record.count);
    after_call();
    return expect_header(header);
}

struct ricecrock_header read_bytes(struct bytes record, const struct lists *lists)
{
    before_call();
    struct ricecrock_header header = ricecrock_bytes_read(
        record.start, record.count, lists->entries[LOSSES], lists->counts[LOSSES], lists->entries[EDITORS],
        lists->counts[EDITORS], lists->entries[TIMES], lists->counts[TIMES], lists->entries[CELLS],
        lists->counts[CELLS], lists->entries[CHANGES], lists->counts[CHANGES]);
    if (header.refusal == 0) {
        struct lists used = used_of(lists, header);
        for (int list = 0; list < LIST_COUNT; list++)
            may_change(used.entries[list], 0, used.counts[list] * list_kinds[list].width);
    }
    after_call();
    return expect_header(header);
}

struct ricecrock_length print_page(struct bytes record, struct bytes out)
{
    before_call();
    return written_to(out, ricecrock_bytes_page(record.start, record.count, out.start, out.count));
}

// ---- A record as lists

struct ricecrock_header judge_lists(const struct lists *lists)
{
    before_call();
    struct ricecrock_header header = ricecrock_lists_judge(PARTS_OF(*lists));
    after_call();
    return expect_header(header);
}

struct ricecrock_length measure_lists(const struct lists *lists)
{
    before_call();
    struct ricecrock_length length = ricecrock_lists_length(PARTS_OF(*lists));
    after_call();
    expect_empty(length.refusal, length.length == 0);
    return length;
}

struct ricecrock_length write_lists(const struct lists *lists, struct bytes out)
{
    before_call();
    return written_to(out, ricecrock_lists_write(PARTS_OF(*lists), out.start, out.count));
}

// ---- The live table

uint8_t open_table(struct ricecrock_table *table, uint32_t seats, uint32_t bound)
{
    before_call();
    uint8_t refusal = ricecrock_table_open(table, seats, bound);
    if (refusal == 0)
        may_change(table, 0, offsetof(struct ricecrock_table, losses));
    after_call();
    return refusal;
}

// So many entries of a list of the table may change, from an index on.
#define ENTRIES_MAY_CHANGE(table, list, index, count)                                                                 \
    may_change(table, offsetof(struct ricecrock_table, list) + (index) * sizeof(table)->list[0],                      \
               (count) * sizeof(table)->list[0])

uint8_t add_round(struct ricecrock_table *table, const uint16_t *sets, size_t count)
{
    size_t used = (size_t)table->seats * table->rounds;
    before_call();
    uint8_t refusal = ricecrock_table_add_round(table, sets, count);
    if (refusal == 0) {
        may_change(table, offsetof(struct ricecrock_table, rounds), sizeof table->rounds);
        ENTRIES_MAY_CHANGE(table, losses, used, count);
    }
    after_call();
    return refusal;
}

uint8_t add_edit(struct ricecrock_table *table, struct ricecrock_seat seat, uint32_t cell, int32_t change)
{
    size_t used = table->edits;
    before_call();
    uint8_t refusal = ricecrock_table_add_edit(table, seat, cell, change);
    if (refusal == 0) {
        may_change(table, offsetof(struct ricecrock_table, edits), sizeof table->edits);
        ENTRIES_MAY_CHANGE(table, editors, used, 1);
        ENTRIES_MAY_CHANGE(table, times, used, 1);
        ENTRIES_MAY_CHANGE(table, cells, used, 1);
        ENTRIES_MAY_CHANGE(table, changes, used, 1);
    }
    after_call();
    return refusal;
}

struct ricecrock_length write_table(const struct ricecrock_table *table, struct bytes out)
{
    before_call();
    return written_to(out, ricecrock_table_record(table, out.start, out.count));
}
