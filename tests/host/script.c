// The answer of each call of a script. A script holds a record in each carrier, and its calls go to these.
#include "host.h"
#include "play.h"

#include <stdio.h>
#include <string.h>

enum {
    LENT_NUMBER = 1000, // the first number of a buffer for times before a call; each further one is 1 more
    LENT_BYTE = 200,    // each byte of a buffer for marks before a call
    MOST_WIDTHS = 5,
};

static struct carried carried;

// What a call is given.
struct given {
    int which; // of the carriers, or of the lists
    size_t count;
    const int64_t *numbers;
};

// ---- Answers, each word after a blank

static bool say_refused(uint8_t refusal)
{
    if (refusal != 0)
        printf(" refused %u", refusal);
    return refusal != 0;
}

static void say_done(uint8_t refusal)
{
    if (!say_refused(refusal))
        printf(" done");
}

static void say_header(struct ricecrock_header header)
{
    if (!say_refused(header.refusal))
        printf(" %u %u %u %u", header.seats, header.bound, header.rounds, header.edits);
}

static void say_written(struct ricecrock_length written, struct bytes out)
{
    if (say_refused(written.refusal))
        return;
    printf(" %zu ", written.length);
    say_hex(out.start, written.length);
}

static void say_times(const int16_t *times, size_t count)
{
    for (size_t i = 0; i < count; i++)
        printf(" %d", times[i]);
}

// ---- FNV-1a

static const uint32_t no_bytes_sum = 0x811C9DC5;

static uint32_t add_to_sum(uint32_t sum, const void *bytes, size_t count)
{
    for (const uint8_t *at = bytes; count > 0; at++, count--)
        sum = (sum ^ *at) * 0x01000193;
    return sum;
}

// ---- What a script holds

static void *lend_instead(void *before, const char *name, size_t width, size_t count)
{
    if (before)
        take_back(before);
    return lend_for_long(name, width, count);
}

static void hold_bytes(const struct given *given)
{
    struct bytes *bytes = &carried.bytes;
    bytes->start = lend_instead(bytes->start, "the bytes", 1, given->count);
    bytes->count = given->count;
    for (size_t i = 0; i < given->count; i++)
        bytes->start[i] = (uint8_t)given->numbers[i];
}

static void hold_list(enum list list, const struct given *given)
{
    struct lists *lists = &carried.lists;
    struct list_kind kind = list_kinds[list];
    lists->entries[list] = lend_instead(lists->entries[list], kind.name, kind.width, given->count);
    lists->counts[list] = given->count;
    for (size_t i = 0; i < given->count; i++)
        put_entry(lists, list, i, given->numbers[i]);
}

void start_script(void)
{
    static const struct given nothing;
    hold_bytes(&nothing);
    for (int list = 0; list < LIST_COUNT; list++)
        hold_list(list, &nothing);
    carried.lists.seats = carried.lists.bound = carried.lists.rounds = 0;
    carried.table = lend_instead(carried.table, "the table", sizeof *carried.table, 1);
}

static void play_fresh(const struct given *given)
{
    (void)given;
    start_script();
    say_done(0);
}

static void play_bytes(const struct given *given)
{
    hold_bytes(given);
    say_done(0);
}

static void play_lists(const struct given *given)
{
    carried.lists.seats = (uint32_t)given->numbers[0];
    carried.lists.bound = (uint32_t)given->numbers[1];
    carried.lists.rounds = (uint32_t)given->numbers[2];
    say_done(0);
}

static void play_list(const struct given *given)
{
    hold_list(given->which, given);
    say_done(0);
}

// ---- A record as bytes and as lists

static struct bytes lend_space(size_t room)
{
    return (struct bytes){lend("the space for the record", 1, room), room};
}

static void play_bytes_check(const struct given *given)
{
    (void)given;
    say_header(check_bytes(carried.bytes));
}

static void play_bytes_read(const struct given *given)
{
    size_t rooms[LIST_COUNT];
    for (int list = 0; list < LIST_COUNT; list++)
        rooms[list] = (size_t)given->numbers[list];
    struct lists lists = lend_lists(rooms);
    struct ricecrock_header header = read_bytes(carried.bytes, &lists);
    say_header(header);
    if (header.refusal != 0)
        return;
    uint32_t sum = no_bytes_sum;
    for (int list = 0; list < LIST_COUNT; list++)
        sum = add_to_sum(sum, lists.entries[list], rooms[list] * list_kinds[list].width);
    printf(" %08x", sum);
}

static void play_lists_judge(const struct given *given)
{
    (void)given;
    say_header(judge_lists(&carried.lists));
}

static void play_lists_length(const struct given *given)
{
    (void)given;
    struct ricecrock_length length = measure_lists(&carried.lists);
    if (!say_refused(length.refusal))
        printf(" %zu", length.length);
}

static void play_lists_write(const struct given *given)
{
    struct bytes out = lend_space((size_t)given->numbers[0]);
    say_written(write_lists(&carried.lists, out), out);
}

// ---- The live table

static void play_table_open(const struct given *given)
{
    say_done(open_table(carried.table, (uint32_t)given->numbers[0], (uint32_t)given->numbers[1]));
}

static void play_table_round(const struct given *given)
{
    uint16_t *sets = lend("the sets", sizeof *sets, given->count);
    for (size_t i = 0; i < given->count; i++)
        sets[i] = (uint16_t)given->numbers[i];
    say_done(add_round(carried.table, sets, given->count));
}

static void play_table_edit(const struct given *given)
{
    struct ricecrock_seat seat = {(uint32_t)given->numbers[0]};
    say_done(add_edit(carried.table, seat, (uint32_t)given->numbers[1], (int32_t)given->numbers[2]));
}

static void play_table_record(const struct given *given)
{
    struct bytes out = lend_space((size_t)given->numbers[0]);
    say_written(write_table(carried.table, out), out);
}

static void play_table_sum(const struct given *given)
{
    (void)given;
    printf(" %08x", add_to_sum(no_bytes_sum, carried.table, sizeof *carried.table));
}

// The numbers of a table that a host can scribble on: where they begin, the bytes of each, and how many there are.
static const struct field {
    size_t offset, width, count;
} fields[] = {
    {offsetof(struct ricecrock_table, seats), 1, 1},
    {offsetof(struct ricecrock_table, bound), 1, 1},
    {offsetof(struct ricecrock_table, rounds), 2, 1},
    {offsetof(struct ricecrock_table, edits), 2, 1},
    {offsetof(struct ricecrock_table, losses), 2, RICECROCK_LOSS_SETS},
    {offsetof(struct ricecrock_table, editors), 1, RICECROCK_EDITS},
    {offsetof(struct ricecrock_table, times), 2, RICECROCK_EDITS},
    {offsetof(struct ricecrock_table, cells), 4, RICECROCK_EDITS},
    {offsetof(struct ricecrock_table, changes), 2, RICECROCK_EDITS},
};

// A field that is one number pays no heed to the index; past a field nothing is altered.
static void play_table_alter(const struct given *given)
{
    size_t number = (size_t)given->numbers[0], index = (size_t)given->numbers[1];
    if (number < sizeof fields / sizeof fields[0]) {
        struct field field = fields[number];
        if (field.count == 1)
            index = 0;
        if (index < field.count)
            memcpy((uint8_t *)carried.table + field.offset + index * field.width, &given->numbers[2], field.width);
        host_wrote(carried.table);
    }
    say_done(0);
}

// ---- Questions

static struct place place_of(const struct given *given)
{
    return (struct place){{(uint32_t)given->numbers[0]}, {(uint32_t)given->numbers[1]}};
}

static void play_seen(const struct given *given)
{
    struct ricecrock_seen seen = ask_seen(&carried, given->which, place_of(given));
    if (say_refused(seen.refusal))
        return;
    say_times(seen.view, RICECROCK_SEATS);
    printf(" %u", seen.known);
}

static void play_agreed(const struct given *given)
{
    struct ricecrock_agreed agreed = ask_agreed(&carried, given->which, place_of(given));
    if (say_refused(agreed.refusal))
        return;
    printf(" %d %u %u %u", agreed.critical, agreed.steps, agreed.kept, agreed.count);
    say_times(agreed.core, RICECROCK_SEATS);
}

static void play_standing(const struct given *given)
{
    struct ricecrock_standing standing =
        ask_standing(&carried, given->which, (struct ricecrock_seat){(uint32_t)given->numbers[0]});
    if (say_refused(standing.refusal))
        return;
    if (standing.loser > 1)
        printf(" %u", standing.loser);
    else
        printf(standing.loser ? " loser" : " clean");
}

static int16_t *lend_times(size_t room)
{
    int16_t *times = lend("the buffer", sizeof *times, room);
    for (size_t i = 0; i < room; i++)
        times[i] = (int16_t)(LENT_NUMBER + i);
    return times;
}

static void play_view(const struct given *given)
{
    size_t room = (size_t)given->numbers[2];
    int16_t *view = lend_times(room);
    if (!say_refused(ask_view(&carried, given->which, place_of(given), view, room)))
        say_times(view, room);
}

static void play_core(const struct given *given)
{
    size_t room = (size_t)given->numbers[2];
    int16_t *core = lend_times(room);
    if (!say_refused(ask_core(&carried, given->which, place_of(given), core, room)))
        say_times(core, room);
}

static void play_marks(const struct given *given)
{
    size_t room = (size_t)given->numbers[2];
    uint8_t *marks = lend("the buffer", 1, room);
    memset(marks, LENT_BYTE, room);
    if (say_refused(ask_marks(&carried, given->which, place_of(given), marks, room)))
        return;
    for (size_t i = 0; i < room; i++)
        printf(" %u", marks[i]);
}

// ---- The calls by name

enum width { U8, U16, U32, I16, I32, ROOM, SPACE };

static const struct range {
    int64_t least, most;
} ranges[] = {
    [U8] = {0, UINT8_MAX},
    [U16] = {0, UINT16_MAX},
    [U32] = {0, UINT32_MAX},
    [I16] = {INT16_MIN, INT16_MAX},
    [I32] = {INT32_MIN, INT32_MAX},
    [ROOM] = {0, MOST_NUMBERS}, // entries of a list, or numbers of a buffer
    [SPACE] = {0, MOST_BYTES},  // bytes for a record
};

// How many numbers a call has, where the count is not fixed. They have the first width then.
enum { ANY = MOST_WIDTHS + 1, PAIRS };

struct call {
    const char *name;
    void (*play)(const struct given *given);
    size_t count;
    enum width widths[MOST_WIDTHS];
    int which;
};

#define QUESTIONS(carrier, which)                                                                                     \
    {carrier "-seen", play_seen, 2, {U32, U32}, which},                                                               \
    {carrier "-agreed", play_agreed, 2, {U32, U32}, which},                                                           \
    {carrier "-standing", play_standing, 1, {U32}, which},                                                            \
    {carrier "-view", play_view, 3, {U32, U32, ROOM}, which},                                                         \
    {carrier "-core", play_core, 3, {U32, U32, ROOM}, which},                                                         \
    {carrier "-marks", play_marks, 3, {U32, U32, ROOM}, which}

static const struct call calls[] = {
    {"fresh", play_fresh, 0, {0}, 0},
    {"bytes", play_bytes, PAIRS, {U8}, 0},
    {"lists", play_lists, 3, {U32, U32, U32}, 0},
    {"losses", play_list, ANY, {U16}, LOSSES},
    {"editors", play_list, ANY, {U8}, EDITORS},
    {"times", play_list, ANY, {U16}, TIMES},
    {"cells", play_list, ANY, {U32}, CELLS},
    {"changes", play_list, ANY, {I16}, CHANGES},
    {"bytes-check", play_bytes_check, 0, {0}, 0},
    {"bytes-read", play_bytes_read, 5, {ROOM, ROOM, ROOM, ROOM, ROOM}, 0},
    {"lists-judge", play_lists_judge, 0, {0}, 0},
    {"lists-length", play_lists_length, 0, {0}, 0},
    {"lists-write", play_lists_write, 1, {SPACE}, 0},
    {"table-open", play_table_open, 2, {U32, U32}, 0},
    {"table-round", play_table_round, ANY, {U16}, 0},
    {"table-edit", play_table_edit, 3, {U32, U32, I32}, 0},
    {"table-record", play_table_record, 1, {SPACE}, 0},
    {"table-alter", play_table_alter, 3, {U8, U16, U32}, 0},
    {"table-sum", play_table_sum, 0, {0}, 0},
    QUESTIONS("bytes", BYTES),
    QUESTIONS("lists", LISTS),
    QUESTIONS("table", TABLE),
};

static const struct call *find_call(const char *name, size_t length)
{
    for (size_t i = 0; i < sizeof calls / sizeof calls[0]; i++)
        if (strlen(calls[i].name) == length && memcmp(calls[i].name, name, length) == 0)
            return &calls[i];
    return NULL;
}

static bool fits(const struct call *call, const struct numbers *numbers)
{
    bool fixed = call->count < ANY;
    if (fixed && numbers->count != call->count)
        return false;
    for (size_t i = 0; i < numbers->count; i++) {
        struct range range = ranges[call->widths[fixed ? i : 0]];
        if (numbers->of[i] < range.least || numbers->of[i] > range.most)
            return false;
    }
    return true;
}

static size_t word_length(const char *line, size_t length)
{
    const char *blank = memchr(line, ' ', length);
    return blank ? (size_t)(blank - line) : length;
}

void answer_call(const char *line, size_t length)
{
    static struct numbers numbers;
    size_t word = word_length(line, length);
    const struct call *call = find_call(line, word);
    bool (*read)(const char *, size_t, struct numbers *) = call && call->count == PAIRS ? read_pairs : read_numbers;
    if (call && read(line + word, length - word, &numbers) && fits(call, &numbers)) {
        fwrite(line, 1, word, stdout);
        call->play(&(struct given){call->which, numbers.count, numbers.of});
    } else {
        printf("unknown");
    }
    end_row();
}
