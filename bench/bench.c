// Measures the library beside the same rules in plain C, in one binary and one run. Both codes first get the same
// inputs, good and faulty, and have to leave the same bytes; then they are timed in turns, and the stack of each is
// painted. Every exported function is in the table of operations.
#include "input.h"
#include "plain.h"

#include <stdbool.h>
#include <stdio.h>
#include <stdlib.h>
#include <string.h>
#include <time.h>
#include <ucontext.h>

enum {
    MOST_SAMPLES = 401,
    FEWEST_SAMPLES = 9,
    BATCH_NANOSECONDS = 40000,
    ALL_NANOSECONDS = 150000000,
    STACK_BYTES = 1 << 20,
    PAINT = 0xA5,
    TRIALS = 5000,
    MOST_FAULTS = 3,
};

static void fail(const char *function, const char *what)
{
    printf("FAILED: %s: %s\n", function, what);
    exit(1);
}

// ---- The two codes ----

struct code {
    const char *name;
#define FIELD(function) __typeof__(ricecrock_##function) *function;
    EACH_FUNCTION(FIELD)
};

#define OF_LIBRARY(function) ricecrock_##function,
#define OF_PLAIN(function) plain_##function,
static const struct code library = {"library", EACH_FUNCTION(OF_LIBRARY)};
static const struct code plain = {"C", EACH_FUNCTION(OF_PLAIN)};

// ---- What is lent, and what is answered ----

// All that a call may write, and its answer number by number: the bytes between the fields of a result may differ.
struct lent {
    int64_t answer[5 + RICECROCK_SEATS];
    uint16_t losses[RICECROCK_LOSS_SETS];
    uint8_t editors[RICECROCK_EDITS];
    uint16_t times[RICECROCK_EDITS];
    uint32_t cells[RICECROCK_EDITS];
    int16_t changes[RICECROCK_EDITS];
    uint8_t record[RICECROCK_RECORD];
    int16_t numbers[RICECROCK_SEATS];
    uint8_t marks[RICECROCK_EDITS];
    struct ricecrock_table table;
    uint8_t page[RICECROCK_PAGE];
};

static struct lent lent_library, lent_plain;

static void keep_refusal(struct lent *lent, uint8_t refusal)
{
    lent->answer[0] = refusal;
}

static void keep_header(struct lent *lent, struct ricecrock_header header)
{
    lent->answer[0] = header.refusal;
    lent->answer[1] = header.seats;
    lent->answer[2] = header.bound;
    lent->answer[3] = header.rounds;
    lent->answer[4] = header.edits;
}

static void keep_length(struct lent *lent, struct ricecrock_length length)
{
    lent->answer[0] = length.refusal;
    lent->answer[1] = length.length;
}

static void keep_seen(struct lent *lent, struct ricecrock_seen seen)
{
    lent->answer[0] = seen.refusal;
    lent->answer[1] = seen.known;
    for (unsigned q = 0; q < RICECROCK_SEATS; q++)
        lent->answer[5 + q] = seen.view[q];
}

static void keep_agreed(struct lent *lent, struct ricecrock_agreed agreed)
{
    lent->answer[0] = agreed.refusal;
    lent->answer[1] = agreed.steps;
    lent->answer[2] = agreed.critical;
    lent->answer[3] = agreed.kept;
    lent->answer[4] = agreed.count;
    for (unsigned q = 0; q < RICECROCK_SEATS; q++)
        lent->answer[5 + q] = agreed.core[q];
}

static void keep_standing(struct lent *lent, struct ricecrock_standing standing)
{
    lent->answer[0] = standing.refusal;
    lent->answer[1] = standing.loser;
}

// ---- The calls ----

typedef void run_function(const struct code *code, const struct input *input, struct lent *lent);

// Parts of an input and of what is lent, as the functions take them.
#define BYTES input->bytes, input->bytes_count
#define LISTS                                                                                                         \
    input->seats, input->bound, input->rounds, input->losses, input->losses_count, input->editors,                    \
        input->editors_count, input->times, input->times_count, input->cells, input->cells_count, input->changes,     \
        input->changes_count
#define TABLE &lent->table
#define PLACE input->seat, input->time
#define INTO_LISTS                                                                                                    \
    lent->losses, input->room.losses, lent->editors, input->room.editors, lent->times, input->room.times,             \
        lent->cells, input->room.cells, lent->changes, input->room.changes
#define INTO_RECORD lent->record, input->room.record
#define INTO_PAGE lent->page, input->room.page
#define INTO_NUMBERS lent->numbers, input->room.numbers
#define INTO_MARKS lent->marks, input->room.marks

// How a function is called, and how its answer is kept.
#define CALL(function, answer, ...)                                                                                   \
    static void run_##function(const struct code *code, const struct input *input, struct lent *lent)                 \
    {                                                                                                                 \
        keep_##answer(lent, code->function(__VA_ARGS__));                                                             \
    }

#define QUESTIONS(carrier, ...)                                                                                       \
    CALL(carrier##_seen, seen, __VA_ARGS__, PLACE)                                                                    \
    CALL(carrier##_agreed, agreed, __VA_ARGS__, PLACE)                                                                \
    CALL(carrier##_standing, standing, __VA_ARGS__, input->seat)                                                      \
    CALL(carrier##_view, refusal, __VA_ARGS__, PLACE, INTO_NUMBERS)                                                   \
    CALL(carrier##_core, refusal, __VA_ARGS__, PLACE, INTO_NUMBERS)                                                   \
    CALL(carrier##_marks, refusal, __VA_ARGS__, PLACE, INTO_MARKS)

CALL(bytes_check, header, BYTES)
CALL(bytes_read, header, BYTES, INTO_LISTS)
CALL(bytes_page, length, BYTES, INTO_PAGE)
QUESTIONS(bytes, BYTES)
CALL(lists_judge, header, LISTS)
CALL(lists_length, length, LISTS)
CALL(lists_write, length, LISTS, INTO_RECORD)
QUESTIONS(lists, LISTS)
CALL(table_open, refusal, TABLE, input->new_seats, input->new_bound)
CALL(table_add_round, refusal, TABLE, input->sets, input->sets_count)
CALL(table_add_edit, refusal, TABLE, input->editor, input->cell, input->change)
CALL(table_record, length, TABLE, INTO_RECORD)
QUESTIONS(table, TABLE)

// ---- The operations ----

// The inputs that are timed: the longest record; numbers of all sizes; the same with exactly the room that is needed; a
// farm that lacks one round and one edit.
static struct input longest, sizes, exact, farm;

// Sets of refusals, bit r for refusal r.
enum {
    OF_BYTES = 1 << 1 | 1 << 2 | 1 << 3 | 1 << 4 | 1 << 5 | 1 << 6,
    OF_LISTS = 1 << 3 | 1 << 4 | 1 << 5 | 1 << 10,
    OF_TABLE = 1 << 19,
    OF_ROUND = 1 << 11 | 1 << 10 | 1 << 4,
    OF_EDIT = 1 << 3 | 1 << 12 | 1 << 5,
    RANGE = 1 << 3,
    ROOM = 1 << 7,
    PLACES = 1 << 8,
    BOUND = 1 << 9,
};

static const struct operation {
    const char *function;
    run_function *run;
    uint32_t refusals;
    const char *timed_on;
    const struct input *input;
} operations[] = {
#define OPERATION(function, refusals, input) {#function, run_##function, refusals, #input, &input}
    OPERATION(bytes_check, OF_BYTES, longest),
    OPERATION(bytes_read, OF_BYTES | ROOM, longest),
    OPERATION(bytes_page, ROOM, longest),
    OPERATION(bytes_seen, OF_BYTES | PLACES, longest),
    OPERATION(bytes_agreed, OF_BYTES | PLACES | BOUND, longest),
    OPERATION(bytes_standing, OF_BYTES | PLACES, longest),
    OPERATION(bytes_view, OF_BYTES | PLACES | ROOM, longest),
    OPERATION(bytes_core, OF_BYTES | PLACES | ROOM | BOUND, longest),
    OPERATION(bytes_marks, OF_BYTES | PLACES | ROOM | BOUND, longest),
    OPERATION(lists_judge, OF_LISTS, longest),
    OPERATION(lists_length, OF_LISTS, longest),
    OPERATION(lists_write, OF_LISTS | ROOM, longest),
    OPERATION(lists_seen, OF_LISTS | PLACES, longest),
    OPERATION(lists_agreed, OF_LISTS | PLACES | BOUND, longest),
    OPERATION(lists_standing, OF_LISTS | PLACES, longest),
    OPERATION(lists_view, OF_LISTS | PLACES | ROOM, longest),
    OPERATION(lists_core, OF_LISTS | PLACES | ROOM | BOUND, longest),
    OPERATION(lists_marks, OF_LISTS | PLACES | ROOM | BOUND, longest),
    OPERATION(table_open, RANGE, farm),
    OPERATION(table_add_round, OF_TABLE | OF_ROUND, farm),
    OPERATION(table_add_edit, OF_TABLE | OF_EDIT, farm),
    OPERATION(table_record, OF_TABLE | ROOM, longest),
    OPERATION(table_seen, OF_TABLE | PLACES, longest),
    OPERATION(table_agreed, OF_TABLE | PLACES | BOUND, longest),
    OPERATION(table_standing, OF_TABLE | PLACES, longest),
    OPERATION(table_view, OF_TABLE | PLACES | ROOM, longest),
    OPERATION(table_core, OF_TABLE | PLACES | ROOM | BOUND, longest),
    OPERATION(table_marks, OF_TABLE | PLACES | ROOM | BOUND, longest),
    // These once more, on other inputs.
    OPERATION(bytes_read, OF_BYTES | ROOM, sizes),
    OPERATION(lists_write, OF_LISTS | ROOM, sizes),
    OPERATION(lists_write, OF_LISTS | ROOM, exact),
};

#define COUNT(function) +1
enum { OPERATIONS = sizeof operations / sizeof operations[0], FUNCTIONS = 0 EACH_FUNCTION(COUNT) };

// The table begins with every function.
static void check_table(void)
{
#define NAME(function) #function,
    static const char *const names[FUNCTIONS] = {EACH_FUNCTION(NAME)};
    for (unsigned i = 0; i < FUNCTIONS; i++)
        if (strcmp(operations[i].function, names[i]) != 0)
            fail(names[i], "not where it belongs in the table of operations");
}

static void build_inputs(void)
{
    build_input(&longest, (struct shape){7, 6, 127, 512, 3, 1});
    longest.seat.number = 4;
    longest.time.number = 127;
    longest.room.record = RICECROCK_RECORD;
    longest.room.marks = RICECROCK_EDITS;
    build_input(&sizes, (struct shape){7, 6, 127, 512, 3, 0});
    sizes.room.record = RICECROCK_RECORD;
    exact = sizes;
    exact.room.record = sizes.bytes_count;
    build_input(&farm, (struct shape){7, 6, 126, 511, 3, 1});
    farm.editor.number = 6;
    farm.cell = UINT16_MAX;
}

// ---- Equal results ----

// Nothing but a call to add or to open changes the table, and only its numbers and what was not used before: with the
// numbers put back, the same call can be made again.
static void run_again(const struct operation *operation, const struct code *code, struct lent *lent)
{
    memcpy(&lent->table, &operation->input->table, offsetof(struct ricecrock_table, losses));
    operation->run(code, operation->input, lent);
}

static void prepare(const struct operation *operation)
{
    memset(&lent_library, PAINT, sizeof lent_library);
    lent_library.table = operation->input->table;
    lent_plain = lent_library;
}

static void compare(const char *function, size_t size)
{
    if (memcmp(&lent_library, &lent_plain, size) != 0)
        fail(function, "not the same bytes");
}

static void compare_operations(void)
{
    for (const struct operation *operation = operations; operation < operations + OPERATIONS; operation++) {
        prepare(operation);
        run_again(operation, &library, &lent_library);
        run_again(operation, &plain, &lent_plain);
        compare(operation->function, sizeof lent_plain);
        if (lent_plain.answer[0] != 0)
            fail(operation->function, "refused where it is timed");
    }
}

// Every function gets an input that has no fault, or some. What was given is noted as a set of refusals, 0 for done.
static void try_all(const struct input *input, uint32_t given[FUNCTIONS])
{
    for (unsigned i = 0; i < FUNCTIONS; i++) {
        lent_library.table = lent_plain.table = input->table;
        operations[i].run(&library, input, &lent_library);
        operations[i].run(&plain, input, &lent_plain);
        compare(operations[i].function, offsetof(struct lent, page));
        given[i] |= 1u << lent_plain.answer[0];
    }
    compare("bytes_page", sizeof lent_plain);
}

// At the end every function has been done, and has given each of its refusals and no other.
static void compare_trials(void)
{
    static struct input input;
    uint32_t given[FUNCTIONS] = {0};
    for (unsigned trial = 0; trial < TRIALS; trial++) {
        build_input(&input, any_shape());
        for (unsigned faults = any(MOST_FAULTS + 1); faults > 0; faults--)
            spoil_input(&input);
        try_all(&input, given);
    }
    for (unsigned i = 0; i < FUNCTIONS; i++)
        if (given[i] != (operations[i].refusals | 1u))
            fail(operations[i].function, "the refusals given are not those of its contract");
}

// ---- Times ----

static uint64_t nanoseconds(void)
{
    struct timespec now;
    clock_gettime(CLOCK_MONOTONIC, &now);
    return (uint64_t)now.tv_sec * 1000000000u + now.tv_nsec;
}

static uint64_t batch(const struct operation *operation, const struct code *code, struct lent *lent, unsigned calls)
{
    uint64_t start = nanoseconds();
    for (unsigned i = 0; i < calls; i++)
        run_again(operation, code, lent);
    return nanoseconds() - start;
}

static int by_size(const void *a, const void *b)
{
    uint64_t x = *(const uint64_t *)a, y = *(const uint64_t *)b;
    return (x > y) - (x < y);
}

static double median(uint64_t *samples, unsigned count, unsigned calls)
{
    qsort(samples, count, sizeof samples[0], by_size);
    return (double)samples[count / 2] / calls;
}

// How many batches are taken: fewer of those that take long.
static unsigned samples_of(uint64_t batch_nanoseconds)
{
    uint64_t samples = ALL_NANOSECONDS / batch_nanoseconds;
    return samples < FEWEST_SAMPLES ? FEWEST_SAMPLES : samples > MOST_SAMPLES ? MOST_SAMPLES : samples;
}

// The two take turns, so that whatever else the machine does falls on both.
static void measure_times(const struct operation *operation)
{
    static uint64_t of_library[MOST_SAMPLES], of_plain[MOST_SAMPLES];
    unsigned calls = 1;
    uint64_t taken;
    while ((taken = batch(operation, &plain, &lent_plain, calls)) < BATCH_NANOSECONDS)
        calls *= 2;
    unsigned samples = samples_of(taken);
    for (unsigned i = 0; i < samples; i++) {
        of_library[i] = batch(operation, &library, &lent_library, calls);
        of_plain[i] = batch(operation, &plain, &lent_plain, calls);
    }
    double ours = median(of_library, samples, calls), theirs = median(of_plain, samples, calls);
    printf("%-16s %-8s %11.0f %11.0f %8.2f", operation->function, operation->timed_on, ours, theirs, ours / theirs);
}

// ---- Stack ----

static ucontext_t caller, painted;
static const struct operation *painted_operation;
static const struct code *painted_code;
static struct lent *painted_lent;

static void run_painted(void)
{
    run_again(painted_operation, painted_code, painted_lent);
}

static void run_nothing(const struct code *code, const struct input *input, struct lent *lent)
{
    (void)code;
    (void)input;
    (void)lent;
}

// How far down the operation reaches on a stack that nobody has touched.
static size_t reach(const struct operation *operation, const struct code *code, struct lent *lent)
{
    static uint8_t stack[STACK_BYTES] __attribute__((aligned(64)));
    memset(stack, PAINT, sizeof stack);
    painted_operation = operation;
    painted_code = code;
    painted_lent = lent;
    getcontext(&painted);
    painted.uc_stack.ss_sp = stack;
    painted.uc_stack.ss_size = sizeof stack;
    painted.uc_link = &caller;
    makecontext(&painted, run_painted, 0);
    swapcontext(&caller, &painted);
    size_t deepest = 0;
    while (deepest < sizeof stack && stack[deepest] == PAINT)
        deepest++;
    return sizeof stack - deepest;
}

static void measure_stack(const struct operation *operation)
{
    struct operation nothing = *operation;
    nothing.run = run_nothing;
    size_t before = reach(&nothing, &library, &lent_library);
    size_t ours = reach(operation, &library, &lent_library) - before;
    size_t theirs = reach(operation, &plain, &lent_plain) - before;
    printf(" %8zu %8zu\n", ours, theirs);
}

// ---- Calls to be counted from outside ----

// calls FUNCTION INPUT CODE TIMES: makes these calls and no others. bench/count counts the instructions of one.
static int make_calls(char **words)
{
    for (const struct operation *operation = operations; operation < operations + OPERATIONS; operation++) {
        if (strcmp(operation->function, words[0]) != 0 || strcmp(operation->timed_on, words[1]) != 0)
            continue;
        prepare(operation);
        const bool ours = strcmp(words[2], library.name) == 0;
        for (int left = atoi(words[3]); left > 0; left--)
            run_again(operation, ours ? &library : &plain, ours ? &lent_library : &lent_plain);
        return 0;
    }
    fail(words[0], "not in the table of operations");
    return 1;
}

int main(int count, char **words)
{
    if (count == 6 && strcmp(words[1], "calls") == 0) {
        build_inputs();
        return make_calls(words + 2);
    }
    printf("%s\n", count > 1 ? words[1] : "machine not named");
    check_table();
    build_inputs();
    printf("longest: %zu bytes; sizes, numbers of all sizes: %zu bytes; exact: the same into exactly that room; "
           "farm: lacks a round and an edit\n",
           longest.bytes_count, sizes.bytes_count);
    compare_operations();
    compare_trials();
    printf("equal results: %d functions, each in %d trials with and without faults that gave each of its refusals\n\n",
           FUNCTIONS, TRIALS);
    printf("%-16s %-8s %11s %11s %8s %17s\n", "", "", "ns a call", "", "", "stack, bytes");
    printf("%-16s %-8s %11s %11s %8s %8s %8s\n", "function", "input", library.name, plain.name, "ratio", library.name,
           plain.name);
    for (const struct operation *operation = operations; operation < operations + OPERATIONS; operation++) {
        prepare(operation);
        measure_times(operation);
        measure_stack(operation);
    }
    return 0;
}
