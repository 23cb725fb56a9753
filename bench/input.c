// Good inputs, and faults.
#include "input.h"
#include "plain.h"

#include <stdlib.h>
#include <string.h>

uint32_t any(uint32_t below)
{
    static uint64_t seed = 0x9E3779B97F4A7C15u;
    seed ^= seed << 13;
    seed ^= seed >> 7;
    seed ^= seed << 17;
    return below == 0 ? 0 : (seed >> 33) % below;
}

// ---- Good inputs ----

// Some seats lose a send now and then, so that every view has something to look for.
static uint16_t any_set(struct shape shape, unsigned sender)
{
    uint16_t others = ((1u << shape.seats) - 1) & ~(1u << sender);
    return sender < shape.losers && any(8) == 0 ? any(1u << shape.seats) & others : 0;
}

// A number that takes one, two or three bytes.
static uint32_t any_size(void)
{
    switch (any(3)) {
    case 0:
        return any(128);
    case 1:
        return 128 + any(16384 - 128);
    default:
        return 16384 + any(65536 - 16384);
    }
}

static int16_t any_change(unsigned wide)
{
    uint32_t mapped = wide ? 16384 + any(65536 - 16384) : any_size();
    int half = mapped / 2;
    return mapped % 2 == 0 ? half : -1 - half;
}

// Edits spread over the whole record, in rising order. Wide ones take the most bytes that an edit can.
static void fill_edits(struct input *input, struct shape shape)
{
    uint32_t places = (shape.rounds + 1u) * shape.seats;
    uint32_t place = 0, cell = 0;
    for (unsigned i = 0; i < shape.edits; i++) {
        uint32_t next = (uint64_t)i * places / shape.edits;
        uint32_t drawn = shape.wide ? 16384 + any(40000) : any_size() / 2;
        cell = i > 0 && next == place && drawn <= cell ? cell + 1 : drawn;
        place = next;
        input->editors[i] = place % shape.seats;
        input->times[i] = place / shape.seats;
        input->cells[i] = cell;
        input->changes[i] = any_change(shape.wide);
    }
}

static void fill_lists(struct input *input, struct shape shape)
{
    input->seats = shape.seats;
    input->bound = shape.bound;
    input->rounds = shape.rounds;
    input->losses_count = (size_t)shape.seats * shape.rounds;
    for (unsigned i = 0; i < input->losses_count; i++)
        input->losses[i] = any_set(shape, i % shape.seats);
    input->editors_count = input->times_count = input->cells_count = input->changes_count = shape.edits;
    fill_edits(input, shape);
}

static void fill_bytes(struct input *input)
{
    struct ricecrock_length written =
        plain_lists_write(input->seats, input->bound, input->rounds, input->losses, input->losses_count,
                          input->editors, input->editors_count, input->times, input->times_count, input->cells,
                          input->cells_count, input->changes, input->changes_count, input->bytes, RICECROCK_RECORD);
    if (written.refusal)
        abort();
    input->bytes_count = written.length;
}

static void fill_table(struct input *input, struct shape shape)
{
    struct ricecrock_table *table = &input->table;
    table->seats = shape.seats;
    table->bound = shape.bound;
    table->rounds = shape.rounds;
    table->edits = shape.edits;
    memcpy(table->losses, input->losses, sizeof table->losses);
    memcpy(table->editors, input->editors, sizeof table->editors);
    memcpy(table->times, input->times, sizeof table->times);
    memcpy(table->cells, input->cells, sizeof table->cells);
    memcpy(table->changes, input->changes, sizeof table->changes);
}

// As much as is needed, or as much as any record needs.
static size_t any_room(size_t needed, size_t most)
{
    return any(2) ? needed : most;
}

static void fill_room(struct input *input, struct shape shape)
{
    input->room.losses = RICECROCK_LOSS_SETS;
    input->room.editors = input->room.times = input->room.cells = input->room.changes = RICECROCK_EDITS;
    input->room.record = any_room(input->bytes_count, RICECROCK_RECORD);
    input->room.numbers = any_room(shape.seats, RICECROCK_SEATS);
    input->room.marks = any_room(shape.edits, RICECROCK_EDITS);
    input->room.page = RICECROCK_PAGE;
}

void build_input(struct input *input, struct shape shape)
{
    memset(input, 0, sizeof *input);
    input->shape = shape;
    fill_lists(input, shape);
    fill_bytes(input);
    fill_table(input, shape);
    fill_room(input, shape);
    input->seat.number = any(shape.seats);
    input->time.number = any(shape.rounds + 1);
    input->new_seats = shape.seats;
    input->new_bound = shape.bound;
    input->sets_count = shape.seats;
    for (unsigned sender = 0; sender < shape.seats; sender++)
        input->sets[sender] = any_set(shape, sender);
    input->editor.number = any(shape.seats);
    input->cell = any_size();
    input->change = any_change(0);
}

struct shape any_shape(void)
{
    uint8_t seats = 2 + any(6), bound = any(seats), losers = any(seats + 1), wide = any(2);
    if (any(20) == 0)
        return (struct shape){2, any(2), 126 + any(2), 511 + any(2), losers, wide};
    return (struct shape){seats, bound, any(12), any(20), losers, wide};
}

// ---- Faults ----

// Small, or small again where it is cut to 8 or 16 bits, or the largest.
static uint32_t any_wild(void)
{
    static const uint32_t from[] = {0, 1u << 8, 1u << 16, UINT32_MAX - 9};
    return from[any(4)] + any(10);
}

// One more or one less, where there is one.
static void shift(size_t *count)
{
    *count = *count > 0 && any(2) ? *count - 1 : *count + 1;
}

static void spoil_bytes(struct input *input)
{
    switch (any(4)) {
    case 0:
        input->bytes_count -= input->bytes_count > 0;
        break;
    case 1:
        input->bytes[input->bytes_count++] = any(3);
        break;
    default:
        input->bytes[any(input->bytes_count)] = any(2) ? any(10) : any(256);
    }
}

static void spoil_entry(struct shape shape, uint16_t *losses, uint8_t *editors, uint16_t *times, uint32_t *cells)
{
    switch (any(4)) {
    case 0:
        losses[any(shape.seats * shape.rounds)] ^= 1u << any(16);
        break;
    case 1:
        editors[any(shape.edits)] = any(10);
        break;
    case 2:
        times[any(shape.edits)] = any_wild();
        break;
    default:
        cells[any(shape.edits)] = any(70000);
    }
}

static void spoil_lists(struct input *input)
{
    size_t *counts[] = {&input->losses_count, &input->editors_count, &input->times_count, &input->cells_count,
                        &input->changes_count};
    uint32_t *numbers[] = {&input->seats, &input->bound, &input->rounds};
    switch (any(5)) {
    case 0:
        shift(counts[any(5)]);
        break;
    case 1:
        for (unsigned i = 1; i < 5; i++)
            *counts[i] = RICECROCK_EDITS + 1;
        break;
    case 2:
        *numbers[any(3)] = any_wild();
        break;
    default:
        spoil_entry(input->shape, input->losses, input->editors, input->times, input->cells);
    }
}

static void spoil_table(struct input *input)
{
    struct ricecrock_table *table = &input->table;
    switch (any(6)) {
    case 0:
        table->seats = any_wild();
        break;
    case 1:
        table->bound = any_wild();
        break;
    case 2:
        table->rounds = any(3) ? any_wild() : 128;
        break;
    case 3:
        table->edits = any(3) ? any_wild() : RICECROCK_EDITS + 1;
        break;
    default:
        spoil_entry(input->shape, table->losses, table->editors, table->times, table->cells);
    }
}

static void spoil_live(struct input *input)
{
    switch (any(7)) {
    case 0:
        input->new_seats = any_wild();
        break;
    case 1:
        input->new_bound = any_wild();
        break;
    case 2:
        shift(&input->sets_count);
        break;
    case 3:
        input->sets[any(input->sets_count)] ^= 1u << any(16);
        break;
    case 4:
        input->editor.number = any_wild();
        break;
    case 5:
        input->cell = any_wild();
        break;
    default:
        input->change = any(2) ? INT16_MAX + (int)any(3) : INT16_MIN - (int)any(3);
    }
}

static void spoil_room(struct input *input)
{
    size_t *rooms[] = {&input->room.losses,  &input->room.editors, &input->room.times,
                       &input->room.cells,   &input->room.changes, &input->room.record,
                       &input->room.numbers, &input->room.marks,   &input->room.page};
    size_t *room = rooms[any(9)];
    if (*room > 0)
        --*room;
}

void spoil_input(struct input *input)
{
    switch (any(8)) {
    case 0:
        input->seat.number = any_wild();
        break;
    case 1:
        input->time.number = any_wild();
        break;
    case 2:
    case 3:
        spoil_bytes(input);
        break;
    case 4:
        spoil_lists(input);
        break;
    case 5:
        spoil_table(input);
        break;
    case 6:
        spoil_live(input);
        break;
    default:
        spoil_room(input);
    }
}
