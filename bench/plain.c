// The rules of document 01 in plain C, in the same steps as the library: a record is checked and then filled
// in; lists are judged, counted where the room may be short, and then put; views go forward round by round.
#include "plain.h"

#include <stdbool.h>
#include <string.h>

enum {
    FEWEST_SEATS = 2,
    MOST_SEATS = 7,
    MOST_ROUNDS = 127,
    MOST_EDITS = 512,
    LARGEST_CELL = 65535,
    LARGEST_MAPPED_CHANGE = 65535,
};

enum refusal {
    ACCEPTED = 0,
    ENDS_EARLY = 1,
    BAD_FORM = 2,
    OUT_OF_RANGE = 3,
    BAD_LOSS_SET = 4,
    BAD_ORDER = 5,
    BYTES_LEFT = 6,
    NO_ROOM = 7,
    NO_SUCH_PLACE = 8,
    OVER_BOUND = 9,
    BAD_LENGTHS = 10,
    ROUNDS_FULL = 11,
    EDITS_FULL = 12,
    BAD_TABLE = 19,
};

struct header {
    uint8_t seats;
    uint8_t bound;
    uint16_t rounds;
    uint16_t edits;
};

struct edit {
    uint8_t seat;
    uint16_t time;
    uint32_t cell;
    int16_t change;
};

// A record as lists: the loss sets, and a list for each field of the edits.
struct lists {
    const uint16_t *losses;
    size_t losses_count;
    const uint8_t *editors;
    size_t editors_count;
    const uint16_t *times;
    size_t times_count;
    const uint32_t *cells;
    size_t cells_count;
    const int16_t *changes;
    size_t changes_count;
};

// The bytes of a record that are not read yet.
struct reader {
    const uint8_t *next;
    const uint8_t *end;
};

// ---- Reading ----

static inline enum refusal read_number(struct reader *reader, uint32_t *value)
{
    const uint8_t *next = reader->next;
    if (next == reader->end)
        return ENDS_EARLY;
    uint32_t low = *next++;
    if (low < 128) {
        *value = low;
        reader->next = next;
        return ACCEPTED;
    }
    if (next == reader->end)
        return ENDS_EARLY;
    uint32_t middle = *next++;
    if (middle == 0)
        return BAD_FORM;
    if (middle < 128) {
        *value = low - 128 + (middle << 7);
        reader->next = next;
        return ACCEPTED;
    }
    if (next == reader->end)
        return ENDS_EARLY;
    uint32_t high = *next++;
    if (high == 0 || high >= 128)
        return BAD_FORM;
    *value = low - 128 + ((middle - 128) << 7) + (high << 14);
    reader->next = next;
    return ACCEPTED;
}

static inline enum refusal read_within(struct reader *reader, uint32_t least, uint32_t most, uint32_t *value)
{
    enum refusal refusal = read_number(reader, value);
    if (refusal)
        return refusal;
    return *value < least || *value > most ? OUT_OF_RANGE : ACCEPTED;
}

static enum refusal read_header(struct reader *reader, struct header *header)
{
    uint32_t seats, bound, rounds, edits;
    enum refusal refusal;
    if ((refusal = read_within(reader, FEWEST_SEATS, MOST_SEATS, &seats)))
        return refusal;
    if ((refusal = read_within(reader, 0, seats - 1, &bound)))
        return refusal;
    if ((refusal = read_within(reader, 0, MOST_ROUNDS, &rounds)))
        return refusal;
    if ((refusal = read_within(reader, 0, MOST_EDITS, &edits)))
        return refusal;
    *header = (struct header){seats, bound, rounds, edits};
    return ACCEPTED;
}

static bool good_set(unsigned seats, unsigned sender, uint32_t set)
{
    return set >> seats == 0 && (set >> sender & 1) == 0;
}

static enum refusal check_losses(struct reader *reader, struct header header)
{
    for (unsigned round = 0; round < header.rounds; round++)
        for (unsigned sender = 0; sender < header.seats; sender++) {
            uint32_t set;
            enum refusal refusal = read_number(reader, &set);
            if (refusal)
                return refusal;
            if (!good_set(header.seats, sender, set))
                return BAD_LOSS_SET;
        }
    return ACCEPTED;
}

static int16_t unmap_change(uint32_t number)
{
    int half = number / 2;
    return number % 2 == 0 ? half : -1 - half;
}

static uint16_t map_change(int16_t change)
{
    return change < 0 ? 2 * (-1 - change) + 1 : 2 * change;
}

static enum refusal read_edit(struct reader *reader, struct header header, struct edit *edit)
{
    uint32_t seat, time, cell, change;
    enum refusal refusal;
    if ((refusal = read_within(reader, 0, header.seats - 1, &seat)))
        return refusal;
    if ((refusal = read_within(reader, 0, header.rounds, &time)))
        return refusal;
    if ((refusal = read_within(reader, 0, LARGEST_CELL, &cell)))
        return refusal;
    if ((refusal = read_within(reader, 0, LARGEST_MAPPED_CHANGE, &change)))
        return refusal;
    *edit = (struct edit){seat, time, cell, unmap_change(change)};
    return ACCEPTED;
}

// Whether an edit comes before another: by time, then seat, then cell.
static bool rises(const struct edit *a, const struct edit *b)
{
    if (a->time != b->time)
        return a->time < b->time;
    if (a->seat != b->seat)
        return a->seat < b->seat;
    return a->cell < b->cell;
}

static enum refusal check_edits(struct reader *reader, struct header header)
{
    struct edit before = {0}, edit;
    for (unsigned i = 0; i < header.edits; i++) {
        enum refusal refusal = read_edit(reader, header, &edit);
        if (refusal)
            return refusal;
        if (i > 0 && !rises(&before, &edit))
            return BAD_ORDER;
        before = edit;
    }
    return ACCEPTED;
}

static enum refusal check(const uint8_t *bytes, size_t count, struct header *header)
{
    struct reader reader = {bytes, bytes + count};
    enum refusal refusal;
    if ((refusal = read_header(&reader, header)))
        return refusal;
    if ((refusal = check_losses(&reader, *header)))
        return refusal;
    if ((refusal = check_edits(&reader, *header)))
        return refusal;
    return reader.next < reader.end ? BYTES_LEFT : ACCEPTED;
}

static struct ricecrock_header told_header(enum refusal refusal, struct header header)
{
    if (refusal)
        return (struct ricecrock_header){refusal, 0, 0, 0, 0};
    return (struct ricecrock_header){ACCEPTED, header.seats, header.bound, header.rounds, header.edits};
}

struct ricecrock_header plain_bytes_check(const uint8_t *bytes, size_t bytes_count)
{
    struct header header = {0};
    enum refusal refusal = check(bytes, bytes_count, &header);
    return told_header(refusal, header);
}

// The second pass, over a record that the first one found good: no number is tested again.
static void fill(const uint8_t *bytes, size_t count, uint16_t *losses, uint8_t *seats, uint16_t *times,
                 uint32_t *cells, int16_t *changes)
{
    struct reader reader = {bytes, bytes + count};
    struct header header;
    if (read_header(&reader, &header))
        return;
    size_t sets = (size_t)header.seats * header.rounds;
    for (size_t i = 0; i < sets; i++) {
        uint32_t set;
        if (read_number(&reader, &set))
            return;
        losses[i] = set;
    }
    for (size_t i = 0; i < header.edits; i++) {
        uint32_t seat, time, cell, change;
        if (read_number(&reader, &seat) || read_number(&reader, &time) || read_number(&reader, &cell) ||
            read_number(&reader, &change))
            return;
        seats[i] = seat;
        times[i] = time;
        cells[i] = cell;
        changes[i] = unmap_change(change);
    }
}

struct ricecrock_header plain_bytes_read(const uint8_t *bytes, size_t bytes_count, uint16_t *losses,
                                         size_t losses_count, uint8_t *editors, size_t editors_count, uint16_t *times,
                                         size_t times_count, uint32_t *cells, size_t cells_count, int16_t *changes,
                                         size_t changes_count)
{
    struct header header = {0};
    if (losses_count < RICECROCK_LOSS_SETS || editors_count < RICECROCK_EDITS || times_count < RICECROCK_EDITS ||
        cells_count < RICECROCK_EDITS || changes_count < RICECROCK_EDITS)
        return told_header(NO_ROOM, header);
    enum refusal refusal = check(bytes, bytes_count, &header);
    if (!refusal)
        fill(bytes, bytes_count, losses, editors, times, cells, changes);
    return told_header(refusal, header);
}

// ---- Writing ----

static bool good_header(uint32_t seats, uint32_t bound, uint32_t rounds, size_t edits)
{
    return seats >= FEWEST_SEATS && seats <= MOST_SEATS && bound < seats && rounds <= MOST_ROUNDS &&
           edits <= MOST_EDITS;
}

static bool lengths_fit(uint32_t seats, uint32_t rounds, const struct lists *lists)
{
    size_t edits = lists->editors_count;
    return lists->losses_count == (size_t)seats * rounds && lists->times_count == edits &&
           lists->cells_count == edits && lists->changes_count == edits;
}

static bool good_losses(uint8_t seats, const uint16_t *losses, size_t count)
{
    unsigned sender = 0;
    for (size_t i = 0; i < count; i++) {
        if (!good_set(seats, sender, losses[i]))
            return false;
        if (++sender == seats)
            sender = 0;
    }
    return true;
}

static bool good_edit(uint8_t seats, uint16_t rounds, const struct edit *edit)
{
    return edit->seat < seats && edit->time <= rounds && edit->cell <= LARGEST_CELL;
}

static enum refusal judge_edits(uint8_t seats, uint16_t rounds, const struct lists *lists)
{
    struct edit before = {0};
    for (size_t i = 0; i < lists->editors_count; i++) {
        struct edit edit = {lists->editors[i], lists->times[i], lists->cells[i], lists->changes[i]};
        if (!good_edit(seats, rounds, &edit))
            return OUT_OF_RANGE;
        if (i > 0 && !rises(&before, &edit))
            return BAD_ORDER;
        before = edit;
    }
    return ACCEPTED;
}

static enum refusal judge(uint32_t seats, uint32_t bound, uint32_t rounds, const struct lists *lists)
{
    if (!good_header(seats, bound, rounds, lists->editors_count))
        return OUT_OF_RANGE;
    if (!lengths_fit(seats, rounds, lists))
        return BAD_LENGTHS;
    if (!good_losses(seats, lists->losses, lists->losses_count))
        return BAD_LOSS_SET;
    return judge_edits(seats, rounds, lists);
}

static size_t number_length(uint32_t value)
{
    return value < 128 ? 1 : value < 16384 ? 2 : 3;
}

// Every loss set, seat and time of accepted lists takes one byte.
static size_t record_length(uint8_t seats, uint8_t bound, uint16_t rounds, const struct lists *lists)
{
    size_t edits = lists->editors_count;
    size_t total = number_length(seats) + number_length(bound) + number_length(rounds) + number_length(edits);
    total += lists->losses_count + 2 * edits;
    for (size_t i = 0; i < edits; i++)
        total += number_length(lists->cells[i]);
    for (size_t i = 0; i < edits; i++)
        total += number_length(map_change(lists->changes[i]));
    return total;
}

// A header has at most five bytes and an edit at most eight.
static bool has_room(size_t room, uint8_t seats, uint8_t bound, uint16_t rounds, const struct lists *lists)
{
    return 5 + lists->losses_count + 8 * lists->editors_count <= room ||
           record_length(seats, bound, rounds, lists) <= room;
}

static uint8_t *put_number(uint8_t *out, uint32_t value)
{
    while (value >= 128) {
        *out++ = 128 + value % 128;
        value /= 128;
    }
    *out++ = value;
    return out;
}

static uint8_t *put_record(uint8_t *out, uint8_t seats, uint8_t bound, uint16_t rounds, const struct lists *lists)
{
    out = put_number(out, seats);
    out = put_number(out, bound);
    out = put_number(out, rounds);
    out = put_number(out, lists->editors_count);
    for (size_t i = 0; i < lists->losses_count; i++)
        out = put_number(out, lists->losses[i]);
    for (size_t i = 0; i < lists->editors_count; i++) {
        out = put_number(out, lists->editors[i]);
        out = put_number(out, lists->times[i]);
        out = put_number(out, lists->cells[i]);
        out = put_number(out, map_change(lists->changes[i]));
    }
    return out;
}

static struct ricecrock_length put_judged(uint8_t seats, uint8_t bound, uint16_t rounds, const struct lists *lists,
                                          uint8_t *out, size_t room)
{
    if (!has_room(room, seats, bound, rounds, lists))
        return (struct ricecrock_length){NO_ROOM, 0};
    return (struct ricecrock_length){ACCEPTED, put_record(out, seats, bound, rounds, lists) - out};
}

// Lists as a host gives them, and the same gathered.
#define LIST_PARAMETERS                                                                                               \
    uint32_t seats, uint32_t bound, uint32_t rounds, const uint16_t *losses, size_t losses_count,                     \
        const uint8_t *editors, size_t editors_count, const uint16_t *times, size_t times_count,                      \
        const uint32_t *cells, size_t cells_count, const int16_t *changes, size_t changes_count
#define GATHERED                                                                                                      \
    ((struct lists){losses, losses_count, editors, editors_count, times, times_count, cells, cells_count, changes,    \
                    changes_count})

struct ricecrock_header plain_lists_judge(LIST_PARAMETERS)
{
    struct lists lists = GATHERED;
    enum refusal refusal = judge(seats, bound, rounds, &lists);
    return told_header(refusal, (struct header){seats, bound, rounds, editors_count});
}

struct ricecrock_length plain_lists_length(LIST_PARAMETERS)
{
    struct lists lists = GATHERED;
    enum refusal refusal = judge(seats, bound, rounds, &lists);
    if (refusal)
        return (struct ricecrock_length){refusal, 0};
    return (struct ricecrock_length){ACCEPTED, record_length(seats, bound, rounds, &lists)};
}

struct ricecrock_length plain_lists_write(LIST_PARAMETERS, uint8_t *out, size_t out_count)
{
    struct lists lists = GATHERED;
    enum refusal refusal = judge(seats, bound, rounds, &lists);
    if (refusal)
        return (struct ricecrock_length){refusal, 0};
    return put_judged(seats, bound, rounds, &lists, out, out_count);
}

// ---- Views and the core ----

// The farm that a question is asked of. A loss set stands at round * seats + sender, the first round at 0.
struct farm {
    unsigned seats;
    unsigned bound;
    const uint16_t *losses;
};

// For each seat one more than the latest time seen of it, 0 for none.
struct view {
    uint16_t of[MOST_SEATS];
};

struct views {
    struct view of[MOST_SEATS];
};

static bool was_lost(const struct farm *farm, unsigned begun, unsigned sender, unsigned receiver)
{
    return farm->losses[begun * farm->seats + sender] >> receiver & 1;
}

static inline uint16_t larger(uint16_t a, uint16_t b)
{
    return a < b ? b : a;
}

static inline void join(struct view *view, const struct view *other, unsigned seats)
{
    for (unsigned q = 0; q < seats; q++)
        view->of[q] = larger(view->of[q], other->of[q]);
}

// The views of all seats when the round that begins at the time is over.
static void next_views(const struct farm *farm, const struct views *before, unsigned begun, struct views *next)
{
    for (unsigned p = 0; p < farm->seats; p++) {
        next->of[p] = before->of[p];
        for (unsigned s = 0; s < farm->seats; s++)
            if (!was_lost(farm, begun, s, p))
                join(&next->of[p], &before->of[s], farm->seats);
        next->of[p].of[p] = begun + 2;
    }
}

static struct views views_at(const struct farm *farm, unsigned time)
{
    struct views views = {0};
    for (unsigned p = 0; p < farm->seats; p++)
        views.of[p].of[p] = 1;
    for (unsigned begun = 0; begun < time; begun++) {
        struct views before = views;
        next_views(farm, &before, begun, &views);
    }
    return views;
}

// Whether a send of a seat into a place of the view was lost.
static bool missed_in(const struct farm *farm, const struct view *view, unsigned sender)
{
    for (unsigned q = 0; q < farm->seats; q++)
        for (unsigned round = 1; round < view->of[q]; round++)
            if (was_lost(farm, round - 1, sender, q))
                return true;
    return false;
}

static unsigned known_in(const struct farm *farm, const struct view *view)
{
    unsigned known = 0;
    for (unsigned z = 0; z < farm->seats; z++)
        if (missed_in(farm, view, z))
            known |= 1u << z;
    return known;
}

static unsigned size_of(unsigned set, unsigned seats)
{
    unsigned members = 0;
    for (unsigned q = 0; q < seats; q++)
        members += set >> q & 1;
    return members;
}

struct settled {
    unsigned steps;
    int critical;
    unsigned kept;
    struct view core;
};

// The view of all seats outside the known set at a time, which may be below 0.
static struct view view_outside(const struct farm *farm, unsigned known, int time)
{
    struct view view = {0};
    if (time < 0)
        return view;
    struct views views = views_at(farm, time);
    for (unsigned p = 0; p < farm->seats; p++)
        if (!(known >> p & 1))
            join(&view, &views.of[p], farm->seats);
    return view;
}

// Each step is worked from the one before until a step brings no change.
static enum refusal settle(const struct farm *farm, unsigned seat, unsigned time, struct settled *settled)
{
    struct views views = views_at(farm, time);
    unsigned known = known_in(farm, &views.of[seat]);
    if (size_of(known, farm->seats) > farm->bound)
        return OVER_BOUND;
    for (unsigned steps = 1;; steps++) {
        int critical = (int)time - (int)(farm->bound + 1 - size_of(known, farm->seats));
        struct view core = view_outside(farm, known, critical);
        unsigned next = known_in(farm, &core);
        if (next == known) {
            *settled = (struct settled){steps, critical, next, core};
            return ACCEPTED;
        }
        known = next;
    }
}

// ---- Questions ----

// The edits of a record, by their places.
struct places {
    const uint8_t *editors;
    const uint16_t *times;
    unsigned edits;
};

// What a question is asked of: an accepted record, or the refusal of what was given for one.
struct asked {
    enum refusal refusal;
    struct farm farm;
    unsigned rounds;
    struct places places;
};

static bool lost_any(const struct farm *farm, unsigned rounds, unsigned sender)
{
    for (unsigned begun = 0; begun < rounds; begun++)
        if (farm->losses[begun * farm->seats + sender])
            return true;
    return false;
}

static bool in_core(const struct view *core, const struct places *places, unsigned edit)
{
    return places->times[edit] < core->of[places->editors[edit]];
}

static unsigned count_edits(const struct view *core, const struct places *places)
{
    unsigned count = 0;
    for (unsigned i = 0; i < places->edits; i++)
        count += in_core(core, places, i);
    return count;
}

static enum refusal find_place(const struct asked *asked, struct ricecrock_seat seat, struct ricecrock_time time)
{
    if (asked->refusal)
        return asked->refusal;
    return seat.number >= asked->farm.seats || time.number > asked->rounds ? NO_SUCH_PLACE : ACCEPTED;
}

static void put_times(const struct view *view, unsigned seats, int16_t *out)
{
    for (unsigned q = 0; q < seats; q++)
        out[q] = view->of[q] - 1;
}

static struct ricecrock_seen tell_seen(const struct asked *asked, struct ricecrock_seat seat,
                                       struct ricecrock_time time)
{
    struct ricecrock_seen seen = {find_place(asked, seat, time), 0, {-1, -1, -1, -1, -1, -1, -1}};
    if (seen.refusal)
        return seen;
    struct views views = views_at(&asked->farm, time.number);
    seen.known = known_in(&asked->farm, &views.of[seat.number]);
    put_times(&views.of[seat.number], asked->farm.seats, seen.view);
    return seen;
}

static struct ricecrock_agreed tell_agreed(const struct asked *asked, struct ricecrock_seat seat,
                                           struct ricecrock_time time)
{
    struct ricecrock_agreed agreed = {find_place(asked, seat, time), 0, 0, 0, 0, {-1, -1, -1, -1, -1, -1, -1}};
    struct settled settled;
    if (agreed.refusal || (agreed.refusal = settle(&asked->farm, seat.number, time.number, &settled)))
        return agreed;
    agreed.steps = settled.steps;
    agreed.critical = settled.critical;
    agreed.kept = settled.kept;
    agreed.count = count_edits(&settled.core, &asked->places);
    put_times(&settled.core, asked->farm.seats, agreed.core);
    return agreed;
}

static struct ricecrock_standing tell_standing(const struct asked *asked, struct ricecrock_seat seat)
{
    enum refusal refusal = find_place(asked, seat, (struct ricecrock_time){0});
    if (refusal)
        return (struct ricecrock_standing){refusal, 0};
    return (struct ricecrock_standing){ACCEPTED, lost_any(&asked->farm, asked->rounds, seat.number)};
}

static uint8_t tell_view(const struct asked *asked, struct ricecrock_seat seat, struct ricecrock_time time,
                         int16_t *out, size_t room)
{
    enum refusal refusal = find_place(asked, seat, time);
    if (refusal)
        return refusal;
    if (room < asked->farm.seats)
        return NO_ROOM;
    struct views views = views_at(&asked->farm, time.number);
    put_times(&views.of[seat.number], asked->farm.seats, out);
    return ACCEPTED;
}

static uint8_t tell_core(const struct asked *asked, struct ricecrock_seat seat, struct ricecrock_time time,
                         int16_t *out, size_t room)
{
    struct settled settled;
    enum refusal refusal = find_place(asked, seat, time);
    if (refusal)
        return refusal;
    if (room < asked->farm.seats)
        return NO_ROOM;
    if ((refusal = settle(&asked->farm, seat.number, time.number, &settled)))
        return refusal;
    put_times(&settled.core, asked->farm.seats, out);
    return ACCEPTED;
}

static uint8_t tell_marks(const struct asked *asked, struct ricecrock_seat seat, struct ricecrock_time time,
                          uint8_t *out, size_t room)
{
    struct settled settled;
    enum refusal refusal = find_place(asked, seat, time);
    if (refusal)
        return refusal;
    if (room < asked->places.edits)
        return NO_ROOM;
    if ((refusal = settle(&asked->farm, seat.number, time.number, &settled)))
        return refusal;
    for (unsigned i = 0; i < asked->places.edits; i++)
        out[i] = in_core(&settled.core, &asked->places, i);
    return ACCEPTED;
}

// The six questions of a carrier: its parameters, and the statements that set `asked` from them.
#define QUESTIONS(carrier, PARAMETERS, SET_ASKED)                                                                     \
    struct ricecrock_seen plain_##carrier##_seen(PARAMETERS, struct ricecrock_seat seat, struct ricecrock_time time)  \
    {                                                                                                                 \
        SET_ASKED;                                                                                                    \
        return tell_seen(&asked, seat, time);                                                                         \
    }                                                                                                                 \
    struct ricecrock_agreed plain_##carrier##_agreed(PARAMETERS, struct ricecrock_seat seat,                          \
                                                     struct ricecrock_time time)                                      \
    {                                                                                                                 \
        SET_ASKED;                                                                                                    \
        return tell_agreed(&asked, seat, time);                                                                       \
    }                                                                                                                 \
    struct ricecrock_standing plain_##carrier##_standing(PARAMETERS, struct ricecrock_seat seat)                      \
    {                                                                                                                 \
        SET_ASKED;                                                                                                    \
        return tell_standing(&asked, seat);                                                                           \
    }                                                                                                                 \
    uint8_t plain_##carrier##_view(PARAMETERS, struct ricecrock_seat seat, struct ricecrock_time time, int16_t *out,  \
                                   size_t out_count)                                                                  \
    {                                                                                                                 \
        SET_ASKED;                                                                                                    \
        return tell_view(&asked, seat, time, out, out_count);                                                         \
    }                                                                                                                 \
    uint8_t plain_##carrier##_core(PARAMETERS, struct ricecrock_seat seat, struct ricecrock_time time, int16_t *out,  \
                                   size_t out_count)                                                                  \
    {                                                                                                                 \
        SET_ASKED;                                                                                                    \
        return tell_core(&asked, seat, time, out, out_count);                                                         \
    }                                                                                                                 \
    uint8_t plain_##carrier##_marks(PARAMETERS, struct ricecrock_seat seat, struct ricecrock_time time, uint8_t *out, \
                                    size_t out_count)                                                                 \
    {                                                                                                                 \
        SET_ASKED;                                                                                                    \
        return tell_marks(&asked, seat, time, out, out_count);                                                        \
    }

// Room for the lists of any record.
struct room {
    uint16_t losses[RICECROCK_LOSS_SETS];
    uint8_t editors[RICECROCK_EDITS];
    uint16_t times[RICECROCK_EDITS];
    uint32_t cells[RICECROCK_EDITS];
    int16_t changes[RICECROCK_EDITS];
};

static struct asked ask_bytes(const uint8_t *bytes, size_t count, struct room *room)
{
    struct header header = {0};
    enum refusal refusal = check(bytes, count, &header);
    if (!refusal)
        fill(bytes, count, room->losses, room->editors, room->times, room->cells, room->changes);
    return (struct asked){refusal,
                          {header.seats, header.bound, room->losses},
                          header.rounds,
                          {room->editors, room->times, header.edits}};
}

static struct asked ask_lists(uint32_t seats, uint32_t bound, uint32_t rounds, const struct lists *lists)
{
    return (struct asked){judge(seats, bound, rounds, lists),
                          {seats, bound, lists->losses},
                          rounds,
                          {lists->editors, lists->times, lists->editors_count}};
}

#define BYTE_PARAMETERS const uint8_t *bytes, size_t bytes_count
#define SET_ASKED_FROM_BYTES                                                                                          \
    struct room lists;                                                                                                \
    struct asked asked = ask_bytes(bytes, bytes_count, &lists)
#define SET_ASKED_FROM_LISTS                                                                                          \
    struct lists lists = GATHERED;                                                                                    \
    struct asked asked = ask_lists(seats, bound, rounds, &lists)

QUESTIONS(bytes, BYTE_PARAMETERS, SET_ASKED_FROM_BYTES)
QUESTIONS(lists, LIST_PARAMETERS, SET_ASKED_FROM_LISTS)

// ---- The page ----

static uint8_t *put_word(uint8_t *out, const char *word)
{
    while (*word)
        *out++ = *word++;
    return out;
}

static uint8_t *put_decimal(uint8_t *out, unsigned value)
{
    if (value >= 10)
        out = put_decimal(out, value / 10);
    *out++ = '0' + value % 10;
    return out;
}

static uint8_t *put_signed(uint8_t *out, int value)
{
    if (value < 0) {
        *out++ = '-';
        value = -value;
    }
    return put_decimal(out, value);
}

static uint8_t *put_header_line(uint8_t *out, const struct asked *asked)
{
    out = put_decimal(put_word(out, "seats "), asked->farm.seats);
    out = put_decimal(put_word(out, " bound "), asked->farm.bound);
    out = put_decimal(put_word(out, " rounds "), asked->rounds);
    out = put_decimal(put_word(out, " edits "), asked->places.edits);
    return put_word(out, "\n");
}

// What the page says of a place.
struct place {
    enum refusal refusal;
    struct settled settled;
    unsigned count;
};

static void ask_place(const struct asked *asked, unsigned seat, unsigned time, struct place *place)
{
    place->refusal = settle(&asked->farm, seat, time, &place->settled);
    if (!place->refusal)
        place->count = count_edits(&place->settled.core, &asked->places);
}

static uint8_t *put_place_line(uint8_t *out, const struct place *place, bool loser, unsigned seats, unsigned time,
                               unsigned seat)
{
    out = put_word(put_decimal(out, time), " ");
    out = put_word(put_decimal(out, seat), loser ? " L" : " C");
    if (place->refusal)
        return put_word(out, " over\n");
    out = put_signed(put_word(out, " "), place->settled.critical);
    out = put_decimal(put_word(out, " "), place->settled.steps);
    for (unsigned q = 0; q < seats; q++)
        out = put_signed(put_word(out, " "), place->settled.core.of[q] - 1);
    out = put_decimal(put_word(out, " "), place->count);
    return put_word(out, "\n");
}

// The lines of a time. A known set is settled once for the seats in a row that share it.
static uint8_t *put_time_lines(uint8_t *out, const struct asked *asked, unsigned losers, unsigned time)
{
    const struct farm *farm = &asked->farm;
    struct views views = views_at(farm, time);
    struct place place;
    unsigned before = 0;
    for (unsigned seat = 0; seat < farm->seats; seat++) {
        unsigned known = known_in(farm, &views.of[seat]);
        if (seat == 0 || known != before)
            ask_place(asked, seat, time, &place);
        out = put_place_line(out, &place, losers >> seat & 1, farm->seats, time, seat);
        before = known;
    }
    return out;
}

struct ricecrock_length plain_bytes_page(const uint8_t *bytes, size_t bytes_count, uint8_t *out, size_t out_count)
{
    if (out_count < RICECROCK_PAGE)
        return (struct ricecrock_length){NO_ROOM, 0};
    struct room lists;
    struct asked asked = ask_bytes(bytes, bytes_count, &lists);
    if (asked.refusal) {
        uint8_t *end = put_word(put_decimal(put_word(out, "refused "), asked.refusal), "\n");
        return (struct ricecrock_length){ACCEPTED, end - out};
    }
    unsigned losers = 0;
    for (unsigned z = 0; z < asked.farm.seats; z++)
        losers |= (unsigned)lost_any(&asked.farm, asked.rounds, z) << z;
    uint8_t *end = put_header_line(out, &asked);
    for (unsigned time = 0; time <= asked.rounds; time++)
        end = put_time_lines(end, &asked, losers, time);
    return (struct ricecrock_length){ACCEPTED, end - out};
}

// ---- The live table ----

// The used part of a table as lists. Only after its numbers are tested: they may say more than the table holds.
static struct lists used_lists(const struct ricecrock_table *table)
{
    size_t edits = table->edits;
    size_t sets = (size_t)table->seats * table->rounds;
    return (struct lists){table->losses, sets,         table->editors, edits,          table->times,
                          edits,         table->cells, edits,          table->changes, edits};
}

static bool good_table(const struct ricecrock_table *table)
{
    if (table->seats > MOST_SEATS || table->rounds > MOST_ROUNDS || table->edits > MOST_EDITS)
        return false;
    struct lists lists = used_lists(table);
    return judge(table->seats, table->bound, table->rounds, &lists) == ACCEPTED;
}

uint8_t plain_table_open(struct ricecrock_table *table, uint32_t seats, uint32_t bound)
{
    if (!good_header(seats, bound, 0, 0))
        return OUT_OF_RANGE;
    table->seats = seats;
    table->bound = bound;
    table->rounds = 0;
    table->edits = 0;
    return ACCEPTED;
}

uint8_t plain_table_add_round(struct ricecrock_table *table, const uint16_t *sets, size_t sets_count)
{
    if (!good_table(table))
        return BAD_TABLE;
    if (table->rounds >= MOST_ROUNDS)
        return ROUNDS_FULL;
    if (sets_count != table->seats)
        return BAD_LENGTHS;
    if (!good_losses(table->seats, sets, sets_count))
        return BAD_LOSS_SET;
    memcpy(&table->losses[table->seats * table->rounds], sets, sets_count * sizeof *sets);
    table->rounds++;
    return ACCEPTED;
}

uint8_t plain_table_add_edit(struct ricecrock_table *table, struct ricecrock_seat seat, uint32_t cell, int32_t change)
{
    if (!good_table(table))
        return BAD_TABLE;
    if (seat.number >= table->seats || cell > LARGEST_CELL || change < INT16_MIN || change > INT16_MAX)
        return OUT_OF_RANGE;
    unsigned at = table->edits;
    if (at == MOST_EDITS)
        return EDITS_FULL;
    struct edit edit = {seat.number, table->rounds, cell, change};
    if (at > 0) {
        struct edit last = {table->editors[at - 1], table->times[at - 1], table->cells[at - 1],
                            table->changes[at - 1]};
        if (!rises(&last, &edit))
            return BAD_ORDER;
    }
    table->editors[at] = edit.seat;
    table->times[at] = edit.time;
    table->cells[at] = edit.cell;
    table->changes[at] = edit.change;
    table->edits++;
    return ACCEPTED;
}

struct ricecrock_length plain_table_record(const struct ricecrock_table *table, uint8_t *out, size_t out_count)
{
    if (!good_table(table))
        return (struct ricecrock_length){BAD_TABLE, 0};
    struct lists lists = used_lists(table);
    return put_judged(table->seats, table->bound, table->rounds, &lists, out, out_count);
}

static struct asked ask_table(const struct ricecrock_table *table)
{
    return (struct asked){good_table(table) ? ACCEPTED : BAD_TABLE,
                          {table->seats, table->bound, table->losses},
                          table->rounds,
                          {table->editors, table->times, table->edits}};
}

#define TABLE_PARAMETERS const struct ricecrock_table *table

QUESTIONS(table, TABLE_PARAMETERS, struct asked asked = ask_table(table))
