// The library's entry points for a host in C or C++. A record can be given as bytes, as lists, or as the live table
// that a host keeps while a farm is played. Each of the three has the same questions.
//
// Every function takes any input. It gives document 01's number of the refusal, or RICECROCK_DONE, as its result or
// in the field `refusal` of its result. A refusal changes nothing that was lent; beside it, the latest times of the
// result are -1 and its other fields 0. A slice is a pointer and the count of its entries. What C cannot say, a host
// has to keep: a pointer has as many entries as its count says, all of them written once, and what the library writes
// overlaps nothing else that is lent.
#ifndef RICECROCK_H
#define RICECROCK_H

#include <stddef.h>
#include <stdint.h>

#ifdef __cplusplus
extern "C" {
#endif

enum {
    RICECROCK_SEATS = 7,       // room for the numbers of any view or core
    RICECROCK_LOSS_SETS = 889, // room for the loss sets of any record
    RICECROCK_EDITS = 512,     // room for the edits of any record, and for their marks
    RICECROCK_RECORD = 4990,   // room for the bytes of any record
    RICECROCK_PAGE = 86112,    // room for the page of any record
};

// Document 01's refusal numbers.
enum {
    RICECROCK_DONE = 0,
    RICECROCK_ENDS_EARLY = 1,
    RICECROCK_BAD_FORM = 2,
    RICECROCK_OUT_OF_RANGE = 3,
    RICECROCK_BAD_LOSS_SET = 4,
    RICECROCK_BAD_ORDER = 5,
    RICECROCK_BYTES_LEFT = 6,
    RICECROCK_NO_ROOM = 7,
    RICECROCK_NO_SUCH_PLACE = 8,
    RICECROCK_OVER_BOUND = 9,
    RICECROCK_BAD_LENGTHS = 10,
    RICECROCK_ROUNDS_FULL = 11,
    RICECROCK_EDITS_FULL = 12,
    RICECROCK_BAD_TABLE = 19,
};

// A refusal in plain words, for a log or for whoever helps a player.
static inline const char *ricecrock_text(uint8_t refusal)
{
    switch (refusal) {
    case RICECROCK_DONE:
        return "done, nothing was refused";
    case RICECROCK_ENDS_EARLY:
        return "the record breaks off before it is complete";
    case RICECROCK_BAD_FORM:
        return "a number in the record is not written in the one form that is allowed";
    case RICECROCK_OUT_OF_RANGE:
        return "a number is too small or too large for what it stands for";
    case RICECROCK_BAD_LOSS_SET:
        return "a send is said to be lost to its own sender, or to a seat that the farm does not have";
    case RICECROCK_BAD_ORDER:
        return "an edit does not come after the one before it: they go by time, then seat, then cell";
    case RICECROCK_BYTES_LEFT:
        return "there are more bytes after the end of the record";
    case RICECROCK_NO_ROOM:
        return "a buffer that was lent is too short";
    case RICECROCK_NO_SUCH_PLACE:
        return "the farm has no such seat, or has not come to such a time";
    case RICECROCK_OVER_BOUND:
        return "this seat sees more seats with lost sends than the farm allows for, so what is agreed cannot be told";
    case RICECROCK_BAD_LENGTHS:
        return "the lists are not as long as the seats, rounds and edits need";
    case RICECROCK_ROUNDS_FULL:
        return "the farm has had 127 rounds, and a record holds no more";
    case RICECROCK_EDITS_FULL:
        return "the farm has had 512 edits, and a record holds no more";
    case RICECROCK_BAD_TABLE:
        return "the live table was never opened, or something other than the calls has changed it";
    default:
        return "unknown, no refusal has this number";
    }
}

// A seat and a time, each a type of its own, so that neither can be given for the other. A number that no seat or no
// time has is refused, not cut.
struct ricecrock_seat {
    uint32_t number;
};

struct ricecrock_time {
    uint32_t number;
};

// ---- Results

// The numbers of a good record's header.
struct ricecrock_header {
    uint8_t refusal;
    uint8_t seats;
    uint8_t bound;
    uint16_t rounds;
    uint16_t edits;
};

// How many bytes were written, or would be.
struct ricecrock_length {
    uint8_t refusal;
    size_t length;
};

// What a seat has seen: for each seat the latest time, -1 for none and from n on; and the set of seats known to have
// lost sends, bit q for seat q.
struct ricecrock_seen {
    uint8_t refusal;
    uint16_t known;
    int16_t view[RICECROCK_SEATS];
};

// What is agreed at a place: the count of steps, the critical time, the kept set, how many edits are in the core, and
// the core as a view.
struct ricecrock_agreed {
    uint8_t refusal;
    uint8_t steps;
    int16_t critical;
    uint16_t kept;
    uint16_t count;
    int16_t core[RICECROCK_SEATS];
};

// Whether a seat lost a send in any round of the record, 1 or 0.
struct ricecrock_standing {
    uint8_t refusal;
    uint8_t loser;
};

// ---- The live table. A host keeps one, and lets the calls alone change it.
struct ricecrock_table {
    uint8_t seats;
    uint8_t bound;
    uint16_t rounds;
    uint16_t edits;
    uint16_t losses[RICECROCK_LOSS_SETS];
    uint8_t editors[RICECROCK_EDITS];
    uint16_t times[RICECROCK_EDITS];
    uint32_t cells[RICECROCK_EDITS];
    int16_t changes[RICECROCK_EDITS];
};

// ---- A record as bytes

// Whether the bytes are a good record. Refusals: 1 to 6.
struct ricecrock_header ricecrock_bytes_check(const uint8_t *bytes, size_t bytes_count);

// Reads a record into lists that have room for any record; later entries stay. Refusals: 7, then 1 to 6.
struct ricecrock_header ricecrock_bytes_read(const uint8_t *bytes, size_t bytes_count, uint16_t *losses,
                                             size_t losses_count, uint8_t *editors, size_t editors_count,
                                             uint16_t *times, size_t times_count, uint32_t *cells, size_t cells_count,
                                             int16_t *changes, size_t changes_count);

// The lister's page of a record, a bad one's too. Refusal: 7.
struct ricecrock_length ricecrock_bytes_page(const uint8_t *bytes, size_t bytes_count, uint8_t *out, size_t out_count);

// What a seat has seen at a time. Refusals: 1 to 6, then 8.
struct ricecrock_seen ricecrock_bytes_seen(const uint8_t *bytes, size_t bytes_count, struct ricecrock_seat seat,
                                           struct ricecrock_time time);

// What is agreed at a place. Refusals: 1 to 6, then 8, 9.
struct ricecrock_agreed ricecrock_bytes_agreed(const uint8_t *bytes, size_t bytes_count, struct ricecrock_seat seat,
                                               struct ricecrock_time time);

// Whether a seat is a loser. Refusals: 1 to 6, then 8.
struct ricecrock_standing ricecrock_bytes_standing(const uint8_t *bytes, size_t bytes_count,
                                                   struct ricecrock_seat seat);

// The view of a place into a lent buffer. Refusals: 1 to 6, then 8, 7.
uint8_t ricecrock_bytes_view(const uint8_t *bytes, size_t bytes_count, struct ricecrock_seat seat,
                             struct ricecrock_time time, int16_t *out, size_t out_count);

// The core of a place into a lent buffer. Refusals: 1 to 6, then 8, 7, 9.
uint8_t ricecrock_bytes_core(const uint8_t *bytes, size_t bytes_count, struct ricecrock_seat seat,
                             struct ricecrock_time time, int16_t *out, size_t out_count);

// For each edit 1 where it is in the core and 0 outside. Refusals: 1 to 6, then 8, 7, 9.
uint8_t ricecrock_bytes_marks(const uint8_t *bytes, size_t bytes_count, struct ricecrock_seat seat,
                              struct ricecrock_time time, uint8_t *out, size_t out_count);

// ---- A record as lists: three numbers, a loss set for each round and sender, and the four fields of the edits

// Whether the lists are a good record. Refusals: 3 for the numbers, 10, 4, then edit by edit 3 and 5.
struct ricecrock_header ricecrock_lists_judge(uint32_t seats, uint32_t bound, uint32_t rounds, const uint16_t *losses,
                                              size_t losses_count, const uint8_t *editors, size_t editors_count,
                                              const uint16_t *times, size_t times_count, const uint32_t *cells,
                                              size_t cells_count, const int16_t *changes, size_t changes_count);

// How many bytes the record has. Refusals: as judging.
struct ricecrock_length ricecrock_lists_length(uint32_t seats, uint32_t bound, uint32_t rounds, const uint16_t *losses,
                                               size_t losses_count, const uint8_t *editors, size_t editors_count,
                                               const uint16_t *times, size_t times_count, const uint32_t *cells,
                                               size_t cells_count, const int16_t *changes, size_t changes_count);

// Writes the record; bytes past it stay. Refusals: as judging, then 7.
struct ricecrock_length ricecrock_lists_write(uint32_t seats, uint32_t bound, uint32_t rounds, const uint16_t *losses,
                                              size_t losses_count, const uint8_t *editors, size_t editors_count,
                                              const uint16_t *times, size_t times_count, const uint32_t *cells,
                                              size_t cells_count, const int16_t *changes, size_t changes_count,
                                              uint8_t *out, size_t out_count);

// What a seat has seen at a time. Refusals: as judging, then 8.
struct ricecrock_seen ricecrock_lists_seen(uint32_t seats, uint32_t bound, uint32_t rounds, const uint16_t *losses,
                                           size_t losses_count, const uint8_t *editors, size_t editors_count,
                                           const uint16_t *times, size_t times_count, const uint32_t *cells,
                                           size_t cells_count, const int16_t *changes, size_t changes_count,
                                           struct ricecrock_seat seat, struct ricecrock_time time);

// What is agreed at a place. Refusals: as judging, then 8, 9.
struct ricecrock_agreed ricecrock_lists_agreed(uint32_t seats, uint32_t bound, uint32_t rounds, const uint16_t *losses,
                                               size_t losses_count, const uint8_t *editors, size_t editors_count,
                                               const uint16_t *times, size_t times_count, const uint32_t *cells,
                                               size_t cells_count, const int16_t *changes, size_t changes_count,
                                               struct ricecrock_seat seat, struct ricecrock_time time);

// Whether a seat is a loser. Refusals: as judging, then 8.
struct ricecrock_standing ricecrock_lists_standing(uint32_t seats, uint32_t bound, uint32_t rounds,
                                                   const uint16_t *losses, size_t losses_count, const uint8_t *editors,
                                                   size_t editors_count, const uint16_t *times, size_t times_count,
                                                   const uint32_t *cells, size_t cells_count, const int16_t *changes,
                                                   size_t changes_count, struct ricecrock_seat seat);

// The view of a place into a lent buffer. Refusals: as judging, then 8, 7.
uint8_t ricecrock_lists_view(uint32_t seats, uint32_t bound, uint32_t rounds, const uint16_t *losses,
                             size_t losses_count, const uint8_t *editors, size_t editors_count, const uint16_t *times,
                             size_t times_count, const uint32_t *cells, size_t cells_count, const int16_t *changes,
                             size_t changes_count, struct ricecrock_seat seat, struct ricecrock_time time,
                             int16_t *out, size_t out_count);

// The core of a place into a lent buffer. Refusals: as judging, then 8, 7, 9.
uint8_t ricecrock_lists_core(uint32_t seats, uint32_t bound, uint32_t rounds, const uint16_t *losses,
                             size_t losses_count, const uint8_t *editors, size_t editors_count, const uint16_t *times,
                             size_t times_count, const uint32_t *cells, size_t cells_count, const int16_t *changes,
                             size_t changes_count, struct ricecrock_seat seat, struct ricecrock_time time,
                             int16_t *out, size_t out_count);

// For each edit 1 where it is in the core and 0 outside. Refusals: as judging, then 8, 7, 9.
uint8_t ricecrock_lists_marks(uint32_t seats, uint32_t bound, uint32_t rounds, const uint16_t *losses,
                              size_t losses_count, const uint8_t *editors, size_t editors_count, const uint16_t *times,
                              size_t times_count, const uint32_t *cells, size_t cells_count, const int16_t *changes,
                              size_t changes_count, struct ricecrock_seat seat, struct ricecrock_time time,
                              uint8_t *out, size_t out_count);

// ---- The live table. Opening takes it in any state; every other call first tests whether it is sound (19).

// Opens the table for a new record. Refusal: 3.
uint8_t ricecrock_table_open(struct ricecrock_table *table, uint32_t seats, uint32_t bound);

// Adds a round, a loss set for each sender. Refusals: 19, 11, 10, 4.
uint8_t ricecrock_table_add_round(struct ricecrock_table *table, const uint16_t *sets, size_t sets_count);

// Adds an edit at the present time, the number of rounds done. Refusals: 19, 3, 12, 5.
uint8_t ricecrock_table_add_edit(struct ricecrock_table *table, struct ricecrock_seat seat, uint32_t cell,
                                 int32_t change);

// Writes the record so far; bytes past it stay. Refusals: 19, 7.
struct ricecrock_length ricecrock_table_record(const struct ricecrock_table *table, uint8_t *out, size_t out_count);

// What a seat has seen at a time. Refusals: 19, then 8.
struct ricecrock_seen ricecrock_table_seen(const struct ricecrock_table *table, struct ricecrock_seat seat,
                                           struct ricecrock_time time);

// What is agreed at a place. Refusals: 19, then 8, 9.
struct ricecrock_agreed ricecrock_table_agreed(const struct ricecrock_table *table, struct ricecrock_seat seat,
                                               struct ricecrock_time time);

// Whether a seat is a loser. Refusals: 19, then 8.
struct ricecrock_standing ricecrock_table_standing(const struct ricecrock_table *table, struct ricecrock_seat seat);

// The view of a place into a lent buffer. Refusals: 19, then 8, 7.
uint8_t ricecrock_table_view(const struct ricecrock_table *table, struct ricecrock_seat seat,
                             struct ricecrock_time time, int16_t *out, size_t out_count);

// The core of a place into a lent buffer. Refusals: 19, then 8, 7, 9.
uint8_t ricecrock_table_core(const struct ricecrock_table *table, struct ricecrock_seat seat,
                             struct ricecrock_time time, int16_t *out, size_t out_count);

// For each edit 1 where it is in the core and 0 outside. Refusals: 19, then 8, 7, 9.
uint8_t ricecrock_table_marks(const struct ricecrock_table *table, struct ricecrock_seat seat,
                              struct ricecrock_time time, uint8_t *out, size_t out_count);

#ifdef __cplusplus
}
#endif

#endif
