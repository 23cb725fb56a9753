// The questions, each to one of the three carriers of a record: no carrier may change, and a buffer only where the
// question is not refused. Beside a refusal the other fields of a result have to be 0, and the latest times -1.
#include "host.h"

// The call of a question to a carrier; the words are what it asks.
#define ASK(question, ...)                                                                                            \
    (carrier == BYTES   ? ricecrock_bytes_##question(of->bytes.start, of->bytes.count, __VA_ARGS__)                   \
     : carrier == LISTS ? ricecrock_lists_##question(PARTS_OF(of->lists), __VA_ARGS__)                                \
                        : ricecrock_table_##question(of->table, __VA_ARGS__))

static bool no_times(const int16_t latest[RICECROCK_SEATS])
{
    for (int seat = 0; seat < RICECROCK_SEATS; seat++)
        if (latest[seat] != -1)
            return false;
    return true;
}

struct ricecrock_seen ask_seen(const struct carried *of, enum carrier carrier, struct place place)
{
    before_call();
    struct ricecrock_seen seen = ASK(seen, place.seat, place.time);
    after_call();
    expect_empty(seen.refusal, seen.known == 0 && no_times(seen.view));
    return seen;
}

struct ricecrock_agreed ask_agreed(const struct carried *of, enum carrier carrier, struct place place)
{
    before_call();
    struct ricecrock_agreed agreed = ASK(agreed, place.seat, place.time);
    after_call();
    bool zeros = agreed.steps == 0 && agreed.critical == 0 && agreed.kept == 0 && agreed.count == 0;
    expect_empty(agreed.refusal, zeros && no_times(agreed.core));
    return agreed;
}

struct ricecrock_standing ask_standing(const struct carried *of, enum carrier carrier, struct ricecrock_seat seat)
{
    before_call();
    struct ricecrock_standing standing = ASK(standing, seat);
    after_call();
    expect_empty(standing.refusal, standing.loser == 0);
    return standing;
}

static uint8_t answered(uint8_t refusal, const void *out, size_t size)
{
    if (refusal == 0)
        may_change(out, 0, size);
    after_call();
    return refusal;
}

uint8_t ask_view(const struct carried *of, enum carrier carrier, struct place place, int16_t *out, size_t room)
{
    before_call();
    return answered(ASK(view, place.seat, place.time, out, room), out, room * sizeof *out);
}

uint8_t ask_core(const struct carried *of, enum carrier carrier, struct place place, int16_t *out, size_t room)
{
    before_call();
    return answered(ASK(core, place.seat, place.time, out, room), out, room * sizeof *out);
}

uint8_t ask_marks(const struct carried *of, enum carrier carrier, struct place place, uint8_t *out, size_t room)
{
    before_call();
    return answered(ASK(marks, place.seat, place.time, out, room), out, room);
}
