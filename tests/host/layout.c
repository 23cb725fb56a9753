// The layout of what a host and the library hand each other. It is compiled as C and as C++, and never run.
#include "ricecrock.h"

#include <assert.h>

#define SIZE(type, bytes) static_assert(sizeof(struct type) == (bytes), "the size of " #type)
#define AT(type, field, bytes) static_assert(offsetof(struct type, field) == (bytes), "where " #type " has " #field)

SIZE(ricecrock_seat, 4);
SIZE(ricecrock_time, 4);

SIZE(ricecrock_header, 8);
AT(ricecrock_header, refusal, 0);
AT(ricecrock_header, seats, 1);
AT(ricecrock_header, bound, 2);
AT(ricecrock_header, rounds, 4);
AT(ricecrock_header, edits, 6);

SIZE(ricecrock_length, 16);
AT(ricecrock_length, refusal, 0);
AT(ricecrock_length, length, 8);

SIZE(ricecrock_seen, 18);
AT(ricecrock_seen, refusal, 0);
AT(ricecrock_seen, known, 2);
AT(ricecrock_seen, view, 4);

SIZE(ricecrock_agreed, 22);
AT(ricecrock_agreed, refusal, 0);
AT(ricecrock_agreed, steps, 1);
AT(ricecrock_agreed, critical, 2);
AT(ricecrock_agreed, kept, 4);
AT(ricecrock_agreed, count, 6);
AT(ricecrock_agreed, core, 8);

SIZE(ricecrock_standing, 2);
AT(ricecrock_standing, refusal, 0);
AT(ricecrock_standing, loser, 1);

SIZE(ricecrock_table, 6392);
AT(ricecrock_table, seats, 0);
AT(ricecrock_table, bound, 1);
AT(ricecrock_table, rounds, 2);
AT(ricecrock_table, edits, 4);
AT(ricecrock_table, losses, 6);
AT(ricecrock_table, editors, 1784);
AT(ricecrock_table, times, 2296);
AT(ricecrock_table, cells, 3320);
AT(ricecrock_table, changes, 5368);
