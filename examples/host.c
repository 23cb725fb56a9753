// An evening on one farm: four seats, two of them on poor lines. What the players do and what the lines lose goes into
// the live table, round by round. Only what is agreed changes the field. At the end the record is saved and read back.
#include "ricecrock.h"

#include <stdbool.h>
#include <stdio.h>
#include <stdlib.h>
#include <string.h>

// The farm allows for two seats that lose sends, whichever they turn out to be.
enum { SEATS = 4, BOUND = 2, ROUNDS = 7 };

// What the players do: at a time, a seat wants the height of a cell changed.
static const struct wish {
    uint32_t time, seat, cell;
    int32_t change;
} wishes[] = {
    {0, 0, 100, +3}, // a bank
    {0, 3, 41, -2},  // a furrow
    {1, 1, 7, +2},   // a bed
    {1, 3, 42, -4},  // the next furrow, just before seat 3's line goes down
    {2, 2, 9, +1},   // a path
    {2, 0, 100, -1}, // the bank made lower; it comes in when seat 2's path is in the table already
    {4, 2, 77, +5},  // a dam, just before seat 2's line goes bad
    {5, 3, 43, -4},  // one more furrow
    {6, 1, 7, -2},   // the bed made even again
    {7, 0, 12, +1},  // no round is left to agree on this one
};

enum { WISHES = sizeof wishes / sizeof wishes[0] };

// What the lines lose: for each round and sender the seats that its send did not reach, bit q for seat q.
static const uint16_t lost[ROUNDS][SEATS] = {
    {0, 0, 0, 0}, {0, 0, 0, 7}, {0, 0, 0, 7}, // seats 0, 1 and 2 hear nothing of seat 3 for two rounds
    {0, 0, 0, 0}, {0, 0, 3, 0},               // seat 3 is back; seats 0 and 1 do not hear seat 2, only seat 3 does
    {0, 0, 0, 0}, {0, 0, 0, 0},               // all is well again
};

// What the game keeps: one table for the whole evening, which wishes are in it, what each seat agrees to, and which of
// the table's edits have changed the field. There are marks for any number of edits, so no question lacks room.
struct game {
    struct ricecrock_table table;
    bool taken[WISHES];
    uint8_t marks[SEATS][RICECROCK_EDITS];
    bool in_field[RICECROCK_EDITS];
};

// A refusal that the game has no answer to ends it, with words that a player can pass on.
static void expect_done(const char *what, uint8_t refusal)
{
    if (refusal == RICECROCK_DONE)
        return;
    printf("%s: refused %d, %s\n", what, refusal, ricecrock_text(refusal));
    exit(1);
}

static void say_edit(const char *what, uint32_t seat, uint32_t cell, int32_t change)
{
    printf("  %-6s seat %u, cell %3u, height %+d", what, seat, cell, change);
}

// The edits of one time go in by seat, then by cell, so a wish that comes in behind a later seat's is refused. The
// game does not forget it: after the round it tries again.
static void take_wishes(struct game *game)
{
    for (size_t i = 0; i < WISHES; i++) {
        const struct wish *wish = &wishes[i];
        if (game->taken[i] || wish->time > game->table.rounds)
            continue;
        struct ricecrock_seat seat = {wish->seat};
        uint8_t refusal = ricecrock_table_add_edit(&game->table, seat, wish->cell, wish->change);
        if (refusal != RICECROCK_BAD_ORDER)
            expect_done("a wish", refusal);
        game->taken[i] = refusal == RICECROCK_DONE;
        say_edit(game->taken[i] ? "new" : "waits", wish->seat, wish->cell, wish->change);
        if (!game->taken[i])
            printf(", refused %d: %s", refusal, ricecrock_text(refusal));
        putchar('\n');
    }
}

static void end_round(struct game *game, const uint16_t sets[SEATS])
{
    expect_done("a round", ricecrock_table_add_round(&game->table, sets, SEATS));
    printf("round %d\n", game->table.rounds);
    for (int from = 0; from < SEATS; from++)
        for (int to = 0; to < SEATS; to++)
            if (sets[from] >> to & 1)
                printf("  lost   seat %d to seat %d\n", from, to);
}

// What each seat agrees to now, side by side: a digit for each edit in the table.
static void ask_marks(struct game *game)
{
    struct ricecrock_time now = {game->table.rounds};
    printf("  marks ");
    for (uint32_t number = 0; number < SEATS; number++) {
        struct ricecrock_seat seat = {number};
        uint8_t *marks = game->marks[number];
        expect_done("marks", ricecrock_table_marks(&game->table, seat, now, marks, RICECROCK_EDITS));
        putchar(' ');
        for (size_t i = 0; i < game->table.edits; i++)
            putchar('0' + marks[i]);
    }
    putchar('\n');
}

// Seat 0 plays here, so its marks decide what changes the field: each edit once, when it is agreed and not before. One
// that is agreed late goes in late, which does no harm: changes of height add up in any order.
static void change_field(struct game *game)
{
    const struct ricecrock_table *table = &game->table;
    for (size_t i = 0; i < table->edits; i++) {
        if (!game->marks[0][i] || game->in_field[i])
            continue;
        game->in_field[i] = true;
        say_edit("agreed", table->editors[i], table->cells[i], table->changes[i]);
        printf(", made at time %d\n", table->times[i]);
    }
}

static void play(struct game *game)
{
    expect_done("opening", ricecrock_table_open(&game->table, SEATS, BOUND));
    for (int round = 0; round < ROUNDS; round++) {
        take_wishes(game);
        end_round(game, lost[round]);
        ask_marks(game);
        change_field(game);
    }
    take_wishes(game);
}

// The core is for each seat the latest time whose edits are agreed. Seats that lose nothing always have the same one,
// as long as no more seats than the bound lose sends. Tonight those that do have it too.
static void say_cores(const struct ricecrock_table *table)
{
    struct ricecrock_time now = {table->rounds};
    for (uint32_t number = 0; number < SEATS; number++) {
        struct ricecrock_seat seat = {number};
        struct ricecrock_agreed agreed = ricecrock_table_agreed(table, seat, now);
        expect_done("agreed", agreed.refusal);
        printf("seat %u, %s lost: core", number, ricecrock_table_standing(table, seat).loser ? "sends" : "nothing");
        for (int q = 0; q < SEATS; q++)
            printf(" %d", agreed.core[q]);
        printf(", %d of %d edits\n", agreed.count, table->edits);
    }
}

// Reading checks a save whole before it writes anything, since a save may come from any machine. A second table has
// room for the lists of any record; the entries that no edit or round has used are 0 in both.
static bool same_lists(const struct ricecrock_table *table, const uint8_t *save, size_t length)
{
    static struct ricecrock_table back;
    struct ricecrock_header header =
        ricecrock_bytes_read(save, length, back.losses, RICECROCK_LOSS_SETS, back.editors, RICECROCK_EDITS, back.times,
                             RICECROCK_EDITS, back.cells, RICECROCK_EDITS, back.changes, RICECROCK_EDITS);
    expect_done("reading the save", header.refusal);
    back.seats = header.seats;
    back.bound = header.bound;
    back.rounds = header.rounds;
    back.edits = header.edits;
    return memcmp(&back, table, sizeof back) == 0;
}

// What is agreed, at any seat and time, can be asked of the save as well.
static bool same_marks(const struct ricecrock_table *table, const uint8_t *save, size_t length)
{
    static uint8_t live[RICECROCK_EDITS], saved[RICECROCK_EDITS];
    for (uint32_t place = 0; place < SEATS * (ROUNDS + 1); place++) {
        struct ricecrock_seat seat = {place % SEATS};
        struct ricecrock_time time = {place / SEATS};
        expect_done("marks", ricecrock_table_marks(table, seat, time, live, RICECROCK_EDITS));
        expect_done("marks of the save", ricecrock_bytes_marks(save, length, seat, time, saved, RICECROCK_EDITS));
        if (memcmp(live, saved, RICECROCK_EDITS) != 0)
            return false;
    }
    return true;
}

int main(void)
{
    static struct game game;
    static uint8_t save[RICECROCK_RECORD];
    play(&game);
    say_cores(&game.table);
    struct ricecrock_length written = ricecrock_table_record(&game.table, save, sizeof save);
    expect_done("saving", written.refusal);
    expect_done("checking the save", ricecrock_bytes_check(save, written.length).refusal);
    bool same = same_lists(&game.table, save, written.length) && same_marks(&game.table, save, written.length);
    printf("saved in %zu bytes, which %s\n", written.length, same ? "read back the same" : "DO NOT READ BACK");
    return same ? 0 : 1;
}
