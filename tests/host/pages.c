// The page of each record, and beside it the other ways through the library that have to say the same: checking,
// reading, and for a good record judging, measuring and writing.
#include "host.h"
#include "play.h"

#include <stdio.h>
#include <string.h>

enum {
    TAKEN = RICECROCK_RECORD + 1, // bytes of a record, as the lister takes
    LINE_ROOM = 64,               // for the first line of a page
};

// It is large, so it is lent once; what stays of a page before says as well as paint what a page has changed.
static struct bytes space;

void start_pages(void)
{
    space = (struct bytes){lend_for_long("the space for the page", 1, RICECROCK_PAGE), RICECROCK_PAGE};
}

static struct bytes lend_record(const char *line, size_t length)
{
    uint8_t bytes[TAKEN];
    struct bytes record = {.count = hex_bytes(line, length, bytes, TAKEN)};
    record.start = lend("the record", 1, record.count);
    memcpy(record.start, bytes, record.count);
    return record;
}

// The page without the newline at its end, which follows when all else is said.
static void say_page(struct ricecrock_length page)
{
    if (page.refusal != 0)
        printf("the page is refused %u", page.refusal);
    else if (page.length == 0 || space.start[page.length - 1] != '\n')
        printf("the page has no newline at its end");
    else
        fwrite(space.start, 1, page.length - 1, stdout);
}

static void expect_no_room(struct bytes record)
{
    struct bytes less = {space.start, space.count - 1};
    if (print_page(record, less).refusal != RICECROCK_NO_ROOM)
        printf(", but less room is enough for its page");
}

// ---- The other ways

static bool same_header(struct ricecrock_header a, struct ricecrock_header b)
{
    return a.refusal == b.refusal && a.seats == b.seats && a.bound == b.bound && a.rounds == b.rounds &&
           a.edits == b.edits;
}

static void print_first_line(struct ricecrock_header header, char line[LINE_ROOM])
{
    if (header.refusal != 0)
        snprintf(line, LINE_ROOM, "refused %u\n", header.refusal);
    else
        snprintf(line, LINE_ROOM, "seats %u bound %u rounds %u edits %u\n", header.seats, header.bound, header.rounds,
                 header.edits);
}

static bool begins_page(struct ricecrock_header header, struct ricecrock_length page)
{
    char line[LINE_ROOM];
    print_first_line(header, line);
    size_t length = strlen(line);
    return length <= page.length && memcmp(line, space.start, length) == 0;
}

static void expect_written(const struct lists *lists, struct bytes record)
{
    size_t length = measure_lists(lists).length;
    struct bytes out = {lend("the space for the record", 1, length), length};
    struct ricecrock_length written = write_lists(lists, out);
    if (written.length != record.count || memcmp(out.start, record.start, record.count) != 0) {
        printf(", but it is written as ");
        say_hex(out.start, written.length);
    }
}

static void expect_same(struct bytes record, struct ricecrock_length page)
{
    struct lists lists = lend_lists(any_record);
    struct ricecrock_header header = check_bytes(record);
    if (!begins_page(header, page))
        printf(", but it is checked as something else");
    if (!same_header(header, read_bytes(record, &lists)))
        printf(", but it is read as something else");
    else if (header.refusal == 0) {
        struct lists used = used_of(&lists, header);
        if (!same_header(header, judge_lists(&used)))
            printf(", but it is judged as something else");
        expect_written(&used, record);
    }
}

void answer_record(const char *line, size_t length)
{
    struct bytes record = lend_record(line, length);
    struct ricecrock_length page = print_page(record, space);
    say_page(page);
    expect_no_room(record);
    expect_same(record, page);
    end_row();
}
