// Plays a stream of text on standard input through the library's calls, and prints what comes out. A line that begins
// with # is a comment, and is copied. tests/independent/FORMATS.md says how the streams look.
//
//     play pages   a record on each line: its page
//     play calls   a call on each line: its answer
#define _POSIX_C_SOURCE 200809L
#include "play.h"

#include <stdio.h>
#include <stdlib.h>
#include <string.h>
#include <sys/types.h>

enum { OUTPUT_ROOM = 1 << 16 };

struct mode {
    const char *name;
    void (*start)(void);
    void (*answer)(const char *line, size_t length);
};

static const struct mode modes[] = {
    {"pages", start_pages, answer_record},
    {"calls", start_script, answer_call},
};

static int fail(int status, const char *what)
{
    fprintf(stderr, "play: %s\n", what);
    return status;
}

static void answer_line(const struct mode *mode, const char *line, size_t length)
{
    if (length > 0 && line[0] == '#') {
        fwrite(line, 1, length, stdout);
        putchar('\n');
    } else {
        mode->answer(line, length);
    }
}

// A last line without a newline is a line like any other.
static int answer_stream(const struct mode *mode)
{
    char *line = NULL;
    size_t room = 0;
    ssize_t length;
    mode->start();
    while (!ferror(stdout) && (length = getline(&line, &room, stdin)) > 0) {
        size_t newline = line[length - 1] == '\n';
        answer_line(mode, line, (size_t)length - newline);
    }
    free(line);
    if (fflush(stdout) != 0 || ferror(stdout))
        return fail(1, "standard output cannot be written");
    return feof(stdin) ? 0 : fail(1, "standard input cannot be read");
}

int main(int count, char **words)
{
    setvbuf(stdout, NULL, _IOFBF, OUTPUT_ROOM);
    for (size_t i = 0; i < sizeof modes / sizeof modes[0]; i++)
        if (count == 2 && strcmp(words[1], modes[i].name) == 0)
            return answer_stream(&modes[i]);
    return fail(2, "usage: play pages | calls");
}
