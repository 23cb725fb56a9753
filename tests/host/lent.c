// Buffers lent to the library, each between guards.
#include "host.h"

#include <stdio.h>
#include <stdlib.h>
#include <string.h>

enum {
    GUARD = 64,
    PAINT = 0xA5,
    MOST_LENT = 16,
};

struct lent {
    const char *name;
    size_t size;     // of the entries, in bytes
    uint8_t *block;  // a guard, the entries, a guard
    uint8_t *before; // the block as it has to be after the call
    bool for_long;
    bool remembered; // what is before is up to date
    bool changed;
};

static struct lent lent[MOST_LENT];
static size_t lent_count;

// A result of the row says something beside a refusal.
static bool said_more;

static size_t block_size(const struct lent *one)
{
    return GUARD + one->size + GUARD;
}

static struct lent *find(const void *entries)
{
    for (size_t i = 0; i < lent_count; i++)
        if (lent[i].block + GUARD == entries)
            return &lent[i];
    abort();
}

static void *add(const char *name, size_t size, bool for_long)
{
    struct lent one = {.name = name, .size = size, .for_long = for_long};
    one.block = malloc(block_size(&one));
    one.before = malloc(block_size(&one));
    if (lent_count == MOST_LENT || !one.block || !one.before)
        abort();
    memset(one.block, PAINT, block_size(&one));
    lent[lent_count++] = one;
    return one.block + GUARD;
}

static void drop(struct lent *one)
{
    free(one->block);
    free(one->before);
    lent_count--;
    memmove(one, one + 1, (size_t)(&lent[lent_count] - one) * sizeof *one);
}

void *lend(const char *name, size_t width, size_t count)
{
    return add(name, width * count, false);
}

void *lend_for_long(const char *name, size_t width, size_t count)
{
    return add(name, width * count, true);
}

void take_back(void *entries)
{
    drop(find(entries));
}

void host_wrote(const void *entries)
{
    find(entries)->remembered = false;
}

void before_call(void)
{
    for (struct lent *one = lent; one < &lent[lent_count]; one++)
        if (!one->remembered) {
            memcpy(one->before, one->block, block_size(one));
            one->remembered = true;
        }
}

void may_change(const void *entries, size_t from, size_t size)
{
    struct lent *one = find(entries);
    if (from > one->size || size > one->size - from)
        one->changed = true;
    else
        memcpy(one->before + GUARD + from, one->block + GUARD + from, size);
}

// What was changed is remembered anew before the next call, so that it is said of one call alone.
void after_call(void)
{
    for (struct lent *one = lent; one < &lent[lent_count]; one++)
        if (memcmp(one->before, one->block, block_size(one)) != 0) {
            one->changed = true;
            one->remembered = false;
        }
}

void expect_empty(uint8_t refusal, bool empty)
{
    if (refusal != 0 && !empty)
        said_more = true;
}

void end_row(void)
{
    for (struct lent *one = lent; one < &lent[lent_count]; one++) {
        if (one->changed)
            printf(", but %s changed", one->name);
        one->changed = false;
    }
    if (said_more)
        printf(", but the result beside the refusal changed");
    said_more = false;
    for (size_t i = lent_count; i-- > 0;)
        if (!lent[i].for_long)
            drop(&lent[i]);
    putchar('\n');
}
