// The same rules in plain C, which the library is measured beside.
#ifndef PLAIN_H
#define PLAIN_H

#include "ricecrock.h"

// Every exported function, without the `ricecrock_` of its name.
#define EACH_FUNCTION(DO)                                                                                             \
    DO(bytes_check)                                                                                                   \
    DO(bytes_read)                                                                                                    \
    DO(bytes_page)                                                                                                    \
    DO(bytes_seen)                                                                                                    \
    DO(bytes_agreed)                                                                                                  \
    DO(bytes_standing)                                                                                                \
    DO(bytes_view)                                                                                                    \
    DO(bytes_core)                                                                                                    \
    DO(bytes_marks)                                                                                                   \
    DO(lists_judge)                                                                                                   \
    DO(lists_length)                                                                                                  \
    DO(lists_write)                                                                                                   \
    DO(lists_seen)                                                                                                    \
    DO(lists_agreed)                                                                                                  \
    DO(lists_standing)                                                                                                \
    DO(lists_view)                                                                                                    \
    DO(lists_core)                                                                                                    \
    DO(lists_marks)                                                                                                   \
    DO(table_open)                                                                                                    \
    DO(table_add_round)                                                                                               \
    DO(table_add_edit)                                                                                                \
    DO(table_record)                                                                                                  \
    DO(table_seen)                                                                                                    \
    DO(table_agreed)                                                                                                  \
    DO(table_standing)                                                                                                \
    DO(table_view)                                                                                                    \
    DO(table_core)                                                                                                    \
    DO(table_marks)

// Each has the parameters and the meaning of the library's function of the same name.
#define DECLARE(function) __typeof__(ricecrock_##function) plain_##function;
EACH_FUNCTION(DECLARE)
#undef DECLARE

#endif
