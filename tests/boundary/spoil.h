// What the files of spoiled functions share. The environment variable SPOIL names the one thing that is spoiled.
#ifndef SPOIL_H
#define SPOIL_H

#include "berzulka.h"

#include <stdbool.h>
#include <stdlib.h>
#include <string.h>

// What is added to an answer to spoil one of its parts.
static const uint64_t one_value = 1, one_number = UINT64_C(1) << 32, one_chart = UINT64_C(1) << 48;
static const uint64_t one_kind = UINT64_C(1) << 56;

static inline bool is_spoiled(const char *thing)
{
    const char *named = getenv("SPOIL");
    return named != NULL && strcmp(named, thing) == 0;
}

#endif
