/* A program of named parts: it ends with 1 at the first that is not as it should be. */
#ifndef PARTS_H
#define PARTS_H

#include <stddef.h>
#include <stdio.h>

struct part {
    const char *name;
    int (*right)(void);
};

static inline int run_parts(const char *program, const struct part *parts, size_t count)
{
    for (size_t i = 0; i < count; i++) {
        if (!parts[i].right()) {
            printf("%s: %s: not as it should be\n", program, parts[i].name);
            return 1;
        }
    }
    printf("%s: ok\n", program);
    return 0;
}

#endif
