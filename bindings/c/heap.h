/* A heap of a program's own, which refuses one growth: the library asks for memory by these three calls alone. */
#ifndef HEAP_H
#define HEAP_H

#include <stdbool.h>
#include <stddef.h>
#include <stdlib.h>

typedef struct {
    bool is_there;
    void *at;
} grown;

static long left = -1;      /* how many growths are granted before one is refused; none is refused below 0 */
static int was_refused = 0; /* whether one was */

static grown give(void *at)
{
    static char none;
    return (grown){at != NULL, at ? at : (void *)&none};
}

static bool is_refused(void)
{
    if (left < 0)
        return false;
    was_refused |= left == 0;
    return left-- == 0;
}

grown rattle_alloc(size_t size, size_t align);
grown rattle_realloc(void *at, size_t kept, size_t size, size_t align);
void rattle_dealloc(void *at);

grown rattle_alloc(size_t size, size_t align)
{
    return give(is_refused() ? NULL : malloc(size ? size : align));
}

grown rattle_realloc(void *at, size_t kept, size_t size, size_t align)
{
    (void)kept;
    return give(is_refused() ? NULL : realloc(at, size ? size : align));
}

void rattle_dealloc(void *at)
{
    free(at);
}

#endif
