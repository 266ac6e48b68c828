// An allocator that refuses its calls from `first` on to `last`, and counts the others' blocks. A test that has it is
// linked with --wrap for malloc, realloc and free, so that the library's own calls come here.
#ifndef REFUSING_H
#define REFUSING_H
#include <stddef.h>

void *__real_malloc(size_t size);
void *__real_realloc(void *block, size_t size);
void __real_free(void *block);

static long live, calls, first, last;

static int refuses(void) {
    calls++;
    return first <= calls && calls <= last;
}

void *__wrap_malloc(size_t size) {
    if (refuses()) return NULL;
    live++;
    return __real_malloc(size);
}

void *__wrap_realloc(void *block, size_t size) {
    if (refuses()) return NULL;
    live += block == NULL;
    return __real_realloc(block, size);
}

void __wrap_free(void *block) {
    live -= block != NULL;
    __real_free(block);
}

#endif
