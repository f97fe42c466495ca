/* The three functions by which the library takes memory, over the C library's heap. */
#include "ras.h"
#include <stdlib.h>

static ras_block made(void *at) {
    return at ? (ras_block){true, at} : (ras_block){false, (void *)16};
}

/* An alignment is at most 16, and the C library aligns each block to 16. */
ras_block rattle_alloc(size_t size, size_t align) {
    return made(malloc(size ? size : align));
}

ras_block rattle_realloc(void *at, size_t used, size_t size, size_t align) {
    (void)used;
    return made(realloc(at, size ? size : align));
}

void rattle_dealloc(void *at) {
    free(at);
}
