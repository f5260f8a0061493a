/* The memory of the library: three functions over malloc, realloc and free. A block of no bytes is
   asked for as one of its alignment. A result is never NULL; `ok` says whether there is a block. */
#include <stdbool.h>
#include <stddef.h>
#include <stdlib.h>

struct block { bool ok; void *at; };
static char none;

static struct block block_at(void *at) {
    struct block b = {at != NULL, at != NULL ? at : &none};
    return b;
}

struct block rattle_alloc(size_t size, size_t align) { return block_at(malloc(size ? size : align)); }
struct block rattle_realloc(void *at, size_t used, size_t size, size_t align) {
    (void)used;
    return block_at(realloc(at, size ? size : align));
}
void rattle_dealloc(void *at) { free(at); }
