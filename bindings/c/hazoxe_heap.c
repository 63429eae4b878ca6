/* The memory of the library: the three functions that it calls, over those of the C library. A program compiles this file and
 * links it. Nothing proves it.
 *
 * A block of no bytes is asked for as one of its alignment, so that it has an address. There is an address beside the refusal
 * too, since the library's word for an address is never NULL. */
#include <stdint.h>
#include <stdlib.h>

typedef struct {
    uint64_t is_there;
    void *at;
} rattle_block;

static char nothing;

static rattle_block block_at(void *at) {
    rattle_block block = {at != NULL, at != NULL ? at : &nothing};
    return block;
}

rattle_block rattle_alloc(size_t size, size_t align) {
    return block_at(malloc(size > 0 ? size : align));
}

rattle_block rattle_realloc(void *at, size_t old_size, size_t size, size_t align) {
    (void)old_size;
    return block_at(realloc(at, size > 0 ? size : align));
}

void rattle_dealloc(void *at) { free(at); }
