/* The heap of the library on machines for which the toolchain has none: malloc's, as that of x86-64. The proofs take from it
   what the kit's libc::heap says: a block of n bytes at a multiple of 16, whose first bytes realloc keeps; where there is no
   memory ok is false, and nothing is owned. A block of no bytes has some, since malloc may answer NULL for none. */
#include <stdbool.h>
#include <stdlib.h>

struct tried { bool ok; void *place; };

static char nothing;

static struct tried tried(void *place) { return (struct tried){ place != NULL, place ? place : &nothing }; }

struct tried rattle_alloc(size_t n, size_t align) { return tried(malloc(n ? n : align)); }

struct tried rattle_realloc(void *place, size_t kept, size_t n, size_t align)
{
    (void)kept;
    return tried(realloc(place, n ? n : align));
}

void rattle_dealloc(void *place) { free(place); }
