/* Refuses one growth of memory to the extension crsdesk of a server that this is preloaded into.

   It is a module of PostgreSQL too: refuse_growth(N) says that of the calls of malloc, realloc and aligned_alloc that the
   extension makes in this backend, counted from 1 from then on, the Nth is to be refused, it alone; refused_growths()
   answers how many were since then, and counted_growths() how many such calls. Calls of the server itself aren't
   counted.

   glibc alone: the real calls are those that it keeps under other names. */
#define _GNU_SOURCE
#include "postgres.h"

#include <dlfcn.h>
#include <errno.h>

#include "fmgr.h"

PG_MODULE_MAGIC;

void *__libc_malloc(size_t size);
void *__libc_realloc(void *old, size_t size);
void *__libc_memalign(size_t alignment, size_t size);

static long asked, growths, refused;

static bool is_refused(void *caller)
{
    Dl_info found;

    if (asked == 0 || dladdr(caller, &found) == 0 || strstr(found.dli_fname, "/crsdesk.so") == NULL)
        return false;
    if (++growths != asked)
        return false;
    refused++;
    errno = ENOMEM;
    return true;
}

void *malloc(size_t size)
{
    return is_refused(__builtin_return_address(0)) ? NULL : __libc_malloc(size);
}

void *realloc(void *old, size_t size)
{
    return is_refused(__builtin_return_address(0)) ? NULL : __libc_realloc(old, size);
}

void *aligned_alloc(size_t alignment, size_t size)
{
    return is_refused(__builtin_return_address(0)) ? NULL : __libc_memalign(alignment, size);
}

PG_FUNCTION_INFO_V1(refuse_growth);
Datum refuse_growth(PG_FUNCTION_ARGS)
{
    asked = PG_GETARG_INT32(0);
    growths = refused = 0;
    PG_RETURN_INT32(0);
}

PG_FUNCTION_INFO_V1(refused_growths);
Datum refused_growths(PG_FUNCTION_ARGS)
{
    (void)fcinfo;
    asked = 0;
    PG_RETURN_INT32((int32)refused);
}

PG_FUNCTION_INFO_V1(counted_growths);
Datum counted_growths(PG_FUNCTION_ARGS)
{
    (void)fcinfo;
    asked = 0;
    PG_RETURN_INT32((int32)growths);
}
