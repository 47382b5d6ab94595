/* Refuses one growth of memory to the program that it is preloaded into, or to calls that are made by it.

   A growth is a call of malloc, realloc or aligned_alloc. With REFUSE=N in the environment all are counted, from 1 and
   from before main on, and the Nth is refused, it alone: it answers NULL with ENOMEM, as where there is no memory. When
   the program ends, a line on standard error says how many there were:

       growths C refused R

   With REFUSE_FROM=call too, only those count that are made between a write to standard output that begins with "call\n"
   and one that begins with "answered\n".

   Without REFUSE those are counted that are made in refusing_call(), of which the `asked`th is refused; `counted` says how many
   there were, and how many blocks were taken and not given back.

   For programs of one thread. glibc alone: the real calls are those that it keeps under other names. */
#define _GNU_SOURCE
#include <errno.h>
#include <stdint.h>
#include <stdio.h>
#include <stdlib.h>
#include <string.h>
#include <sys/syscall.h>
#include <unistd.h>

void *__libc_malloc(size_t size);
void *__libc_realloc(void *old, size_t size);
void *__libc_memalign(size_t alignment, size_t size);
void __libc_free(void *old);

struct {
    unsigned long asked, growths, refused;
    long in_use;
} counted;
static int counts_all, is_by_writes, is_counting;

__attribute__((constructor)) static void begin(void)
{
    const char *number = getenv("REFUSE");
    counted.asked = number ? strtoul(number, NULL, 10) : 0;
    counts_all = number != NULL;
    is_by_writes = counts_all && getenv("REFUSE_FROM") != NULL;
    is_counting = counts_all && !is_by_writes;
}

/* After main: these programs end by its return alone. */
__attribute__((destructor)) static void end(void)
{
    char line[64];
    is_counting = 0;
    int length = snprintf(line, sizeof line, "growths %lu refused %lu\n", counted.growths, counted.refused);
    if (counts_all)
        syscall(SYS_write, 2, line, length);
}

/* A call of as many numbers and pointers as it takes; others are passed over. */
uint64_t refusing_call(uint64_t (*call)(uint64_t, uint64_t, uint64_t, uint64_t, uint64_t, uint64_t, uint64_t, uint64_t,
                                        uint64_t, uint64_t, uint64_t, uint64_t),
                       const uint64_t it[12])
{
    is_counting = 1;
    uint64_t answer = call(it[0], it[1], it[2], it[3], it[4], it[5], it[6], it[7], it[8], it[9], it[10], it[11]);
    is_counting = 0;
    return answer;
}

static int is_refused(void)
{
    if (!is_counting || ++counted.growths != counted.asked)
        return 0;
    counted.refused++;
    errno = ENOMEM;
    return 1;
}

static void *taken(void *new)
{
    counted.in_use += is_counting && new;
    return new;
}

void *malloc(size_t size)
{
    return is_refused() ? NULL : taken(__libc_malloc(size));
}

void *aligned_alloc(size_t alignment, size_t size)
{
    return is_refused() ? NULL : taken(__libc_memalign(alignment, size));
}

void *realloc(void *old, size_t size)
{
    if (is_refused())
        return NULL;
    return old ? __libc_realloc(old, size) : taken(__libc_realloc(old, size));
}

void free(void *old)
{
    counted.in_use -= is_counting && old;
    __libc_free(old);
}

static int begins(const void *bytes, size_t count, const char *front)
{
    size_t length = strlen(front);
    return count >= length && memcmp(bytes, front, length) == 0;
}

ssize_t write(int file, const void *bytes, size_t count)
{
    if (file == 1 && is_by_writes && begins(bytes, count, "call\n"))
        is_counting = 1;
    if (file == 1 && is_by_writes && begins(bytes, count, "answered\n"))
        is_counting = 0;
    return syscall(SYS_write, file, bytes, count);
}

/* The same, under the other name by which programs call it. */
ssize_t __write(int file, const void *bytes, size_t count)
{
    return write(file, bytes, count);
}
