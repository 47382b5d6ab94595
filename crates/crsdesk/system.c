/* What the program takes of the toolchain's C functions, beside the heap, on machines for which it has none: its words, and
   errno. */
#include <errno.h>
#include <stddef.h>
#include <sys/types.h>

static size_t count;
static char **words;

__attribute__((constructor)) static void keep(int argc, char **argv)
{
    count = (size_t)argc;
    words = argv;
}

/* Puts a word at the front of a buffer, and answers its length; -1 where there is none, and -2 where it doesn't fit. */
ssize_t rattle_arg(size_t number, char *buffer, size_t room)
{
    size_t length = 0;
    if (number >= count || words[number] == NULL)
        return -1;
    for (; words[number][length] != 0; length++) {
        if (length == room)
            return -2;
        buffer[length] = words[number][length];
    }
    return (ssize_t)length;
}

int rattle_errno(void) { return errno; }

void rattle_set_errno(int error) { errno = error; }
