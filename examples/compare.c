/* Says whether two files hold the same CRS, or which part differs first.

       cc compare.c $(pkg-config --cflags --libs crsdesk) -o compare
       ./compare a.wkt b.wkt

   The status is 0 where they do, 1 where they differ or one spells no CRS, and 2 for a fault. */
#include <crsdesk.h>
#include <stdio.h>
#include <stdlib.h>

struct text {
    char *bytes; /* to be freed */
    size_t length;
};

/* Reads a whole file; answers 0, with a line on standard error, where that fails. */
static int read_file(const char *name, struct text *text)
{
    FILE *file = fopen(name, "rb");
    size_t room = 0, read = 1;
    char *larger = NULL;

    text->bytes = NULL;
    text->length = 0;
    while (file != NULL && read > 0) {
        if (text->length == room) {
            room = 2 * room + 4096;
            larger = realloc(text->bytes, room);
            if (larger == NULL)
                break;
            text->bytes = larger;
        }
        read = fread(text->bytes + text->length, 1, room - text->length, file);
        text->length += read;
    }
    if (file == NULL || larger == NULL || ferror(file)) {
        perror(name);
        free(text->bytes);
        text->bytes = NULL;
    }
    if (file != NULL)
        fclose(file);
    return text->bytes != NULL;
}

int main(int count, char **names)
{
    struct crsdesk_refusal refusal;
    struct text first, second;
    char path[100], name[16];
    size_t length;
    uint32_t code;

    if (count != 3) {
        fprintf(stderr, "usage: compare FILE FILE\n");
        return 2;
    }
    if (!read_file(names[1], &first))
        return 2;
    if (!read_file(names[2], &second)) {
        free(first.bytes);
        return 2;
    }
    code = crsdesk_first_part(first.bytes, first.length, second.bytes, second.length, CRSDESK_FULL, path, sizeof path,
                              &length, &refusal);
    free(first.bytes);
    free(second.bytes);
    if (code == CRSDESK_OK) {
        if (length == 0)
            printf("same\n");
        else
            printf("different %.*s\n", (int)length, path);
        return length != 0;
    }
    if (code == CRSDESK_REFUSED || code == CRSDESK_SECOND_REFUSED) {
        crsdesk_refusal_name(refusal.number, name, sizeof name, &length);
        printf("%s: refused %u %.*s at %zu\n", names[code == CRSDESK_REFUSED ? 1 : 2], (unsigned)refusal.number,
               (int)length, name, refusal.place);
        return 1;
    }
    fprintf(stderr, "compare: %s\n", code == CRSDESK_NO_MEMORY ? "out of memory" : "a code that isn't known");
    return 2;
}
