/* Writes what the calls of crsdesk.h answer to many texts, for a comparison of one library with another.

   Standard input is a rules file and then texts, each behind a line with the number of its bytes. */
#include <stdio.h>
#include <stdlib.h>

#include <crsdesk.h>

enum { ROOM = 1 << 22 };

static char out[ROOM];
static size_t length;
static struct crsdesk_refusal why;

/* The next text; NULL at the end. */
static char *next(size_t *bytes)
{
    char *text;
    if (scanf("%zu", bytes) != 1 || getchar() != '\n')
        return NULL;
    text = malloc(*bytes ? *bytes : 1);
    if (text == NULL || fread(text, 1, *bytes, stdin) != *bytes)
        exit(2);
    return text;
}

static void tell(const char *call, uint32_t code)
{
    printf("%s %u %u at %zu: ", call, (unsigned)code, (unsigned)why.number, why.place);
    fwrite(out, 1, length, stdout);
    putchar('\n');
    why.number = 0;
    why.place = length = 0;
}

int main(void)
{
    struct crsdesk_rules rules;
    struct crsdesk_catalogue catalogue, under;
    struct crsdesk_rules_standing read;
    size_t bytes, before_bytes = 0;
    char *text = next(&bytes), *before = NULL;
    uint64_t number;

    crsdesk_rules_new(&rules);
    crsdesk_catalogue_new(&catalogue, CRSDESK_FULL);
    crsdesk_catalogue_new(&under, CRSDESK_DEFINITION);
    read = crsdesk_rules_add(&rules, text, bytes);
    printf("rules %u %u, line %zu at %zu\n", (unsigned)read.code, (unsigned)read.number, read.line, read.place);
    free(text);
    for (number = 1; (text = next(&bytes)) != NULL; number++) {
        uint32_t kind = 0, level;
        struct crsdesk_standing full, form;
        tell("check", crsdesk_check(text, bytes, &kind, &why));
        printf("kind %u\n", (unsigned)kind);
        tell("explain", crsdesk_explain(text, bytes, out, ROOM, &length));
        for (level = CRSDESK_FULL; level <= CRSDESK_DEFINITION; level++) {
            tell("canon", crsdesk_canon(text, bytes, level, out, ROOM, &length, &why));
            tell("under", crsdesk_canon_under(text, bytes, level, &rules, out, ROOM, &length, &why));
            if (before != NULL)
                tell("differences",
                     crsdesk_differences(before, before_bytes, text, bytes, level, out, ROOM, &length, &why));
        }
        full = crsdesk_catalogue_add(&catalogue, number, text, bytes);
        form = crsdesk_catalogue_add_under(&under, &rules, number, text, bytes);
        printf("groups %zu %zu\n", full.group, form.group);
        free(before);
        before = text;
        before_bytes = bytes;
    }
    printf("texts %zu, groups %zu and %zu\n", (size_t)number - 1, crsdesk_catalogue_groups(&catalogue),
           crsdesk_catalogue_groups(&under));
    crsdesk_catalogue_free(&catalogue);
    crsdesk_catalogue_free(&under);
    crsdesk_rules_free(&rules);
    free(before);
    return 0;
}
