/* Times calls of the library from C:

       bench ROUNDS [STAGE] < TEXTS

   TEXTS has a text a line. For each stage, or for one, a line is printed: its name, and the nanoseconds of the processor
   that it takes a text, the least of ROUNDS rounds over all lines. `same` compares each text with itself; `group` makes
   one catalogue of all. */
#define _POSIX_C_SOURCE 200809L
#include <crsdesk.h>
#include <stdio.h>
#include <stdlib.h>
#include <string.h>
#include <time.h>

#define MOST_LINES 1000000
#define ROOM 1000000

static char *texts[MOST_LINES];
static size_t lengths[MOST_LINES];
static size_t count;
static char out[ROOM];
static struct crsdesk_catalogue catalogue;
static struct crsdesk_refusal refusal;

static void read_lines(void)
{
    size_t room = 0;
    ssize_t length;
    char *line = NULL;

    while (count < MOST_LINES && (length = getline(&line, &room, stdin)) > 0) {
        if (line[length - 1] == '\n')
            length--;
        texts[count] = line;
        lengths[count++] = (size_t)length;
        line = NULL;
        room = 0;
    }
}

static void check(size_t i)
{
    uint32_t kind;

    crsdesk_check(texts[i], lengths[i], &kind, &refusal);
}

static void canon(size_t i)
{
    size_t length;

    crsdesk_canon(texts[i], lengths[i], CRSDESK_FULL, out, ROOM, &length, &refusal);
}

static void same(size_t i)
{
    uint32_t are_same;

    crsdesk_same(texts[i], lengths[i], texts[i], lengths[i], CRSDESK_FULL, &are_same, &refusal);
}

static void group(size_t i)
{
    if (i == 0)
        crsdesk_catalogue_new(&catalogue, CRSDESK_FULL);
    crsdesk_catalogue_add(&catalogue, i + 1, texts[i], lengths[i]);
    if (i + 1 == count)
        crsdesk_catalogue_free(&catalogue);
}

static const struct {
    const char *name;
    void (*call)(size_t);
} stages[] = {{"check", check}, {"canon", canon}, {"same", same}, {"group", group}};

/* Nanoseconds of the processor that a round takes a text. */
static double round_of(void (*call)(size_t))
{
    struct timespec began, ended;
    size_t i;

    clock_gettime(CLOCK_PROCESS_CPUTIME_ID, &began);
    for (i = 0; i < count; i++)
        call(i);
    clock_gettime(CLOCK_PROCESS_CPUTIME_ID, &ended);
    return ((double)(ended.tv_sec - began.tv_sec) * 1e9 + (double)(ended.tv_nsec - began.tv_nsec)) / (double)count;
}

int main(int words, char **word)
{
    long rounds = words > 1 ? strtol(word[1], NULL, 10) : 1;
    size_t stage;

    read_lines();
    if (count == 0)
        return 1;
    for (stage = 0; stage < sizeof stages / sizeof *stages; stage++) {
        double least = 0;
        long round;
        if (words > 2 && strcmp(word[2], stages[stage].name) != 0)
            continue;
        for (round = 0; round < rounds; round++) {
            double took = round_of(stages[stage].call);
            if (round == 0 || took < least)
                least = took;
        }
        printf("%s %.0f\n", stages[stage].name, least);
    }
    return 0;
}
