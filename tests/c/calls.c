/* Calls each call of crsdesk.h once, and those that are inline there with each room: no room, a byte or a number too few,
   and just the room. Their buffers are of just the room, so that a sanitizer sees each touch outside.

   Each wrong answer has a line; the last line is 'N passed, M failed', and the status is 0 where M is 0. */
#include <stdio.h>
#include <stdlib.h>
#include <string.h>

#include <crsdesk.h>

#define HEIGHT "VERTCRS[\"H\",VDATUM[\"D\"],CS[vertical,1],AXIS[\"h\",up,%sLENGTHUNIT[\"metre\",1]]]"
#define RULES "SAME[VDATUM[\"D\"],VDATUM[\"E\"]]\nUNCOUNTED[crsName]\n"
#define HOLD(condition) hold(condition, #condition, __LINE__)

enum { LENGTH = 400, MOST = 20, FILLER = 0x5a };

static unsigned passed, failed;
static const char cut[] = "VERTCRS[\"H\"";
static char height[LENGTH], canonical[LENGTH], other[LENGTH], out[2000];
static size_t height_length, canonical_length, other_length, length, count, ends[MOST];
static struct crsdesk_refusal why;

static void hold(int is_right, const char *what, int line)
{
    passed += is_right != 0;
    failed += is_right == 0;
    if (!is_right)
        printf("calls.c:%d: not %s\n", line, what);
}

/* Whether a buffer begins with a text. */
static int is(const char *at, size_t of, const char *text)
{
    return of == strlen(text) && memcmp(at, text, of) == 0;
}

/* A buffer of so many bytes, each FILLER. */
static void *filled(size_t room)
{
    void *made = malloc(room ? room : 1);
    if (!made)
        exit(2);
    return memset(made, FILLER, room ? room : 1);
}

/* What writes a text into so much room. */
typedef uint32_t (*written)(void *from, char *to, size_t room, size_t *told);

static uint32_t group_text(void *from, char *to, size_t room, size_t *told)
{
    return crsdesk_catalogue_text(from, 1, to, room, told);
}

static uint32_t form(void *from, char *to, size_t room, size_t *told)
{
    return crsdesk_canon_under(other, other_length, CRSDESK_FULL, from, to, room, told, &why);
}

/* A call that is inline writes a text with just the room, and with less nothing. */
static void in_each_room(written call, void *from, const char *text)
{
    const size_t whole = strlen(text), rooms[] = {0, whole - 1, whole, whole + 9};
    for (int i = 0; i < 4; i++) {
        char *to = filled(rooms[i]);
        size_t told = 0;
        HOLD(call(from, to, rooms[i], &told) == (i < 2 ? CRSDESK_NO_ROOM : CRSDESK_OK) && told == whole);
        HOLD(i < 2 ? to[0] == FILLER : memcmp(to, text, whole) == 0);
        HOLD(i != 3 || to[whole] == FILLER);
        free(to);
    }
}

static void texts(void)
{
    uint32_t kind = 0, same = 2;
    struct crsdesk_entry entries[2] = {{0, 0, 0, 0, 0, 0}, {0, 4, 0, 0, 0, 0}};
    struct crsdesk_explained explained;
    char digest[CRSDESK_DIGEST_LENGTH];
    entries[0].end = height_length;
    HOLD(crsdesk_check(height, height_length, &kind, &why) == CRSDESK_OK && kind == CRSDESK_VERTICAL);
    HOLD(crsdesk_canon(height, height_length, CRSDESK_FULL, out, sizeof out, &length, &why) == CRSDESK_OK);
    HOLD(is(out, length, canonical));
    HOLD(crsdesk_canon_each(height, height_length, entries, 2, CRSDESK_FULL, out, sizeof out, &count) == CRSDESK_OK);
    HOLD(count == 2 && is(out, entries[0].written_end, canonical) && entries[1].code == CRSDESK_REFUSED);
    HOLD(crsdesk_digest(height, height_length, CRSDESK_FULL, digest, sizeof digest, &length, &why) == CRSDESK_OK);
    HOLD(length == CRSDESK_DIGEST_LENGTH);
    HOLD(crsdesk_digest_each(height, height_length, entries, 2, CRSDESK_FULL, out, sizeof out, &count) == CRSDESK_OK);
    HOLD(count == 2 && entries[0].written_end == length && memcmp(out, digest, length) == 0
         && entries[1].code == CRSDESK_REFUSED);
    HOLD(crsdesk_same(height, height_length, other, other_length, CRSDESK_DEFINITION, &same, &why) == CRSDESK_OK && !same);
    HOLD(crsdesk_first_part(height, height_length, other, other_length, CRSDESK_FULL, out, sizeof out, &length, &why)
         == CRSDESK_OK);
    HOLD(is(out, length, "datum/name"));
    HOLD(crsdesk_differences(height, height_length, other, other_length, CRSDESK_FULL, out, sizeof out, &length, &why)
         == CRSDESK_OK);
    HOLD(is(out, length, "datum/name: \"D\" | \"E\"\n"));
    HOLD(crsdesk_difference_pieces(height, height_length, other, other_length, CRSDESK_FULL, out, sizeof out, &length,
                                   ends, MOST, &count, &why) == CRSDESK_OK);
    HOLD(count == 3 && is(out, ends[0], "datum/name") && is(out + ends[1], ends[2] - ends[1], "\"E\""));
    HOLD(crsdesk_explain(cut, sizeof cut - 1, out, sizeof out, &length) == CRSDESK_OK && length > 200);
    HOLD(crsdesk_refusal_pieces(cut, sizeof cut - 1, out, sizeof out, &length, ends, MOST, &count, &explained)
         == CRSDESK_REFUSED);
    HOLD(count == 7 && explained.line == 1 && explained.column == 12 && explained.refusal.number == 7);
    HOLD(crsdesk_refusal_name(7, out, sizeof out, &length) == CRSDESK_OK && is(out, length, "UnexpectedEnd"));
    HOLD(crsdesk_version(out, sizeof out, &length) == CRSDESK_OK && length >= 5);
}

/* The numbers of a group's texts with each room. */
static void lines(struct crsdesk_catalogue *catalogue)
{
    for (size_t room = 0; room < 4; room++) {
        uint64_t *numbers = filled(room * sizeof *numbers);
        count = 0;
        HOLD(crsdesk_catalogue_lines(catalogue, 1, numbers, room, &count) == (room < 2 ? CRSDESK_NO_ROOM : CRSDESK_OK));
        HOLD(count == 2 && (room < 1 || numbers[0] == 10) && (room < 2 || numbers[1] == 11));
        free(numbers);
    }
    count = MOST;
    HOLD(crsdesk_catalogue_lines(catalogue, 2, NULL, 0, &count) == CRSDESK_NO_NUMBER && count == MOST);
    HOLD(crsdesk_catalogue_text(catalogue, 2, out, 0, &count) == CRSDESK_NO_NUMBER && count == MOST);
}

static void catalogues_and_rules(void)
{
    struct crsdesk_catalogue catalogue;
    struct crsdesk_rules rules;
    crsdesk_rules_new(&rules);
    HOLD(crsdesk_rules_add(&rules, RULES, sizeof RULES - 1).code == CRSDESK_OK);
    HOLD(crsdesk_rules_form(&rules, CRSDESK_FULL, height, height_length).length == canonical_length - 1);
    HOLD(crsdesk_rules_piece(&rules, canonical_length - 2).length == 1);
    HOLD(crsdesk_catalogue_new(&catalogue, CRSDESK_FULL) == CRSDESK_OK);
    HOLD(crsdesk_catalogue_add(&catalogue, 10, height, height_length).group == 1);
    HOLD(crsdesk_catalogue_add(&catalogue, 11, canonical, canonical_length).group == 1);
    HOLD(crsdesk_catalogue_groups(&catalogue) == 1 && crsdesk_catalogue_line(&catalogue, 1, 1).number == 11);
    HOLD(crsdesk_catalogue_piece(&catalogue, 1, 0).length == canonical_length);
    lines(&catalogue);
    in_each_room(group_text, &catalogue, canonical);
    crsdesk_catalogue_free(&catalogue);
    HOLD(crsdesk_catalogue_new(&catalogue, CRSDESK_FULL) == CRSDESK_OK);
    HOLD(crsdesk_catalogue_add_under(&catalogue, &rules, 1, height, height_length).group == 1);
    HOLD(crsdesk_catalogue_add_under(&catalogue, &rules, 2, other, other_length).group == 1);
    crsdesk_catalogue_free(&catalogue);
    /* The form is the canonical text without its name. */
    memmove(canonical + 9, canonical + 10, canonical_length - 9);
    in_each_room(form, &rules, canonical);
    HOLD(crsdesk_canon_under(cut, sizeof cut - 1, CRSDESK_FULL, &rules, NULL, 0, &length, &why) == CRSDESK_REFUSED);
    HOLD(why.number == 7 && why.place == 11);
    HOLD(crsdesk_canon_under(cut, sizeof cut - 1, 2, &rules, NULL, 0, &length, &why) == CRSDESK_NO_LEVEL);
    crsdesk_rules_free(&rules);
}

int main(void)
{
    height_length = (size_t)snprintf(height, LENGTH, HEIGHT, "");
    canonical_length = (size_t)snprintf(canonical, LENGTH, HEIGHT, "ORDER[1],");
    other_length = (size_t)snprintf(other, LENGTH, HEIGHT, "");
    memcpy(strstr(other, "\"D\""), "\"E\"", 3);
    texts();
    catalogues_and_rules();
    printf("%u passed, %u failed\n", passed, failed);
    return failed == 0 ? 0 : 1;
}
