/* Compares crsdesk.h with what the library says of its own layout (src/layout.rt): that a catalogue and rules fit into
   their structs and are aligned there, and that the other structs have the size of the library's and each field where the library puts
   it. tools/build.py runs it before it makes the libraries, which don't show these calls.

   Each struct that differs has a line; the status is 0 where none does. */
#include <stdio.h>

#include <crsdesk.h>

/* Sizes in bytes, as the library has them. */
struct sizes {
    size_t catalogue, alignment, rules, rules_alignment, refusal, standing, line, piece, rules_standing, form;
    size_t explained, entry;
};

/* Each struct with a mark in each field. */
struct marks {
    struct crsdesk_refusal refusal;
    struct crsdesk_standing standing;
    struct crsdesk_line line;
    struct crsdesk_piece piece;
    struct crsdesk_rules_standing rules_standing;
    struct crsdesk_form form;
    struct crsdesk_explained explained;
    struct crsdesk_entry entry;
};

struct sizes crsdesk_layout_sizes(void);
struct marks crsdesk_layout_marks(void);

static int differing;

static void has_size(const char *name, size_t here, size_t there)
{
    if (here == there)
        return;
    printf("struct %s has %zu bytes in the header and %zu in the library\n", name, here, there);
    differing = 1;
}

static void marks(const char *name, int are_there)
{
    if (are_there)
        return;
    printf("struct %s doesn't have its fields where the library has them\n", name);
    differing = 1;
}

static int is_marked_refusal(struct crsdesk_refusal it)
{
    return it.place == 1111111111111111111u && it.number == 2222222222u;
}

static int is_marked_standing(struct crsdesk_standing it)
{
    return it.group == 3333333333333333333u && is_marked_refusal(it.refusal) && it.code == 4000000004u;
}

static int is_marked_line(struct crsdesk_line it)
{
    return it.number == 5555555555555555555u && it.code == 4000000006u;
}

static int is_marked_piece(struct crsdesk_piece it)
{
    for (size_t i = 0; i < sizeof it.bytes; i++)
        if (it.bytes[i] != 7)
            return 0;
    return it.length == 8888888888888888888u && it.code == 4000000009u;
}

static int is_marked_rules_standing(struct crsdesk_rules_standing it)
{
    return it.line == 1111111111111111112u && it.place == 2222222222222222223u && it.number == 2222222228u
           && it.code == 4000000010u;
}

static int is_marked_form(struct crsdesk_form it)
{
    return it.length == 5555555555555555556u && is_marked_refusal(it.refusal) && it.code == 4000000011u;
}

static int is_marked_explained(struct crsdesk_explained it)
{
    return is_marked_refusal(it.refusal) && it.line == 1111111111111111113u && it.column == 2222222222222222224u
           && it.node == 3333333333333333335u;
}

static int is_marked_entry(struct crsdesk_entry it)
{
    return it.begin == 1111111111111111114u && it.end == 2222222222222222225u && it.written_end == 3333333333333333336u
           && it.place == 4444444444444444445u && it.number == 2222222226u && it.code == 4000000012u;
}

/* Whether what the library keeps in a struct of the caller's has the room and the alignment that it needs. */
static void holds(const char *name, size_t room, size_t alignment, size_t needed, size_t needed_alignment)
{
    if (room < needed) {
        printf("struct %s has %zu bytes, and the library needs %zu\n", name, room, needed);
        differing = 1;
    }
    if (alignment % needed_alignment != 0) {
        printf("struct %s is aligned to %zu bytes, and the library needs %zu\n", name, alignment, needed_alignment);
        differing = 1;
    }
}

int main(void)
{
    struct sizes sizes = crsdesk_layout_sizes();
    holds("crsdesk_catalogue", sizeof(struct crsdesk_catalogue), _Alignof(struct crsdesk_catalogue), sizes.catalogue,
          sizes.alignment);
    holds("crsdesk_rules", sizeof(struct crsdesk_rules), _Alignof(struct crsdesk_rules), sizes.rules,
          sizes.rules_alignment);
    has_size("crsdesk_refusal", sizeof(struct crsdesk_refusal), sizes.refusal);
    has_size("crsdesk_standing", sizeof(struct crsdesk_standing), sizes.standing);
    has_size("crsdesk_line", sizeof(struct crsdesk_line), sizes.line);
    has_size("crsdesk_piece", sizeof(struct crsdesk_piece), sizes.piece);
    has_size("crsdesk_rules_standing", sizeof(struct crsdesk_rules_standing), sizes.rules_standing);
    has_size("crsdesk_form", sizeof(struct crsdesk_form), sizes.form);
    has_size("crsdesk_explained", sizeof(struct crsdesk_explained), sizes.explained);
    has_size("crsdesk_entry", sizeof(struct crsdesk_entry), sizes.entry);
    /* The marks are returned by value, so that they aren't asked for where a struct hasn't the library's size. */
    if (differing)
        return differing;
    struct marks it = crsdesk_layout_marks();
    marks("crsdesk_refusal", is_marked_refusal(it.refusal));
    marks("crsdesk_standing", is_marked_standing(it.standing));
    marks("crsdesk_line", is_marked_line(it.line));
    marks("crsdesk_piece", is_marked_piece(it.piece));
    marks("crsdesk_rules_standing", is_marked_rules_standing(it.rules_standing));
    marks("crsdesk_form", is_marked_form(it.form));
    marks("crsdesk_explained", is_marked_explained(it.explained));
    marks("crsdesk_entry", is_marked_entry(it.entry));
    return differing;
}
