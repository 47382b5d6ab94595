/* crsdesk: well-known text (WKT2, ISO 19162:2019) of coordinate reference systems, from C.

   One CRS has many spellings. These calls report whether two texts are the same CRS, and where they differ; write each
   CRS in one canonical spelling; group many texts by CRS; and reject any other text with an error number and byte
   offset.

       #include <crsdesk.h>
       cc program.c -lcrsdesk          (or with pkg-config: cc program.c $(pkg-config --cflags --libs crsdesk))

   TEXTS are bytes and a length, with no NUL byte after them; a NUL byte inside is a byte like any other. They needn't
   be UTF-8, are only read, and may be as long as memory allows.

   RESULTS go to places that the caller gives. A text goes into the caller's buffer `out`, which has room for `room`
   bytes, and its number of bytes into `*length`; no NUL byte follows it. If it needs more room, the call returns
   CRSDESK_NO_ROOM, and `*length` is the number of bytes that it needs: call again with that room. The buffer is then
   unchanged, unless the call says otherwise. Several texts are PIECES: their bytes go into `out`, one after the other,
   and the end of each into `ends`, an array with room for `most` numbers; the first begins at 0, each other at the end
   of the one before, and `*count` is their number. No result must be freed. Only catalogues and rules hold memory,
   until crsdesk_catalogue_free and crsdesk_rules_free.

   CODES: each call that can fail returns CRSDESK_OK or another code below. A call changes at its pointers only what the
   description of the returned code names.

   THE CALLER must obey these conditions, which nothing checks:
   - no pointer is null, even if its length or room is 0;
   - each text and each buffer has the number of bytes that the call is given, at most PTRDIFF_MAX; `ends`, `entries`
     and `numbers` have room for that number of elements, of at most PTRDIFF_MAX bytes together;
   - the memory that a call writes to overlaps no other argument, and no other thread uses it during the call; a text
     isn't changed during the call. Each call writes to its catalogue or rules, even one that only reads results; the
     inline functions crsdesk_catalogue_lines, crsdesk_catalogue_text and crsdesk_canon_under make several calls, and no
     other call may use the catalogue or the rules meanwhile;
   - crsdesk_catalogue_new makes a catalogue, even with CRSDESK_NO_LEVEL, before any other call uses it, and after
     crsdesk_catalogue_free no other call uses it until it is made again. Until then only these calls read and write its
     memory, and it isn't copied or moved; crsdesk_catalogue_new over it would lose its memory. The same holds for
     rules, crsdesk_rules_new and crsdesk_rules_free;
   - each thread that calls has 256 kB of stack left;
   - malloc, realloc and free are the C library's, or come from one allocator with the same alignment;
   - no call is made by a signal handler, nor by a child that a process of several threads has forked.

   THREADS: only catalogues and rules have state, there are no locks, and nothing must be set up, so any number of
   threads may call at once. A catalogue or rules may go from thread to thread, and any thread may free them, if they
   are in one call at a time, and each call is ordered after the one before by a mutex, by the start or the join of a
   thread, or by a sequentially consistent atomic. `volatile` and relaxed atomics order nothing. Threads that use the
   same rules at once each make their own.

   The results of each call are proved for all texts; this header and the program around the calls are not. The build
   compares the layout of the structs below with the library's; tests check that crsdesk_catalogue_free and
   crsdesk_rules_free free all memory. */
#ifndef CRSDESK_H
#define CRSDESK_H

#include <stddef.h>
#include <stdint.h>
#include <string.h>

#ifdef __cplusplus
extern "C" {
#endif

/* Levels: what counts when CRSs are compared, and what a canonical text says. Profile. */
#define CRSDESK_FULL 0       /* everything in the text */
#define CRSDESK_DEFINITION 1 /* only the definition: everything except identifiers, usages and remarks */

/* Codes. */
#define CRSDESK_OK 0             /* the call succeeded */
#define CRSDESK_REFUSED 1        /* the text, or the first of two, spells no CRS */
#define CRSDESK_SECOND_REFUSED 2 /* the second text spells none; the first spells one */
#define CRSDESK_NO_MEMORY 3      /* out of memory; the same call may be repeated */
#define CRSDESK_NO_LEVEL 4       /* there is no such level; no text was read */
#define CRSDESK_NO_ROOM 5        /* the buffer is too small for the result */
#define CRSDESK_NO_NUMBER 6      /* no refusal or no group has this number, or the group has no text at this index */

/* Kinds of CRSs. ISO 19162:2019, "Coordinate reference systems". */
#define CRSDESK_GEODETIC 1   /* geodetic, and not geographic */
#define CRSDESK_GEOGRAPHIC 2 /* geodetic with an ellipsoidal coordinate system */
#define CRSDESK_PROJECTED 3
#define CRSDESK_VERTICAL 4
#define CRSDESK_COMPOUND 5 /* horizontal and vertical */

/* Why a text spells no CRS. Profile.
   number: 1 to 8 of the text, 11 to 13 of its shape, 21 to 29 of its values; crsdesk_refusal_name has its name.
   place: in bytes from the text's first, which is 0; at most the text's length. */
struct crsdesk_refusal {
    size_t place;
    uint32_t number;
};

/* Whether a text spells a CRS, and its kind.

   CRSDESK_OK: it does; *kind is CRSDESK_GEODETIC to CRSDESK_COMPOUND.
   CRSDESK_REFUSED: it spells none; *refusal says why.
   CRSDESK_NO_MEMORY. */
uint32_t crsdesk_check(const char *text, size_t text_length, uint32_t *kind, struct crsdesk_refusal *refusal);

/* The canonical text, at a level, of the CRS that a text spells. The canonical texts of two texts are equal, byte for
   byte, exactly if their CRSs are the same at the level, so use it as a key. It is itself accepted, spells the same CRS
   as its source, and is its own canonical text. It is UTF-8, usually about as long as its source, and can be longer:
   room for twice the source and 1,000 bytes is nearly always enough.

   CRSDESK_OK: the buffer begins with it; *length is its number of bytes.
   CRSDESK_REFUSED: the text spells none; *refusal says why.
   CRSDESK_NO_ROOM: it has more bytes than the buffer; *length is their number.
   CRSDESK_NO_MEMORY, CRSDESK_NO_LEVEL. */
uint32_t crsdesk_canon(const char *text, size_t text_length, uint32_t level, char *out, size_t room, size_t *length,
                       struct crsdesk_refusal *refusal);

/* How many bytes a digest has. */
#define CRSDESK_DIGEST_LENGTH 32

/* A short key: the SHA-256 digest (FIPS 180-4) of the result of crsdesk_canon. The same CRS at the level has the same
   digest; another CRS has another, except for a collision of SHA-256; none is known. `crsdesk digest` prints it in
   hexadecimal.

   CRSDESK_OK: the buffer begins with its CRSDESK_DIGEST_LENGTH bytes; *length is their number.
   CRSDESK_REFUSED, CRSDESK_NO_ROOM, CRSDESK_NO_MEMORY, CRSDESK_NO_LEVEL: as for crsdesk_canon. */
uint32_t crsdesk_digest(const char *text, size_t text_length, uint32_t level, char *out, size_t room, size_t *length,
                        struct crsdesk_refusal *refusal);

/* One of many texts. */
struct crsdesk_entry {
    size_t begin;       /* the caller's: where it begins among the bytes of all texts */
    size_t end;         /* the caller's: where it ends */
    size_t written_end; /* where its result ends in `out`; it begins where the one before ends, or at 0 */
    size_t place;       /* where it is refused, in bytes from its own first, with CRSDESK_REFUSED; otherwise 0 */
    uint32_t number;    /* and why */
    uint32_t code;      /* CRSDESK_OK or CRSDESK_REFUSED */
};

/* The canonical texts, at a level, of many texts: the results of crsdesk_canon for each, in one call. The texts are in
   one buffer, in any order, with anything between them; a text that ends after the buffer, or before it begins, is cut
   to the bytes inside. Their canonical texts go into `out`, one after the other; a refused text has none. *done is the
   number of finished entries, from the first; all others, and the rest of `out`, are unchanged.

   CRSDESK_OK: all are finished.
   CRSDESK_NO_ROOM: the canonical text of the next entry needs more bytes than are left in `out`.
   CRSDESK_NO_MEMORY: out of memory at the next entry.
   CRSDESK_NO_LEVEL.
   To continue, call again with the entries from the next one, and with an `out` that has room for at least its text. */
uint32_t crsdesk_canon_each(const char *texts, size_t texts_length, struct crsdesk_entry *entries, size_t count,
                            uint32_t level, char *out, size_t room, size_t *done);

/* The digests of many texts: the results of crsdesk_digest for each, CRSDESK_DIGEST_LENGTH bytes, one after the other,
   in one call; everything else as for crsdesk_canon_each. */
uint32_t crsdesk_digest_each(const char *texts, size_t texts_length, struct crsdesk_entry *entries, size_t count,
                             uint32_t level, char *out, size_t room, size_t *done);

/* Whether two texts spell the same CRS at a level.

   CRSDESK_OK: each spells a CRS; *same is 1 if they are the same, otherwise 0.
   CRSDESK_REFUSED: the first spells none; *refusal says why. The second wasn't checked.
   CRSDESK_SECOND_REFUSED: the first spells a CRS and the second none; *refusal says why the second doesn't.
   CRSDESK_NO_MEMORY, CRSDESK_NO_LEVEL. */
uint32_t crsdesk_same(const char *first, size_t first_length, const char *second, size_t second_length, uint32_t level,
                      uint32_t *same, struct crsdesk_refusal *refusal);

/* The first part in which the CRSs of two texts differ at a level, in the order of the canonical text: the words of its
   path with `/` between them, at most five, such as `datum/ellipsoid/flattening`. There are no words exactly if they
   are the same. Room for 100 bytes is enough.

   CRSDESK_OK: each text spells a CRS; the buffer begins with the path, *length is its number of bytes, and 0 exactly if
       the CRSs are the same.
   CRSDESK_REFUSED: the first spells none; *refusal says why. The second wasn't checked.
   CRSDESK_SECOND_REFUSED: the first spells a CRS and the second none; *refusal says why the second doesn't.
   CRSDESK_NO_ROOM: the path has more bytes than the buffer; *length is their number.
   CRSDESK_NO_MEMORY, CRSDESK_NO_LEVEL. */
uint32_t crsdesk_first_part(const char *first, size_t first_length, const char *second, size_t second_length,
                            uint32_t level, char *out, size_t room, size_t *length, struct crsdesk_refusal *refusal);

/* All parts in which the CRSs of two texts differ at a level, in the order of the canonical text: one line for each,
   with its path, its value in the first and in the second, and a line feed, such as

       datum/ellipsoid/flattening: 298.257223563 | 298.257222101

   A missing value is `none`; for a set each side has the members that the other lacks. The parameters of a conversion
   whose name occurs once in each text, among at most 64, have a line for their number, unit and identifiers, if these
   differ, with the name after the path of the set, in brackets and as in the text:

       conversion/parameters["False northing"]: 5467000 | 5647000
       conversion/parameters["Scale factor"]/unit: SCALEUNIT["unity",1] | none

   The line of the set, if others differ, comes after these. Values are spelled as in the canonical text; control
   characters, line ends, direction marks and backslashes in quoted texts and in names are escaped, such as `\n`,
   `\x1B`, `\u202E` and `\\`. If the first characters in which two values differ aren't both ASCII, their code points
   follow, such as ` (U+0410 | U+0041)`. There are no lines exactly if the CRSs are the same.

   CRSDESK_OK: each text spells a CRS; the buffer begins with the lines, *length is their number of bytes.
   CRSDESK_REFUSED: the first spells none; *refusal says why. The second wasn't checked.
   CRSDESK_SECOND_REFUSED: the first spells a CRS and the second none; *refusal says why the second doesn't.
   CRSDESK_NO_ROOM: the lines have more bytes than the buffer; *length is their number.
   CRSDESK_NO_MEMORY, CRSDESK_NO_LEVEL. */
uint32_t crsdesk_differences(const char *first, size_t first_length, const char *second, size_t second_length,
                             uint32_t level, char *out, size_t room, size_t *length, struct crsdesk_refusal *refusal);

/* Why a text spells no CRS, explained to a person in some lines, each with a line feed: `refused N NAME at P, line L,
   column C`; an excerpt of that line, and a caret under the place; for 11 to 13, 21 and 25 `in NODE at P: found ...,
   expected ...`, with everything that could be there; which delimiter is open, which name was meant, or which units are
   required (27); the meaning of the number; and a hint if the text shows what it is. After the excerpt at most 40 bytes
   of a keyword or a word appear (proved for the node, the item that was found and an open delimiter; tested for hints).
   5,000 bytes are enough by the lengths of these lines, which are counted, not proved: call with room 0 for the length,
   or retry.

   CRSDESK_OK: the buffer begins with the lines, *length is their number of bytes; 0 if the text spells a CRS.
   CRSDESK_NO_ROOM: they have more bytes than the buffer; *length is their number.
   CRSDESK_NO_MEMORY. */
uint32_t crsdesk_explain(const char *text, size_t text_length, char *out, size_t room, size_t *length);

/* The lines of crsdesk_differences as PIECES, three for each: its path, its value in the first and its value in the
   second. Nothing is escaped, and a missing value has no bytes. There are no pieces exactly if the CRSs are the same.

   CRSDESK_OK: each text spells a CRS; the buffers begin with the pieces.
   CRSDESK_REFUSED: the first spells none; *refusal says why. The second wasn't checked.
   CRSDESK_SECOND_REFUSED: the first spells a CRS and the second none; *refusal says why the second doesn't.
   CRSDESK_NO_ROOM: there are more bytes than room, or more pieces than most; *length and *count are their numbers. A
       buffer with enough room has the same contents as with CRSDESK_OK.
   CRSDESK_NO_MEMORY, CRSDESK_NO_LEVEL. */
uint32_t crsdesk_difference_pieces(const char *first, size_t first_length, const char *second, size_t second_length,
                                   uint32_t level, char *out, size_t room, size_t *length, size_t *ends, size_t most,
                                   size_t *count, struct crsdesk_refusal *refusal);

/* Why a text spells no CRS, and at which line and column. */
struct crsdesk_explained {
    struct crsdesk_refusal refusal;
    size_t line;   /* the line of its place, counted from 1; lines end at line feeds */
    size_t column; /* the character of that line, counted from 1 */
    size_t node;   /* the place of the node in which something else is expected; 0 if that isn't known */
};

/* The output of crsdesk_explain as PIECES. By index they are

   0  the excerpt with a caret under the place, in two lines, each with a line feed
   1  for 11 to 13, 21 and 25 the line with the item that was found and everything expected, with its line feed,
   2  the keyword of the node in which something else is expected, and
   3  the item that was found
   4  which delimiter is open, which name was meant, or which units are required (27)
   5  the meaning of the number
   6  hints: what the text is, and what to do with it
   7  and following: the name of each expected item: for 11 to 13 classes, and `its closing delimiter` if the node may
      end; for 21 the known words; for 25 the dimension

   A piece without content has no bytes; 4 to 6 have no line feed, and at most 1,000 bytes (proved).

   CRSDESK_OK: the text spells a CRS.
   CRSDESK_REFUSED: it spells none; *explained says why and where; the buffers begin with the pieces.
   CRSDESK_NO_ROOM: it spells none; *explained says why and where; there are more bytes than room, or more pieces than
       most; *length and *count are their numbers. A buffer with enough room has the same contents as with
       CRSDESK_REFUSED.
   CRSDESK_NO_MEMORY. */
uint32_t crsdesk_refusal_pieces(const char *text, size_t text_length, char *out, size_t room, size_t *length,
                                size_t *ends, size_t most, size_t *count, struct crsdesk_explained *explained);

/* The name of a refusal's number, such as `UnknownKeyword`. Room for 16 bytes is enough.

   CRSDESK_OK: the buffer begins with the name; *length is its number of bytes.
   CRSDESK_NO_NUMBER: no refusal has this number.
   CRSDESK_NO_ROOM: the name has more bytes than the buffer; *length is their number. */
uint32_t crsdesk_refusal_name(uint32_t number, char *out, size_t room, size_t *length);

/* The library's version, such as `0.1.0`. Room for 16 bytes is enough.

   CRSDESK_OK: the buffer begins with the version; *length is its number of bytes.
   CRSDESK_NO_ROOM: the version has more bytes than the buffer; *length is their number. */
uint32_t crsdesk_version(char *out, size_t room, size_t *length);

/* A catalogue of texts: texts that spell the same CRS are in one group. Groups are numbered from 1, by the first text
   of each. It is in the caller's memory, which holds a catalogue from crsdesk_catalogue_new until
   crsdesk_catalogue_free. Its contents belong to the library. Profile. */
struct crsdesk_catalogue {
    uint64_t hidden[32];
};

/* Where a text was placed in a catalogue. */
struct crsdesk_standing {
    size_t group;                   /* the number of its group; 0 if it is in none */
    struct crsdesk_refusal refusal; /* why it spells no CRS, with CRSDESK_REFUSED; otherwise zeros */
    uint32_t code;
};

/* The number of a text in a group. */
struct crsdesk_line {
    uint64_t number; /* 0 with CRSDESK_NO_NUMBER */
    uint32_t code;
};

/* Makes an empty catalogue, which compares at a level. It needs no memory.

   CRSDESK_OK.
   CRSDESK_NO_LEVEL: there is no such level; *catalogue is one that compares at CRSDESK_FULL. */
uint32_t crsdesk_catalogue_new(struct crsdesk_catalogue *catalogue, uint32_t level);

/* Adds a text to a catalogue, under a number of the caller's choice, such as the number of its line; numbers may
   repeat. The text isn't needed after the call. The returned code is

   CRSDESK_OK: group is the number of its group, a new one if no text before it spells the same CRS; it is 0 if the text
       is only white space, or empty.
   CRSDESK_REFUSED: it spells no CRS and is in no group; refusal says why.
   CRSDESK_NO_MEMORY: the catalogue is unchanged. */
struct crsdesk_standing crsdesk_catalogue_add(struct crsdesk_catalogue *catalogue, uint64_t number, const char *text,
                                              size_t text_length);

/* How many groups a catalogue has. */
size_t crsdesk_catalogue_groups(struct crsdesk_catalogue *catalogue);

/* The number under which a text of a group was added; the group's texts are counted by index from 0, in the order in
   which they were added.

   CRSDESK_OK: number is it.
   CRSDESK_NO_NUMBER: there is no such group, or the index is past its last text. */
struct crsdesk_line crsdesk_catalogue_line(struct crsdesk_catalogue *catalogue, size_t group, size_t index);

/* The numbers of a group's texts, in the order in which they were added.

   CRSDESK_OK: the buffer begins with them; *count is their number.
   CRSDESK_NO_NUMBER: there is no such group.
   CRSDESK_NO_ROOM: they are more than room; the buffer has the first of them, and *count is the number of all. */
static inline uint32_t crsdesk_catalogue_lines(struct crsdesk_catalogue *catalogue, size_t group, uint64_t *numbers,
                                               size_t room, size_t *count)
{
    size_t index = 0;
    struct crsdesk_line line = crsdesk_catalogue_line(catalogue, group, 0);
    if (line.code != CRSDESK_OK)
        return line.code;
    while (line.code == CRSDESK_OK) {
        if (index < room)
            numbers[index] = line.number;
        index++;
        line = crsdesk_catalogue_line(catalogue, group, index);
    }
    *count = index;
    return index > room ? CRSDESK_NO_ROOM : CRSDESK_OK;
}

/* A piece of a text. */
struct crsdesk_piece {
    char bytes[240]; /* the bytes of the piece, followed by zeros */
    size_t length;   /* their number; 0 if the text has no more */
    uint32_t code;
};

/* A piece of the canonical text that all texts of a group have: the bytes from an index, at most 240.

   CRSDESK_OK, CRSDESK_NO_NUMBER: there is no such group. */
struct crsdesk_piece crsdesk_catalogue_piece(struct crsdesk_catalogue *catalogue, size_t group, size_t from);

/* The canonical text of a group, joined from its pieces.

   CRSDESK_OK: the buffer begins with it; *length is its number of bytes.
   CRSDESK_NO_NUMBER: there is no such group.
   CRSDESK_NO_ROOM: it has more bytes than the buffer; *length is their number. */
static inline uint32_t crsdesk_catalogue_text(struct crsdesk_catalogue *catalogue, size_t group, char *out, size_t room,
                                              size_t *length)
{
    size_t whole = 0, from = 0;
    struct crsdesk_piece piece = crsdesk_catalogue_piece(catalogue, group, 0);
    if (piece.code != CRSDESK_OK)
        return piece.code;
    while (piece.length > 0) {
        whole += piece.length;
        piece = crsdesk_catalogue_piece(catalogue, group, whole);
    }
    *length = whole;
    if (whole > room)
        return CRSDESK_NO_ROOM;
    while (from < whole) {
        piece = crsdesk_catalogue_piece(catalogue, group, from);
        memcpy(out + from, piece.bytes, piece.length);
        from += piece.length;
    }
    return CRSDESK_OK;
}

/* Frees all memory of a catalogue; the struct then holds no catalogue, and crsdesk_catalogue_new may make another
   there. */
void crsdesk_catalogue_free(struct crsdesk_catalogue *catalogue);

/* Rules: what counts as the same beyond the level, and what doesn't count, read from rules files. They are in the
   caller's memory, which holds rules from crsdesk_rules_new until crsdesk_rules_free. Their contents belong to the
   library. Profile. */
struct crsdesk_rules {
    uint64_t hidden[64];
};

/* The result of reading a rules file. Everything except the code is 0 unless the code is CRSDESK_REFUSED. */
struct crsdesk_rules_standing {
    size_t line;     /* the file's first refused line, counted from 1 */
    size_t place;    /* the place in the line, in bytes from its first, which is 0 */
    uint32_t number; /* why: 1 to 8 as for a refused text, 41 to 44 for a statement */
    uint32_t code;
};

/* Makes empty rules: everything counts. They need no memory. */
void crsdesk_rules_new(struct crsdesk_rules *rules);

/* Adds the rules of one more file, given by its bytes. The statements of several files count together. The bytes aren't
   needed after the call. The returned code is

   CRSDESK_OK: they are added.
   CRSDESK_REFUSED: a line is refused; line, number and place say which and why. The rules are unchanged.
   CRSDESK_NO_MEMORY: the rules are unchanged, and the same file may be added again. */
struct crsdesk_rules_standing crsdesk_rules_add(struct crsdesk_rules *rules, const char *file, size_t file_length);

/* How long the form of a text is. */
struct crsdesk_form {
    size_t length;                  /* its number of bytes with CRSDESK_OK; otherwise 0 */
    struct crsdesk_refusal refusal; /* why the text spells no CRS, with CRSDESK_REFUSED; otherwise zeros */
    uint32_t code;
};

/* Makes the form of a text under rules, at a level, and keeps it in the rules until the next is made or a file is
   added: crsdesk_rules_piece returns it. crsdesk_canon_under does both.

   CRSDESK_OK: length is its number of bytes.
   CRSDESK_REFUSED: the text spells no CRS; refusal says why.
   CRSDESK_NO_MEMORY, CRSDESK_NO_LEVEL.
   With any code except CRSDESK_OK the previous form is kept. */
struct crsdesk_form crsdesk_rules_form(struct crsdesk_rules *rules, uint32_t level, const char *text,
                                       size_t text_length);

/* A piece of the form in the rules: the bytes from an index, at most 240. The code is CRSDESK_OK. */
struct crsdesk_piece crsdesk_rules_piece(struct crsdesk_rules *rules, size_t from);

/* The form of a text under rules, at a level: the canonical text of the CRS that the text's canonical text spells,
   rewritten by the rules. The forms of two texts are equal, byte for byte, exactly if their CRSs are the same under the
   rules at the level; without rules it is the canonical text. It is itself accepted, and its own form.

   CRSDESK_OK: the buffer begins with it; *length is its number of bytes.
   CRSDESK_REFUSED: the text spells none; *refusal says why.
   CRSDESK_NO_ROOM: it has more bytes than the buffer; *length is their number.
   CRSDESK_NO_MEMORY, CRSDESK_NO_LEVEL. */
static inline uint32_t crsdesk_canon_under(const char *text, size_t text_length, uint32_t level,
                                           struct crsdesk_rules *rules, char *out, size_t room, size_t *length,
                                           struct crsdesk_refusal *refusal)
{
    size_t from = 0;
    struct crsdesk_form form = crsdesk_rules_form(rules, level, text, text_length);
    if (form.code == CRSDESK_REFUSED)
        *refusal = form.refusal;
    if (form.code != CRSDESK_OK)
        return form.code;
    *length = form.length;
    if (form.length > room)
        return CRSDESK_NO_ROOM;
    while (from < form.length) {
        struct crsdesk_piece piece = crsdesk_rules_piece(rules, from);
        memcpy(out + from, piece.bytes, piece.length);
        from += piece.length;
    }
    return CRSDESK_OK;
}

/* Adds a text to a catalogue as crsdesk_catalogue_add does, but under rules: its group has the texts that are the same
   under them, and the group's text is their form. All texts of a catalogue are added under the same rules. The rules
   and the form in them are unchanged. The codes have the meaning that they have for crsdesk_catalogue_add. */
struct crsdesk_standing crsdesk_catalogue_add_under(struct crsdesk_catalogue *catalogue, struct crsdesk_rules *rules,
                                                    uint64_t number, const char *text, size_t text_length);

/* Frees all memory of rules; the struct then holds none, and crsdesk_rules_new may make others there. */
void crsdesk_rules_free(struct crsdesk_rules *rules);

#ifdef __cplusplus
}
#endif

#endif
