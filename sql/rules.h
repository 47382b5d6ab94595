/* Rules files and the forms of texts under them (docs/RULES.md), and digests, for both extensions for SQL. */
#ifndef CRSDESK_SQL_RULES_H
#define CRSDESK_SQL_RULES_H

#include <stddef.h>
#include <stdint.h>
#include <string.h>

#include "crsdesk.h"

/* Why a line of a rules file is refused, in words; `name` has `room` bytes for those of the numbers of texts. */
static const char *why_refused(uint32_t number, char *name, size_t room)
{
    size_t length;

    switch (number) {
    case 41:
        return "neither SAME, UNCOUNTED nor KIND";
    case 42:
        return "no node or word that may stand here";
    case 43:
        return "a node of another kind than the first of its set";
    case 44:
        return "a node that stood in such a statement before";
    default:
        if (crsdesk_refusal_name(number, name, room - 1, &length) != CRSDESK_OK)
            length = 0;
        name[length] = '\0';
        return name;
    }
}

/* Writes the form that rules keep, of so many bytes. */
static void copy_form(struct crsdesk_rules *rules, char *out, size_t length)
{
    struct crsdesk_piece piece;
    size_t from;

    for (from = 0; from < length; from += piece.length) {
        piece = crsdesk_rules_piece(rules, from);
        memcpy(out + from, piece.bytes, piece.length);
    }
}

/* How many characters a digest has in hexadecimal. */
#define HEX_LENGTH (2 * CRSDESK_DIGEST_LENGTH)

/* Writes a digest in hexadecimal. */
static void in_hexadecimal(const char *digest, char *out)
{
    int i;

    for (i = 0; i < CRSDESK_DIGEST_LENGTH; i++) {
        out[2 * i] = "0123456789abcdef"[(unsigned char)digest[i] >> 4];
        out[2 * i + 1] = "0123456789abcdef"[digest[i] & 15];
    }
}

#endif
