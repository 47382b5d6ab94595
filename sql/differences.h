/* The pieces of crsdesk_difference_pieces as JSON: an array of objects {"path", "first", "second"}, in their order, with
   null where there is nothing. Both extensions for SQL use this. */
#ifndef CRSDESK_DIFFERENCES_H
#define CRSDESK_DIFFERENCES_H

#include <stddef.h>
#include <string.h>

/* How many pieces have room at first: ordinary texts have fewer. */
#define FIRST_PIECES 384

/* Room for the bytes of all pieces of ordinary texts: each call with too little compares anew. */
static size_t room_for_differences(size_t first, size_t second)
{
    const size_t most = 16 * 1024 * 1024;

    return first < most / 8 && second < most / 8 ? 4 * (first + second) + 1000 : most;
}

/* What is written, or counted where `out` is null. */
struct json {
    char *out;
    size_t length;
};

static void put(struct json *json, const char *bytes, size_t length)
{
    if (json->out != NULL)
        memcpy(json->out + json->length, bytes, length);
    json->length += length;
}

static void put_word(struct json *json, const char *word)
{
    put(json, word, strlen(word));
}

/* The escape of a control character, a quote or a backslash. Others are themselves: a server's encoding may have no
   escapes of them in JSON. */
static void put_escape(struct json *json, unsigned char byte)
{
    const char *digits = "0123456789ABCDEF";
    char code[6] = {'\\', 'u', '0', '0', digits[byte >> 4], digits[byte & 15]};
    char escape[2] = {'\\', (char)byte};

    if (byte == '\t' || byte == '\n' || byte == '\r')
        escape[1] = byte == '\t' ? 't' : byte == '\n' ? 'n' : 'r';
    if (byte == '"' || byte == '\\' || escape[1] != (char)byte)
        put(json, escape, sizeof escape);
    else
        put(json, code, sizeof code);
}

/* A piece as a string, or null where it has no bytes. */
static void put_value(struct json *json, const char *value, size_t length)
{
    size_t from = 0, i;

    if (length == 0) {
        put_word(json, "null");
        return;
    }
    put_word(json, "\"");
    for (i = 0; i < length; i++) {
        unsigned char byte = (unsigned char)value[i];

        if (byte >= ' ' && byte != '"' && byte != '\\' && byte != 0x7F)
            continue;
        put(json, value + from, i - from);
        put_escape(json, byte);
        from = i + 1;
    }
    put(json, value + from, length - from);
    put_word(json, "\"");
}

/* Writes the JSON of the pieces to `out`, where that isn't null; answers its number of bytes. */
static size_t differences_as_json(const char *pieces, const size_t *ends, size_t count, char *out)
{
    static const char *const names[3] = {"{\"path\":", ",\"first\":", ",\"second\":"};
    struct json json = {NULL, 0};
    size_t from = 0, i;

    json.out = out;
    put_word(&json, "[");
    for (i = 0; i < count; i++) {
        if (i > 0 && i % 3 == 0)
            put_word(&json, ",");
        put_word(&json, names[i % 3]);
        put_value(&json, pieces + from, ends[i] - from);
        from = ends[i];
        if (i % 3 == 2)
            put_word(&json, "}");
    }
    put_word(&json, "]");
    return json.length;
}

#endif
