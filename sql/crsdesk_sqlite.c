/* crsdesk_sqlite: the calls of crsdesk as functions of SQLite.

       SELECT load_extension('crsdesk_sqlite');

   crs_canon(text [, level [, rules]])      the canonical text; NULL of a text that spells no CRS
   crs_digest(text [, level [, rules]])     the SHA-256 of that in hexadecimal, a key of 64 characters
   crs_kind(text)                           geodetic, geographic, projected, vertical or compound; NULL of such a text
   crs_same(a, b [, level [, rules]])       1 where both spell the same CRS, else 0; NULL where either spells none
   crs_difference(a, b [, level [, rules]]) the path of the first part that differs, or the word same; NULL where either
                                            spells none
   crs_differences(a, b [, level [, rules]]) all parts that differ, as JSON: [{"path":..,"first":..,"second":..},..],
                                            with null for what is in one alone; [] where they are the same; NULL where
                                            either spells none
   crs_refusal(text)                        why a text spells no CRS, as: refused 7 UnexpectedEnd at 11; NULL of one
                                            that spells one
   crs_explain(text)                        accepted and the kind, or in some lines why a text spells no CRS
   crs_version()                            the version of crsdesk, as: 0.1.0
   crs_max_text_length([bytes])             the most bytes that a text may have, 1,048,576 when a connection loads this;
                                            it is set where a number is given

   A text is a TEXT or a BLOB of bytes; another value is its TEXT. One that is longer than the connection's limit is an
   error of SQL, since reading takes many times its memory. A level is full, the usual one, or definition; another is an
   error. Rules are the text of a rules file (docs/RULES.md), under which texts have forms that are answered or
   compared; a refused file is an error. NULL for any argument gives NULL. All functions but the last are deterministic,
   so they may be used in indexes, generated columns and checks; views and triggers can't call the last. What the
   functions answer is crsdesk's; this file is tested and not proved. */
#include <stddef.h>
#include <stdint.h>
#include <string.h>

#include <sqlite3ext.h>

#include "crsdesk.h"
#include "differences.h"
#include "rules.h"

SQLITE_EXTENSION_INIT1

#ifndef SQLITE_INNOCUOUS
#define SQLITE_INNOCUOUS 0
#endif
#ifndef SQLITE_DIRECTONLY
#define SQLITE_DIRECTONLY 0
#endif

/* Room for any path, for the line of a refusal and for the version. */
#define SHORT_ROOM 160
/* The limit on a text's bytes until it is set: the program's. SQLite has no longer text than MOST_LIMIT. */
#define FIRST_LIMIT 1048576
#define MOST_LIMIT 2147483647

/* The rules that a rules file spells, with its bytes. The last holder that goes frees them. */
struct kept_rules {
    struct crsdesk_rules rules;
    size_t length;
    int holders;
    char bytes[];
};

/* What the functions of a connection share: the limit on a text's bytes, and the rules that were read last. The last
   function that goes frees it. */
struct shared {
    sqlite3_int64 limit;
    struct kept_rules *rules;
    int holders;
};

struct text {
    const char *bytes;
    size_t length;
};

static void let_rules_go(void *held)
{
    struct kept_rules *kept = held;

    if (kept == NULL)
        return;
    kept->holders--;
    if (kept->holders > 0)
        return;
    crsdesk_rules_free(&kept->rules);
    sqlite3_free(kept);
}

static void let_go(void *held)
{
    struct shared *shared = held;

    shared->holders--;
    if (shared->holders > 0)
        return;
    let_rules_go(shared->rules);
    sqlite3_free(shared);
}

/* Answers 0, with an error in the context, for a text that is longer than the connection's limit. */
static int hold_length(sqlite3_context *context, size_t length)
{
    const struct shared *shared = sqlite3_user_data(context);
    char message[SHORT_ROOM];

    if (length <= (size_t)shared->limit)
        return 1;
    sqlite3_snprintf((int)sizeof message, message, "a text has %llu bytes, and crs_max_text_length() is %lld",
                     (unsigned long long)length, shared->limit);
    sqlite3_result_error(context, message, -1);
    sqlite3_result_error_code(context, SQLITE_TOOBIG);
    return 0;
}

/* Answers 0, with an error in the context, where the connection was interrupted, which SQLite tells from 3.41 on.
   Between two rows it ends a statement itself. */
static int hold_interrupt(sqlite3_context *context)
{
#if SQLITE_VERSION_NUMBER >= 3041000
    if (sqlite3_libversion_number() >= 3041000 && sqlite3_is_interrupted(sqlite3_context_db_handle(context))) {
        sqlite3_result_error_code(context, SQLITE_INTERRUPT);
        return 0;
    }
#else
    (void)context;
#endif
    return 1;
}

/* Takes an argument as a text; answers 0, with an error in the context, where it is too long, the connection was
   interrupted, or SQLite has no memory for it. */
static int take_text(sqlite3_context *context, sqlite3_value *value, struct text *text)
{
    int is_blob = sqlite3_value_type(value) == SQLITE_BLOB;

    if (!hold_interrupt(context))
        return 0;
    /* The length of a blob is known before its zeros are written out. */
    text->bytes = is_blob ? NULL : (const char *)sqlite3_value_text(value);
    text->length = (size_t)sqlite3_value_bytes(value);
    if (!hold_length(context, text->length))
        return 0;
    if (is_blob)
        text->bytes = text->length == 0 ? "" : sqlite3_value_blob(value);
    if (text->bytes == NULL)
        sqlite3_result_error_nomem(context);
    return text->bytes != NULL;
}

/* Whether the bytes are those of a word. */
static int is_word(const char *bytes, size_t length, const char *word)
{
    return length == strlen(word) && memcmp(bytes, word, length) == 0;
}

/* Takes the level after `texts` arguments, full where there is none; answers 0, with an error, for another. */
static int take_level(sqlite3_context *context, int count, sqlite3_value **values, int texts, uint32_t *level)
{
    const char *word;
    char *message = NULL;
    size_t length;

    *level = CRSDESK_FULL;
    if (count <= texts)
        return 1;
    word = (const char *)sqlite3_value_text(values[texts]);
    length = (size_t)sqlite3_value_bytes(values[texts]);
    if (word != NULL && is_word(word, length, "full"))
        return 1;
    if (word != NULL && is_word(word, length, "definition")) {
        *level = CRSDESK_DEFINITION;
        return 1;
    }
    if (word != NULL)
        message = sqlite3_mprintf("no such level: %!.40Q%s; there are 'full' and 'definition'", word,
                                  memchr(word, '\0', length) == NULL ? "" : " and a NUL byte");
    if (message == NULL)
        sqlite3_result_error_nomem(context);
    else
        sqlite3_result_error(context, message, -1);
    sqlite3_free(message);
    return 0;
}

/* Whether any argument is NULL: then the result is NULL, which a context has until it is given another. */
static int any_null(int count, sqlite3_value **values)
{
    int i;

    for (i = 0; i < count; i++)
        if (sqlite3_value_type(values[i]) == SQLITE_NULL)
            return 1;
    return 0;
}

/* Gives the result of a code that isn't CRSDESK_OK: NULL of a refusal, else an error. */
static void give_none(sqlite3_context *context, uint32_t code)
{
    if (code == CRSDESK_NO_MEMORY)
        sqlite3_result_error_nomem(context);
    else if (code == CRSDESK_REFUSED || code == CRSDESK_SECOND_REFUSED)
        sqlite3_result_null(context);
    else
        sqlite3_result_error(context, "crsdesk: a code that isn't known", -1);
}

/* Reads a rules file; answers NULL, with an error in the context, where it is refused or there is no memory. */
static struct kept_rules *read_rules(sqlite3_context *context, struct text file)
{
    struct kept_rules *kept = sqlite3_malloc64(sizeof *kept + file.length);
    struct crsdesk_rules_standing standing;
    char message[SHORT_ROOM], name[SHORT_ROOM];

    if (kept == NULL) {
        sqlite3_result_error_nomem(context);
        return NULL;
    }
    kept->holders = 1;
    kept->length = file.length;
    memcpy(kept->bytes, file.bytes, file.length);
    crsdesk_rules_new(&kept->rules);
    standing = crsdesk_rules_add(&kept->rules, file.bytes, file.length);
    if (standing.code == CRSDESK_OK)
        return kept;
    let_rules_go(kept);
    if (standing.code != CRSDESK_REFUSED) {
        give_none(context, standing.code);
        return NULL;
    }
    sqlite3_snprintf((int)sizeof message, message, "rules: line %llu: refused %llu at %llu: %s",
                     (unsigned long long)standing.line, (unsigned long long)standing.number,
                     (unsigned long long)standing.place, why_refused(standing.number, name, sizeof name));
    sqlite3_result_error(context, message, -1);
    return NULL;
}

/* Takes the rules that an argument spells, NULL where there is none; answers 0, with an error in the context, where
   they can't be read. A statement keeps those of a constant or a parameter, and the connection those that were read
   last: SQLite drops at once what a statement keeps of another argument, as of one that calls readfile. */
static int take_rules(sqlite3_context *context, int count, sqlite3_value **values, int argument,
                      struct crsdesk_rules **rules)
{
    struct shared *shared = sqlite3_user_data(context);
    struct kept_rules *kept;
    struct text file;

    *rules = NULL;
    if (count <= argument)
        return 1;
    kept = sqlite3_get_auxdata(context, argument);
    if (kept == NULL) {
        if (!take_text(context, values[argument], &file))
            return 0;
        kept = shared->rules;
        if (kept == NULL || kept->length != file.length || memcmp(kept->bytes, file.bytes, file.length) != 0) {
            kept = read_rules(context, file);
            if (kept == NULL)
                return 0;
            let_rules_go(shared->rules);
            shared->rules = kept;
        }
        kept->holders++;
        sqlite3_set_auxdata(context, argument, kept, let_rules_go);
    }
    *rules = &kept->rules;
    return 1;
}

/* Puts a text's form under rules in its place, in memory that is to be freed; answers 0, with NULL or an error in the
   context, where it has none. */
static int take_form(sqlite3_context *context, struct crsdesk_rules *rules, uint32_t level, struct text *text,
                     char **memory)
{
    struct crsdesk_form form;

    *memory = NULL;
    if (!hold_interrupt(context))
        return 0;
    form = crsdesk_rules_form(rules, level, text->bytes, text->length);
    if (form.code == CRSDESK_OK) {
        *memory = sqlite3_malloc64(form.length);
        if (*memory == NULL)
            form.code = CRSDESK_NO_MEMORY;
    }
    if (form.code != CRSDESK_OK) {
        give_none(context, form.code);
        return 0;
    }
    copy_form(rules, *memory, form.length);
    text->bytes = *memory;
    text->length = form.length;
    return 1;
}

/* Two texts that are compared at a level, or their forms under rules, in memory of their own. */
struct pair {
    struct text first, second;
    char *first_form, *second_form;
    uint32_t level;
    int are_forms;
};

static void free_pair(struct pair *pair)
{
    sqlite3_free(pair->first_form);
    sqlite3_free(pair->second_form);
}

/* Takes what a comparing function is given; answers 0, with NULL or an error in the context, where there is nothing to
   compare. */
static int take_pair(sqlite3_context *context, int count, sqlite3_value **values, struct pair *pair)
{
    struct crsdesk_rules *rules;

    pair->first_form = pair->second_form = NULL;
    if (any_null(count, values) || !take_level(context, count, values, 2, &pair->level) ||
        !take_rules(context, count, values, 3, &rules) || !take_text(context, values[0], &pair->first) ||
        !take_text(context, values[1], &pair->second))
        return 0;
    pair->are_forms = rules != NULL;
    if (rules == NULL || (take_form(context, rules, pair->level, &pair->first, &pair->first_form) &&
                          take_form(context, rules, pair->level, &pair->second, &pair->second_form)))
        return 1;
    free_pair(pair);
    return 0;
}

static void crs_canon(sqlite3_context *context, int count, sqlite3_value **values)
{
    struct crsdesk_refusal refusal;
    struct crsdesk_rules *rules;
    struct text text;
    uint32_t level, code;
    size_t room, length;
    char *out = NULL;

    if (any_null(count, values) || !take_level(context, count, values, 1, &level) ||
        !take_rules(context, count, values, 2, &rules) || !take_text(context, values[0], &text))
        return;
    if (rules != NULL) {
        if (take_form(context, rules, level, &text, &out))
            sqlite3_result_text64(context, out, text.length, sqlite3_free, SQLITE_UTF8);
        return;
    }
    length = text.length + text.length / 8 + 1000;
    do {
        room = length;
        sqlite3_free(out);
        out = sqlite3_malloc64(room);
        code = out == NULL ? CRSDESK_NO_MEMORY
                           : crsdesk_canon(text.bytes, text.length, level, out, room, &length, &refusal);
    } while (code == CRSDESK_NO_ROOM);
    if (code == CRSDESK_OK) {
        sqlite3_result_text64(context, out, length, sqlite3_free, SQLITE_UTF8);
        return;
    }
    sqlite3_free(out);
    give_none(context, code);
}

static void crs_digest(sqlite3_context *context, int count, sqlite3_value **values)
{
    struct crsdesk_refusal refusal;
    struct crsdesk_rules *rules;
    struct text text;
    uint32_t level, code;
    size_t length;
    char digest[CRSDESK_DIGEST_LENGTH], shown[HEX_LENGTH], *form = NULL;

    if (any_null(count, values) || !take_level(context, count, values, 1, &level) ||
        !take_rules(context, count, values, 2, &rules) || !take_text(context, values[0], &text))
        return;
    /* A form is its own canonical text. */
    if (rules != NULL && !take_form(context, rules, level, &text, &form))
        return;
    code = crsdesk_digest(text.bytes, text.length, level, digest, sizeof digest, &length, &refusal);
    sqlite3_free(form);
    if (code != CRSDESK_OK) {
        give_none(context, code);
        return;
    }
    in_hexadecimal(digest, shown);
    sqlite3_result_text(context, shown, sizeof shown, SQLITE_TRANSIENT);
}

static const char *const KINDS[] = {"", "geodetic", "geographic", "projected", "vertical", "compound"};

static void crs_kind(sqlite3_context *context, int count, sqlite3_value **values)
{
    struct crsdesk_refusal refusal;
    struct text text;
    uint32_t kind, code;

    if (any_null(count, values) || !take_text(context, values[0], &text))
        return;
    code = crsdesk_check(text.bytes, text.length, &kind, &refusal);
    if (code == CRSDESK_OK)
        sqlite3_result_text(context, KINDS[kind], -1, SQLITE_STATIC);
    else
        give_none(context, code);
}

static void crs_same(sqlite3_context *context, int count, sqlite3_value **values)
{
    struct crsdesk_refusal refusal;
    struct pair pair;
    uint32_t same = 0, code = CRSDESK_OK;

    if (!take_pair(context, count, values, &pair))
        return;
    if (pair.are_forms)
        same = pair.first.length == pair.second.length &&
               memcmp(pair.first.bytes, pair.second.bytes, pair.first.length) == 0;
    else
        code = crsdesk_same(pair.first.bytes, pair.first.length, pair.second.bytes, pair.second.length, pair.level,
                            &same, &refusal);
    if (code == CRSDESK_OK)
        sqlite3_result_int(context, (int)same);
    else
        give_none(context, code);
    free_pair(&pair);
}

static void crs_difference(sqlite3_context *context, int count, sqlite3_value **values)
{
    struct crsdesk_refusal refusal;
    struct pair pair;
    uint32_t code;
    char path[SHORT_ROOM];
    size_t length;

    if (!take_pair(context, count, values, &pair))
        return;
    code = crsdesk_first_part(pair.first.bytes, pair.first.length, pair.second.bytes, pair.second.length, pair.level,
                              path, sizeof path, &length, &refusal);
    if (code != CRSDESK_OK)
        give_none(context, code);
    else if (length == 0)
        sqlite3_result_text(context, "same", -1, SQLITE_STATIC);
    else
        sqlite3_result_text(context, path, (int)length, SQLITE_TRANSIENT);
    free_pair(&pair);
}

/* Gives the pieces of differences as JSON. */
static void give_json(sqlite3_context *context, const char *pieces, const size_t *ends, size_t count)
{
    size_t room = differences_as_json(pieces, ends, count, NULL);
    char *json = sqlite3_malloc64(room);

    if (json == NULL) {
        sqlite3_result_error_nomem(context);
        return;
    }
    differences_as_json(pieces, ends, count, json);
    sqlite3_result_text64(context, json, room, sqlite3_free, SQLITE_UTF8);
}

static void crs_differences(sqlite3_context *context, int count, sqlite3_value **values)
{
    struct crsdesk_refusal refusal;
    struct pair pair;
    uint32_t code;
    size_t room, length, most, found = FIRST_PIECES, *ends = NULL;
    char *pieces = NULL;

    if (!take_pair(context, count, values, &pair))
        return;
    length = room_for_differences(pair.first.length, pair.second.length);
    do {
        room = length;
        most = found;
        sqlite3_free(pieces);
        sqlite3_free(ends);
        pieces = sqlite3_malloc64(room);
        ends = sqlite3_malloc64(most * sizeof *ends);
        code = pieces == NULL || ends == NULL
                   ? CRSDESK_NO_MEMORY
                   : crsdesk_difference_pieces(pair.first.bytes, pair.first.length, pair.second.bytes,
                                               pair.second.length, pair.level, pieces, room, &length, ends, most,
                                               &found, &refusal);
    } while (code == CRSDESK_NO_ROOM);
    if (code == CRSDESK_OK)
        give_json(context, pieces, ends, found);
    else
        give_none(context, code);
    sqlite3_free(pieces);
    sqlite3_free(ends);
    free_pair(&pair);
}

static void crs_refusal(sqlite3_context *context, int count, sqlite3_value **values)
{
    struct crsdesk_refusal refusal;
    struct text text;
    uint32_t kind, code;
    char name[SHORT_ROOM], line[SHORT_ROOM];
    size_t length;

    if (any_null(count, values) || !take_text(context, values[0], &text))
        return;
    code = crsdesk_check(text.bytes, text.length, &kind, &refusal);
    if (code == CRSDESK_OK)
        return;
    if (code != CRSDESK_REFUSED || crsdesk_refusal_name(refusal.number, name, sizeof name, &length) != CRSDESK_OK) {
        give_none(context, code);
        return;
    }
    sqlite3_snprintf((int)sizeof line, line, "refused %u %.*s at %llu", refusal.number, (int)length, name,
                     (unsigned long long)refusal.place);
    sqlite3_result_text(context, line, -1, SQLITE_TRANSIENT);
}

/* Gives the lines of an explanation, without the last line feed. */
static void give_explanation(sqlite3_context *context, struct text text)
{
    size_t room, length = 2000;
    char *lines = NULL;
    uint32_t code;

    do {
        room = length;
        sqlite3_free(lines);
        lines = sqlite3_malloc64(room);
        code = lines == NULL ? CRSDESK_NO_MEMORY : crsdesk_explain(text.bytes, text.length, lines, room, &length);
    } while (code == CRSDESK_NO_ROOM);
    if (code == CRSDESK_OK && length > 0) {
        sqlite3_result_text64(context, lines, length - 1, sqlite3_free, SQLITE_UTF8);
        return;
    }
    sqlite3_free(lines);
    give_none(context, code);
}

static void crs_explain(sqlite3_context *context, int count, sqlite3_value **values)
{
    struct crsdesk_refusal refusal;
    struct text text;
    uint32_t kind, code;
    char line[SHORT_ROOM];

    if (any_null(count, values) || !take_text(context, values[0], &text))
        return;
    code = crsdesk_check(text.bytes, text.length, &kind, &refusal);
    if (code == CRSDESK_OK) {
        sqlite3_snprintf((int)sizeof line, line, "accepted %s", KINDS[kind]);
        sqlite3_result_text(context, line, -1, SQLITE_TRANSIENT);
    } else if (code == CRSDESK_REFUSED) {
        give_explanation(context, text);
    } else {
        give_none(context, code);
    }
}

static void crs_max_text_length(sqlite3_context *context, int count, sqlite3_value **values)
{
    struct shared *shared = sqlite3_user_data(context);
    sqlite3_int64 bytes;

    if (any_null(count, values))
        return;
    if (count > 0) {
        bytes = sqlite3_value_type(values[0]) == SQLITE_INTEGER ? sqlite3_value_int64(values[0]) : 0;
        if (bytes < 1 || bytes > MOST_LIMIT) {
            sqlite3_result_error(context, "crs_max_text_length takes a number of bytes from 1 to 2147483647", -1);
            return;
        }
        shared->limit = bytes;
    }
    sqlite3_result_int64(context, shared->limit);
}

static void crs_version(sqlite3_context *context, int count, sqlite3_value **values)
{
    char version[SHORT_ROOM];
    size_t length;
    uint32_t code = crsdesk_version(version, sizeof version, &length);

    (void)count;
    (void)values;
    if (code == CRSDESK_OK)
        sqlite3_result_text(context, version, (int)length, SQLITE_TRANSIENT);
    else
        give_none(context, code);
}

int sqlite3_crsdesksqlite_init(sqlite3 *db, char **error, const sqlite3_api_routines *api);

int sqlite3_crsdesksqlite_init(sqlite3 *db, char **error, const sqlite3_api_routines *api)
{
    enum { PURE = SQLITE_UTF8 | SQLITE_DETERMINISTIC | SQLITE_INNOCUOUS, SETTING = SQLITE_UTF8 | SQLITE_DIRECTONLY };
    static const struct {
        const char *name;
        int arguments, flags;
        void (*call)(sqlite3_context *, int, sqlite3_value **);
    } FUNCTIONS[] = {
        {"crs_canon", 1, PURE, crs_canon},
        {"crs_canon", 2, PURE, crs_canon},
        {"crs_canon", 3, PURE, crs_canon},
        {"crs_digest", 1, PURE, crs_digest},
        {"crs_digest", 2, PURE, crs_digest},
        {"crs_digest", 3, PURE, crs_digest},
        {"crs_kind", 1, PURE, crs_kind},
        {"crs_same", 2, PURE, crs_same},
        {"crs_same", 3, PURE, crs_same},
        {"crs_same", 4, PURE, crs_same},
        {"crs_difference", 2, PURE, crs_difference},
        {"crs_difference", 3, PURE, crs_difference},
        {"crs_difference", 4, PURE, crs_difference},
        {"crs_differences", 2, PURE, crs_differences},
        {"crs_differences", 3, PURE, crs_differences},
        {"crs_differences", 4, PURE, crs_differences},
        {"crs_refusal", 1, PURE, crs_refusal},
        {"crs_explain", 1, PURE, crs_explain},
        {"crs_version", 0, PURE, crs_version},
        {"crs_max_text_length", 0, SETTING, crs_max_text_length},
        {"crs_max_text_length", 1, SETTING, crs_max_text_length},
    };
    struct shared *shared;
    size_t i;
    int code = SQLITE_OK;

    SQLITE_EXTENSION_INIT2(api);
    (void)error;
    shared = sqlite3_malloc(sizeof *shared);
    if (shared == NULL)
        return SQLITE_NOMEM;
    shared->limit = FIRST_LIMIT;
    shared->rules = NULL;
    shared->holders = 1;
    /* A function that can't be made lets go by itself. */
    for (i = 0; i < sizeof FUNCTIONS / sizeof FUNCTIONS[0] && code == SQLITE_OK; i++) {
        shared->holders++;
        code = sqlite3_create_function_v2(db, FUNCTIONS[i].name, FUNCTIONS[i].arguments, FUNCTIONS[i].flags, shared,
                                          FUNCTIONS[i].call, NULL, NULL, let_go);
    }
    let_go(shared);
    if (code == SQLITE_OK)
        return code;
    /* SQLite unloads this after an error, so none of its functions may stay. In a statement none can be taken back: then
       this stays too. */
    for (i--; i > 0; i--)
        if (sqlite3_create_function_v2(db, FUNCTIONS[i - 1].name, FUNCTIONS[i - 1].arguments, FUNCTIONS[i - 1].flags,
                                       NULL, NULL, NULL, NULL, NULL) != SQLITE_OK)
            code = SQLITE_OK_LOAD_PERMANENTLY;
    return code;
}
