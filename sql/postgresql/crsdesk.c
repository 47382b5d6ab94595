/* crsdesk: the calls of crsdesk as functions of PostgreSQL. The scripts crsdesk--*.sql declare them, and docs/SQL.md
   says what they answer.

   A text is a `text`, whose characters are judged as the bytes of their UTF-8, or a `bytea`, whose bytes are judged as
   they are. Places of refusals count those bytes. In a database of SQL_ASCII a text's bytes are judged as they are too.

   What the header of crsdesk asks of its caller:
   - Stack: check_stack_depth() refuses a call below max_stack_depth, which PostgreSQL holds 512 kB (STACK_DEPTH_SLOP)
     above the end that the process's limit sets; 256 kB are asked.
   - Handlers of signals: those of a backend set flags, or end it, and call nothing of the library.
   - Memory: a call takes it by malloc, and holds none when it comes back. No error of PostgreSQL is raised inside a
     call, so none jumps over memory that is to be freed. All else is palloc's. What a call takes is outside of work_mem,
     and bounded by crsdesk.max_text_length. Rules alone hold memory: it is freed with the memory of the expression that
     calls.

   What the functions answer is crsdesk's; this file is tested and not proved. */
#include "postgres.h"

#include "access/detoast.h"
#include "catalog/namespace.h"
#include "fmgr.h"
#include "mb/pg_wchar.h"
#include "miscadmin.h"
#include "utils/builtins.h"
#include "utils/guc.h"
#include "utils/jsonb.h"
#include "utils/memutils.h"

#include "crsdesk.h"
#include "differences.h"
#include "rules.h"

PG_MODULE_MAGIC;

/* Room for any path, for the line of a refusal and for the version. */
#define SHORT_ROOM 160
/* How many bytes a `text` may have. */
#define MOST_BYTES ((size_t)(MaxAllocSize - VARHDRSZ))
/* How many bytes of a wrong level an error shows. */
#define TOLD_BYTES 40
/* The limit on a text's bytes where none is set: the program's. */
#define USUAL_LIMIT (1024 * 1024)

/* The setting crsdesk.max_text_length. */
static int max_text_length = USUAL_LIMIT;

PGDLLEXPORT void _PG_init(void);

void _PG_init(void)
{
    DefineCustomIntVariable(
        "crsdesk.max_text_length", "The most bytes of a text that the functions of crsdesk read.",
        "A longer text is an error. Reading takes memory of many times the text, outside of work_mem.",
        &max_text_length, USUAL_LIMIT, 1, (int)MOST_BYTES, PGC_USERSET, GUC_UNIT_BYTE, NULL, NULL, NULL);
    MarkGUCPrefixReserved("crsdesk");
}

/* The bytes that the library judges. */
struct bytes {
    const char *first;
    size_t length;
};

/* A cancelled query ends here, before each call of the library. */
static void begin_call(void)
{
    CHECK_FOR_INTERRUPTS();
    check_stack_depth();
}

/* Raises an error for a text that is longer than the setting allows. */
static void hold_length(size_t length)
{
    if (length > (size_t)max_text_length)
        ereport(ERROR, (errcode(ERRCODE_PROGRAM_LIMIT_EXCEEDED),
                        errmsg("a text has %zu bytes, and crsdesk.max_text_length is %d", length, max_text_length)));
}

/* The bytes of an argument, a `text` or a `bytea`. A cancelled query ends before each. */
static struct bytes bytes_of(FunctionCallInfo fcinfo, int argument, bool is_text)
{
    struct varlena *value;
    struct bytes found;
    char *converted;

    CHECK_FOR_INTERRUPTS();
    /* Before a long text is read from its table. */
    hold_length(toast_raw_datum_size(PG_GETARG_DATUM(argument)) - VARHDRSZ);
    value = PG_GETARG_VARLENA_PP(argument);
    found.first = VARDATA_ANY(value);
    found.length = VARSIZE_ANY_EXHDR(value);
    if (!is_text || GetDatabaseEncoding() == PG_SQL_ASCII)
        return found;
    converted = pg_server_to_any(found.first, (int)found.length, PG_UTF8);
    if (converted != found.first) {
        found.first = converted;
        found.length = strlen(converted);
        hold_length(found.length);
    }
    return found;
}

/* The level of an argument; an error for what is none. */
static uint32 level_of(FunctionCallInfo fcinfo, int argument)
{
    char *word = text_to_cstring(PG_GETARG_TEXT_PP(argument));
    size_t length = strlen(word);

    if (strcmp(word, "full") == 0)
        return CRSDESK_FULL;
    if (strcmp(word, "definition") == 0)
        return CRSDESK_DEFINITION;
    word[pg_mbcliplen(word, (int)length, TOLD_BYTES)] = '\0';
    ereport(ERROR, (errcode(ERRCODE_INVALID_PARAMETER_VALUE),
                    errmsg("no such level: '%s'; there are 'full' and 'definition'", word)));
}

/* Raises an error for a code that is neither CRSDESK_OK nor a refusal. */
static void hold_code(uint32 code)
{
    if (code == CRSDESK_NO_MEMORY)
        ereport(ERROR, (errcode(ERRCODE_OUT_OF_MEMORY), errmsg("out of memory"),
                        errdetail("Memory was refused to a call of crsdesk.")));
    if (code != CRSDESK_OK && code != CRSDESK_REFUSED && code != CRSDESK_SECOND_REFUSED)
        elog(ERROR, "crsdesk: a code that isn't known: %u", code);
}

/* What the library wrote after a header's room, as a `text` of the server's encoding. */
static text *text_of(text *out, size_t length)
{
    char *bytes = VARDATA(out), *converted;

    if (memchr(bytes, '\0', length) != NULL)
        ereport(ERROR, (errcode(ERRCODE_UNTRANSLATABLE_CHARACTER),
                        errmsg("the canonical text has a NUL byte, which a text of PostgreSQL can't have")));
    converted = pg_any_to_server(bytes, (int)length, PG_UTF8);
    if (converted != bytes)
        return cstring_to_text(converted);
    SET_VARSIZE(out, VARHDRSZ + length);
    return out;
}

static Datum canon_of(FunctionCallInfo fcinfo, bool is_text)
{
    uint32 level = level_of(fcinfo, 1), code;
    struct bytes given = bytes_of(fcinfo, 0, is_text);
    size_t length = Min(given.length + given.length / 8 + 1000, MOST_BYTES), room;
    struct crsdesk_refusal refusal;
    text *out = NULL;

    do {
        begin_call();
        if (length > MOST_BYTES)
            ereport(ERROR, (errcode(ERRCODE_PROGRAM_LIMIT_EXCEEDED),
                            errmsg("the canonical text has %zu bytes, more than a text of PostgreSQL", length)));
        if (out != NULL)
            pfree(out);
        room = length;
        out = palloc(VARHDRSZ + room);
        code = crsdesk_canon(given.first, given.length, level, VARDATA(out), room, &length, &refusal);
    } while (code == CRSDESK_NO_ROOM);
    hold_code(code);
    if (code != CRSDESK_OK)
        PG_RETURN_NULL();
    PG_RETURN_TEXT_P(text_of(out, length));
}

/* The rules that an expression uses, with the bytes of their file; `bytes` is null where they are of none. */
struct kept_rules {
    MemoryContextCallback callback;
    struct crsdesk_rules rules;
    size_t length;
    char *bytes;
};

static void free_rules(void *held)
{
    struct kept_rules *kept = held;

    crsdesk_rules_free(&kept->rules);
}

/* What the expression of this call keeps, as long as it lives. */
static struct kept_rules *kept_rules_of(FunctionCallInfo fcinfo)
{
    struct kept_rules *kept = fcinfo->flinfo->fn_extra;

    if (kept != NULL)
        return kept;
    kept = MemoryContextAllocZero(fcinfo->flinfo->fn_mcxt, sizeof *kept);
    crsdesk_rules_new(&kept->rules);
    kept->callback.func = free_rules;
    kept->callback.arg = kept;
    MemoryContextRegisterResetCallback(fcinfo->flinfo->fn_mcxt, &kept->callback);
    fcinfo->flinfo->fn_extra = kept;
    return kept;
}

/* Reads a rules file in the place of what is kept; an error where it is refused. */
static void read_rules(FunctionCallInfo fcinfo, struct kept_rules *kept, struct bytes file)
{
    struct crsdesk_rules_standing standing;
    char name[SHORT_ROOM], *bytes;

    if (kept->bytes != NULL)
        pfree(kept->bytes);
    kept->bytes = NULL;
    crsdesk_rules_free(&kept->rules);
    crsdesk_rules_new(&kept->rules);
    bytes = MemoryContextAlloc(fcinfo->flinfo->fn_mcxt, file.length + 1);
    memcpy(bytes, file.first, file.length);
    /* Rules that were refused, or had no memory, are none. */
    standing = crsdesk_rules_add(&kept->rules, bytes, file.length);
    if (standing.code != CRSDESK_OK)
        pfree(bytes);
    if (standing.code == CRSDESK_REFUSED)
        ereport(ERROR, (errcode(ERRCODE_INVALID_PARAMETER_VALUE),
                        errmsg("rules: line %zu: refused %u at %zu: %s", standing.line, (unsigned)standing.number,
                               standing.place, why_refused(standing.number, name, sizeof name))));
    hold_code(standing.code);
    kept->length = file.length;
    kept->bytes = bytes;
}

/* The rules that an argument spells. They are read where their bytes aren't those of the call before. */
static struct crsdesk_rules *rules_of(FunctionCallInfo fcinfo, int argument)
{
    struct bytes file = bytes_of(fcinfo, argument, true);
    struct kept_rules *kept = kept_rules_of(fcinfo);

    if (kept->bytes == NULL || kept->length != file.length || memcmp(kept->bytes, file.first, file.length) != 0) {
        begin_call();
        read_rules(fcinfo, kept, file);
    }
    return &kept->rules;
}

/* The form of a text under rules, after a header's room; null where the text is refused. */
static text *form_of(struct crsdesk_rules *rules, uint32 level, struct bytes given, size_t *length)
{
    struct crsdesk_form form;
    text *out;

    begin_call();
    form = crsdesk_rules_form(rules, level, given.first, given.length);
    hold_code(form.code);
    if (form.code != CRSDESK_OK)
        return NULL;
    if (form.length > MOST_BYTES)
        ereport(ERROR, (errcode(ERRCODE_PROGRAM_LIMIT_EXCEEDED),
                        errmsg("the form has %zu bytes, more than a text of PostgreSQL", form.length)));
    out = palloc(VARHDRSZ + form.length);
    copy_form(rules, VARDATA(out), form.length);
    *length = form.length;
    return out;
}

static Datum canon_under(FunctionCallInfo fcinfo, bool is_text)
{
    uint32 level = level_of(fcinfo, 1);
    struct crsdesk_rules *rules = rules_of(fcinfo, 2);
    size_t length;
    text *form = form_of(rules, level, bytes_of(fcinfo, 0, is_text), &length);

    if (form == NULL)
        PG_RETURN_NULL();
    PG_RETURN_TEXT_P(text_of(form, length));
}

/* The digest of a text's canonical text in hexadecimal. */
static Datum digest_at(FunctionCallInfo fcinfo, struct bytes given, uint32 level)
{
    char digest[CRSDESK_DIGEST_LENGTH], shown[HEX_LENGTH];
    struct crsdesk_refusal refusal;
    size_t length;
    uint32 code;

    begin_call();
    code = crsdesk_digest(given.first, given.length, level, digest, sizeof digest, &length, &refusal);
    hold_code(code);
    if (code != CRSDESK_OK)
        PG_RETURN_NULL();
    in_hexadecimal(digest, shown);
    PG_RETURN_TEXT_P(cstring_to_text_with_len(shown, sizeof shown));
}

static Datum digest_of(FunctionCallInfo fcinfo, bool is_text)
{
    uint32 level = level_of(fcinfo, 1);

    return digest_at(fcinfo, bytes_of(fcinfo, 0, is_text), level);
}

static Datum digest_under(FunctionCallInfo fcinfo, bool is_text)
{
    uint32 level = level_of(fcinfo, 1);
    struct crsdesk_rules *rules = rules_of(fcinfo, 2);
    struct bytes given;
    text *form = form_of(rules, level, bytes_of(fcinfo, 0, is_text), &given.length);

    if (form == NULL)
        PG_RETURN_NULL();
    /* A form is its own canonical text. */
    given.first = VARDATA(form);
    return digest_at(fcinfo, given, level);
}

static const char *const KINDS[] = {"", "geodetic", "geographic", "projected", "vertical", "compound"};

static Datum kind_of(FunctionCallInfo fcinfo, bool is_text)
{
    struct bytes given = bytes_of(fcinfo, 0, is_text);
    struct crsdesk_refusal refusal;
    uint32 kind, code;

    begin_call();
    code = crsdesk_check(given.first, given.length, &kind, &refusal);
    hold_code(code);
    if (code != CRSDESK_OK)
        PG_RETURN_NULL();
    PG_RETURN_TEXT_P(cstring_to_text(KINDS[kind]));
}

static Datum refusal_of(FunctionCallInfo fcinfo, bool is_text)
{
    struct bytes given = bytes_of(fcinfo, 0, is_text);
    struct crsdesk_refusal refusal;
    char name[SHORT_ROOM];
    size_t length;
    uint32 kind, code;

    begin_call();
    code = crsdesk_check(given.first, given.length, &kind, &refusal);
    hold_code(code);
    if (code == CRSDESK_OK)
        PG_RETURN_NULL();
    hold_code(crsdesk_refusal_name(refusal.number, name, sizeof name, &length));
    PG_RETURN_TEXT_P(
        cstring_to_text(psprintf("refused %u %.*s at %zu", refusal.number, (int)length, name, refusal.place)));
}

/* Lines as a `text` of the server's encoding, with ? for each character that it lacks. */
static text *told_text(char *lines, size_t length)
{
    int server = GetDatabaseEncoding(), from = 0, given = (int)length;
    Oid conversion = InvalidOid;
    StringInfoData told;

    if (server != PG_UTF8 && server != PG_SQL_ASCII)
        conversion = FindDefaultConversionProc(PG_UTF8, server);
    if (!OidIsValid(conversion))
        return cstring_to_text_with_len(lines, given);
    initStringInfo(&told);
    while (from < given) {
        enlargeStringInfo(&told, (given - from) * MAX_CONVERSION_GROWTH + 1);
        from += pg_do_encoding_conversion_buf(conversion, PG_UTF8, server, (unsigned char *)lines + from, given - from,
                                              (unsigned char *)told.data + told.len, told.maxlen - told.len, true);
        told.len += strlen(told.data + told.len);
        if (from < given) {
            appendStringInfoChar(&told, '?');
            from += pg_utf_mblen((unsigned char *)lines + from);
        }
    }
    return cstring_to_text_with_len(told.data, told.len);
}

/* Why a text is refused, in lines, without the last line feed. */
static text *explanation_of(struct bytes given)
{
    size_t length = 2000, room;
    char *lines = NULL;
    uint32 code;

    do {
        begin_call();
        if (lines != NULL)
            pfree(lines);
        room = length;
        lines = palloc(room);
        code = crsdesk_explain(given.first, given.length, lines, room, &length);
    } while (code == CRSDESK_NO_ROOM);
    hold_code(code);
    return told_text(lines, length - 1);
}

static Datum explain_of(FunctionCallInfo fcinfo, bool is_text)
{
    struct bytes given = bytes_of(fcinfo, 0, is_text);
    struct crsdesk_refusal refusal;
    uint32 kind, code;

    begin_call();
    code = crsdesk_check(given.first, given.length, &kind, &refusal);
    hold_code(code);
    if (code == CRSDESK_OK)
        PG_RETURN_TEXT_P(cstring_to_text(psprintf("accepted %s", KINDS[kind])));
    PG_RETURN_TEXT_P(explanation_of(given));
}

/* Two texts that are compared at a level. */
struct pair {
    struct bytes first, second;
    uint32 level;
};

static struct pair pair_of(FunctionCallInfo fcinfo, bool first_is_text, bool second_is_text)
{
    struct pair pair;

    pair.level = level_of(fcinfo, 2);
    pair.first = bytes_of(fcinfo, 0, first_is_text);
    pair.second = bytes_of(fcinfo, 1, second_is_text);
    return pair;
}

/* Puts the forms under rules in the place of two texts; false where either is refused. */
static bool take_forms(FunctionCallInfo fcinfo, struct pair *pair)
{
    struct crsdesk_rules *rules = rules_of(fcinfo, 3);
    struct bytes *texts[] = {&pair->first, &pair->second};
    text *form;
    int i;

    for (i = 0; i < 2; i++) {
        form = form_of(rules, pair->level, *texts[i], &texts[i]->length);
        if (form == NULL)
            return false;
        texts[i]->first = VARDATA(form);
    }
    return true;
}

static Datum same_of(FunctionCallInfo fcinfo, struct pair pair)
{
    struct crsdesk_refusal refusal;
    uint32 same, code;

    begin_call();
    code = crsdesk_same(pair.first.first, pair.first.length, pair.second.first, pair.second.length, pair.level, &same,
                        &refusal);
    hold_code(code);
    if (code != CRSDESK_OK)
        PG_RETURN_NULL();
    PG_RETURN_BOOL(same == 1);
}

static Datum same_under(FunctionCallInfo fcinfo, struct pair pair)
{
    if (!take_forms(fcinfo, &pair))
        PG_RETURN_NULL();
    PG_RETURN_BOOL(pair.first.length == pair.second.length &&
                   memcmp(pair.first.first, pair.second.first, pair.first.length) == 0);
}

static Datum difference_of(FunctionCallInfo fcinfo, struct pair pair)
{
    struct crsdesk_refusal refusal;
    char path[SHORT_ROOM];
    size_t length;
    uint32 code;

    begin_call();
    code = crsdesk_first_part(pair.first.first, pair.first.length, pair.second.first, pair.second.length, pair.level,
                              path, sizeof path, &length, &refusal);
    hold_code(code);
    if (code != CRSDESK_OK)
        PG_RETURN_NULL();
    if (length == 0)
        PG_RETURN_TEXT_P(cstring_to_text("same"));
    PG_RETURN_TEXT_P(cstring_to_text_with_len(path, (int)length));
}

static Datum difference_under(FunctionCallInfo fcinfo, struct pair pair)
{
    if (!take_forms(fcinfo, &pair))
        PG_RETURN_NULL();
    return difference_of(fcinfo, pair);
}

/* The pieces of differences as jsonb. */
static Datum jsonb_of(const char *pieces, size_t length, const size_t *ends, size_t count)
{
    size_t room = differences_as_json(pieces, ends, count, NULL);
    char *json;

    if (memchr(pieces, '\0', length) != NULL)
        ereport(ERROR, (errcode(ERRCODE_UNTRANSLATABLE_CHARACTER),
                        errmsg("a part that differs has a NUL byte, which a text of PostgreSQL can't have")));
    if (room > MOST_BYTES)
        ereport(ERROR, (errcode(ERRCODE_PROGRAM_LIMIT_EXCEEDED),
                        errmsg("the differences have %zu bytes, more than a text of PostgreSQL", room)));
    json = palloc(room + 1);
    differences_as_json(pieces, ends, count, json);
    json[room] = '\0';
    return DirectFunctionCall1(jsonb_in, CStringGetDatum(pg_any_to_server(json, (int)room, PG_UTF8)));
}

static Datum differences_of(FunctionCallInfo fcinfo, struct pair pair)
{
    size_t length = room_for_differences(pair.first.length, pair.second.length), count = FIRST_PIECES, room, most;
    struct crsdesk_refusal refusal;
    size_t *ends = NULL;
    char *pieces = NULL;
    uint32 code;

    do {
        begin_call();
        if (length > MOST_BYTES)
            ereport(ERROR, (errcode(ERRCODE_PROGRAM_LIMIT_EXCEEDED),
                            errmsg("the differences have %zu bytes, more than a text of PostgreSQL", length)));
        if (pieces != NULL) {
            pfree(pieces);
            pfree(ends);
        }
        room = length;
        most = count;
        pieces = palloc(room);
        ends = palloc(most * sizeof *ends);
        code = crsdesk_difference_pieces(pair.first.first, pair.first.length, pair.second.first, pair.second.length,
                                         pair.level, pieces, room, &length, ends, most, &count, &refusal);
    } while (code == CRSDESK_NO_ROOM);
    hold_code(code);
    if (code != CRSDESK_OK)
        PG_RETURN_NULL();
    return jsonb_of(pieces, length, ends, count);
}

static Datum differences_under(FunctionCallInfo fcinfo, struct pair pair)
{
    if (!take_forms(fcinfo, &pair))
        PG_RETURN_NULL();
    return differences_of(fcinfo, pair);
}

static Datum version_of(void)
{
    char version[SHORT_ROOM];
    size_t length;

    hold_code(crsdesk_version(version, sizeof version, &length));
    PG_RETURN_TEXT_P(cstring_to_text_with_len(version, (int)length));
}

/* A function under the name that SQL's declaration has. A process loads all modules into one space of names. */
#define FUNCTION(name, answer)                                                                                         \
    PG_FUNCTION_INFO_V1(name);                                                                                         \
    Datum name(PG_FUNCTION_ARGS)                                                                                       \
    {                                                                                                                  \
        (void)fcinfo;                                                                                                  \
        return answer;                                                                                                 \
    }

FUNCTION(crsdesk_pg_canon_text, canon_of(fcinfo, true))
FUNCTION(crsdesk_pg_canon_bytea, canon_of(fcinfo, false))
FUNCTION(crsdesk_pg_digest_text, digest_of(fcinfo, true))
FUNCTION(crsdesk_pg_digest_bytea, digest_of(fcinfo, false))
FUNCTION(crsdesk_pg_kind_text, kind_of(fcinfo, true))
FUNCTION(crsdesk_pg_kind_bytea, kind_of(fcinfo, false))
FUNCTION(crsdesk_pg_refusal_text, refusal_of(fcinfo, true))
FUNCTION(crsdesk_pg_refusal_bytea, refusal_of(fcinfo, false))
FUNCTION(crsdesk_pg_explain_text, explain_of(fcinfo, true))
FUNCTION(crsdesk_pg_explain_bytea, explain_of(fcinfo, false))
FUNCTION(crsdesk_pg_canon_under_text, canon_under(fcinfo, true))
FUNCTION(crsdesk_pg_canon_under_bytea, canon_under(fcinfo, false))
FUNCTION(crsdesk_pg_digest_under_text, digest_under(fcinfo, true))
FUNCTION(crsdesk_pg_digest_under_bytea, digest_under(fcinfo, false))

/* The four functions that compare a text or bytes with either. */
#define COMPARING(name, answer)                                                                                        \
    FUNCTION(crsdesk_pg_##name##_text_text, answer(fcinfo, pair_of(fcinfo, true, true)))                               \
    FUNCTION(crsdesk_pg_##name##_text_bytea, answer(fcinfo, pair_of(fcinfo, true, false)))                             \
    FUNCTION(crsdesk_pg_##name##_bytea_text, answer(fcinfo, pair_of(fcinfo, false, true)))                             \
    FUNCTION(crsdesk_pg_##name##_bytea_bytea, answer(fcinfo, pair_of(fcinfo, false, false)))

COMPARING(same, same_of)
COMPARING(same_under, same_under)
COMPARING(difference, difference_of)
COMPARING(difference_under, difference_under)
COMPARING(differences, differences_of)
COMPARING(differences_under, differences_under)
FUNCTION(crsdesk_pg_version, version_of())
