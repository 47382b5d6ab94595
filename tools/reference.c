/* A yardstick for tools/bench.c: the same work by hand, unproved, over spans of the text, with no value built.

       cc -O3 -march=native -o reference tools/reference.c
       reference ROUNDS items|check|canon|group < CATALOGUE     nanoseconds a text, the mean of the rounds
       reference 0 canon < CATALOGUE                            the canonical texts, to be compared

   It judges tokens, shape and most values, and says of a refused text no more than that it is. On
   examples/catalogue.txt its canonical texts are those of `crsdesk canon --lines`.

   The scan takes the common token first: a keyword with its bracket by one hashed compare, a number and a text by looks
   at 32 bytes. A byte 0 ends each text, so that outside of quotes no loop tests for the end, and 64 bytes behind it may
   be read. The scan keeps the place behind the last byte that no canonical text has there; a node without one is copied
   as it stands where its form is canonical too. */
#include <stdint.h>
#include <stdio.h>
#include <stdlib.h>
#include <string.h>
#include <time.h>
#ifdef __SSE2__
#include <immintrin.h>
#endif

#ifndef MODE

typedef uint8_t u8;
typedef uint32_t u32;
typedef uint64_t u64;

#ifdef __AVX2__
#define LANES 32
#else
#define LANES 16
#endif
typedef u8 lanes __attribute__((vector_size(LANES)));

enum { TEXT = 1, NUMBER, WORD, NODE };
enum { LARGE, TRIMMED, DIGITS };
enum { MOST = 64, DEEP = 12, PADDING = 64, SLOTS = 512 };

/* A token and the span of its bytes: of a text without the quotes, of a node with all that is in it. A number's class
   is TRIMMED where its canonical spelling is the span without `front` and `back` bytes, DIGITS where that is all of it
   and at most 18 digits, LARGE where its digits must be read. A node's `next` is the item behind it, and it is `clean`
   where white space, brackets, keywords and numbers in it are spelled as in a canonical text. */
struct item {
    u32 at, end, next;
    u8 kind, class;
    union {
        u8 clean, front;
    };
    u8 back;
};

static struct item *items;
static u32 count;
static const u8 *text;

/* clang-format off */
enum class {
    NONE, GEODCRS, GEOGCRS, PROJCRS, VERTCRS, COMPOUNDCRS, BASE, DYNAMIC, FRAMEEPOCH, MODEL, DATUM, VDATUM, ENSEMBLE,
    MEMBER, ENSEMBLEACCURACY, ANCHOR, ANCHOREPOCH, ELLIPSOID, PRIMEM, LENGTHUNIT, ANGLEUNIT, SCALEUNIT, UNIT, CS, AXIS,
    MERIDIAN, ORDER, CONVERSION, METHOD, PARAMETER, GEOIDMODEL, USAGE, SCOPE, AREA, BBOX, VERTICALEXTENT, ID, CITATION,
    URI, REMARK,
    CARTESIAN = 64, ELLIPSOIDAL, SPHERICAL, VERTICAL,
    DIRECTION = 80, UP = 99, DOWN
};

/* Each class's words; canonical texts have the first. */
static const struct {
    const char *word;
    u8 class;
} WORDS[] = {
    {"GEODCRS", GEODCRS}, {"GEODETICCRS", GEODCRS}, {"GEOGCRS", GEOGCRS}, {"GEOGRAPHICCRS", GEOGCRS},
    {"PROJCRS", PROJCRS}, {"PROJECTEDCRS", PROJCRS}, {"VERTCRS", VERTCRS}, {"VERTICALCRS", VERTCRS},
    {"COMPOUNDCRS", COMPOUNDCRS}, {"BASEGEOGCRS", BASE}, {"BASEGEODCRS", BASE}, {"DYNAMIC", DYNAMIC},
    {"FRAMEEPOCH", FRAMEEPOCH}, {"MODEL", MODEL}, {"VELOCITYGRID", MODEL}, {"DATUM", DATUM}, {"TRF", DATUM},
    {"GEODETICDATUM", DATUM}, {"VDATUM", VDATUM}, {"VRF", VDATUM}, {"VERTICALDATUM", VDATUM}, {"ENSEMBLE", ENSEMBLE},
    {"MEMBER", MEMBER}, {"ENSEMBLEACCURACY", ENSEMBLEACCURACY}, {"ANCHOR", ANCHOR}, {"ANCHOREPOCH", ANCHOREPOCH},
    {"ELLIPSOID", ELLIPSOID}, {"SPHEROID", ELLIPSOID}, {"PRIMEM", PRIMEM}, {"PRIMEMERIDIAN", PRIMEM},
    {"LENGTHUNIT", LENGTHUNIT}, {"ANGLEUNIT", ANGLEUNIT}, {"SCALEUNIT", SCALEUNIT}, {"UNIT", UNIT}, {"CS", CS},
    {"AXIS", AXIS}, {"MERIDIAN", MERIDIAN}, {"ORDER", ORDER}, {"CONVERSION", CONVERSION}, {"METHOD", METHOD},
    {"PROJECTION", METHOD}, {"PARAMETER", PARAMETER}, {"GEOIDMODEL", GEOIDMODEL}, {"USAGE", USAGE}, {"SCOPE", SCOPE},
    {"AREA", AREA}, {"BBOX", BBOX}, {"VERTICALEXTENT", VERTICALEXTENT}, {"ID", ID}, {"CITATION", CITATION},
    {"URI", URI}, {"REMARK", REMARK}, {"Cartesian", CARTESIAN}, {"ellipsoidal", ELLIPSOIDAL},
    {"spherical", SPHERICAL}, {"vertical", VERTICAL}, {"north", 80}, {"northNorthEast", 81}, {"northEast", 82},
    {"eastNorthEast", 83}, {"east", 84}, {"eastSouthEast", 85}, {"southEast", 86}, {"southSouthEast", 87},
    {"south", 88}, {"southSouthWest", 89}, {"southWest", 90}, {"westSouthWest", 91}, {"west", 92},
    {"westNorthWest", 93}, {"northWest", 94}, {"northNorthWest", 95}, {"geocentricX", 96}, {"geocentricY", 97},
    {"geocentricZ", 98}, {"up", UP}, {"down", DOWN}, {"unspecified", 101},
};
/* clang-format on */

/* A word of at most 16 letters, with zeros behind it. */
struct word {
    u64 half[2];
};

/* Slots of words: as canonical texts have them, no word for others of a class; in capitals; their classes. `keep` has
   the bits of n letters, none for more than 16. */
static struct word firsts[SLOTS], capitals[SLOTS];
static u8 classes[SLOTS];
static struct word keep[33];

/* Each class's word in canonical texts. */
static struct {
    u8 word[16];
    u32 length;
} spelled[128];

#define CAPITALS 0xDFDFDFDFDFDFDFDFULL

static inline struct word word_at(const u8 *s, u32 n)
{
    struct word w;
    memcpy(&w, s, sizeof w);
    w.half[0] &= keep[n].half[0];
    w.half[1] &= keep[n].half[1];
    return w;
}

/* The factor gives each word a slot of its own, but for four that are long. */
static inline u32 slot_of(struct word w, u32 n)
{
    return (u32)((((w.half[0] & CAPITALS) + n) * 0x3C593E7F3B51D375ULL) >> 55);
}

static inline int is_word(struct word a, struct word b)
{
    return !((a.half[0] ^ b.half[0]) | (a.half[1] ^ b.half[1]));
}

/* The class of a word of n letters, 0 where there is none. */
static u8 class_of(struct word w, u32 n)
{
    u32 slot = slot_of(w, n);
    w.half[0] &= CAPITALS;
    w.half[1] &= CAPITALS;
    if (n > 16)
        return NONE;
    while (classes[slot] && !is_word(capitals[slot], w))
        slot = (slot + 1) % SLOTS;
    return classes[slot];
}

static void fill_words(void)
{
    memset(firsts, 0xFF, sizeof firsts);
    for (size_t n = 0; n <= 16; n++)
        memset(&keep[n], 0xFF, n);
    for (size_t k = 0; k < sizeof WORDS / sizeof *WORDS; k++) {
        u8 padded[32] = {0}, class = WORDS[k].class;
        u32 n = (u32)strlen(WORDS[k].word);
        memcpy(padded, WORDS[k].word, n);
        struct word w = word_at(padded, n);
        u32 slot = slot_of(w, n);
        while (classes[slot])
            slot = (slot + 1) % SLOTS;
        if (!spelled[class].length) {
            firsts[slot] = w;
            memcpy(spelled[class].word, padded, 16);
            spelled[class].length = n;
        }
        w.half[0] &= CAPITALS;
        w.half[1] &= CAPITALS;
        capitals[slot] = w;
        classes[slot] = class;
    }
}

/* Sorts of bytes. */
enum { IS_WHITE = 1, IS_LETTER = 2, IS_DIGIT = 4, IN_WORD = 8, IN_NUMBER = 16 };

static u8 sort[256];

static void fill_sort(void)
{
    sort[' '] = sort['\t'] = sort['\n'] = sort['\r'] = IS_WHITE;
    for (int c = 'A'; c <= 'Z'; c++)
        sort[c] = sort[c + 32] = IS_LETTER | IN_WORD | IN_NUMBER;
    for (int c = '0'; c <= '9'; c++)
        sort[c] = IS_DIGIT | IN_WORD | IN_NUMBER;
    sort['_'] = IN_WORD | IN_NUMBER;
    sort['.'] = sort['+'] = sort['-'] = IN_NUMBER;
}

/* ---- looks at 32 bytes: a bit for each that is found */

static inline u32 bits_of(const lanes *found)
{
#if defined __AVX2__
    return (u32)_mm256_movemask_epi8((__m256i)*found);
#elif defined __SSE2__
    return (u32)_mm_movemask_epi8((__m128i)*found);
#else
    u32 bits = 0;
    for (int k = 0; k < LANES; k++)
        bits |= (u32)((*found)[k] >> 7) << k;
    return bits;
#endif
}

#define LOOK(name, found)                                                                                              \
    static inline u32 name(const u8 *s)                                                                                \
    {                                                                                                                  \
        u32 bits = 0;                                                                                                  \
        for (u32 k = 0; k < 32; k += LANES) {                                                                          \
            lanes v;                                                                                                   \
            memcpy(&v, s + k, sizeof v);                                                                               \
            v = (lanes)(found);                                                                                        \
            bits |= bits_of(&v) << k;                                                                                  \
        }                                                                                                              \
        return bits;                                                                                                   \
    }

LOOK(quotes, v == '"')
LOOK(digits, v - '0' <= 9)
LOOK(letters, (v & 0xDF) - 'A' <= 25)
LOOK(no_ascii, v)

/* How many of the low bits are set without a gap. */
static inline u32 run(u64 bits)
{
    return (u32)__builtin_ctzll(~bits);
}

/* ---- numbers */

/* A number's digits without zeros at either end, and its power of ten. */
struct number {
    int negative, count, power;
    u8 digits[128];
};

static int parse(const u8 *s, u32 n, struct number *x)
{
    u32 at = 0, written = 0;
    int power = 0, point = -1;
    x->negative = x->count = 0;
    if (at < n && (s[at] == '+' || s[at] == '-'))
        x->negative = s[at++] == '-';
    for (; at < n && (sort[s[at]] & IS_DIGIT || (s[at] == '.' && point < 0)); at++) {
        if (s[at] == '.') {
            point = (int)written;
            continue;
        }
        written++;
        if ((x->count || s[at] != '0') && x->count < 128)
            x->digits[x->count++] = s[at];
    }
    if (!written || written > 100)
        return 0;
    if (at < n && (s[at] | 32) == 'e') {
        int minus = 0, length = 0;
        if (++at < n && (s[at] == '+' || s[at] == '-'))
            minus = s[at++] == '-';
        for (; at < n && sort[s[at]] & IS_DIGIT; at++, length++)
            if (power < 10000)
                power = power * 10 + s[at] - '0';
        if (!length || length > 3)
            return 0;
        if (minus)
            power = -power;
    }
    if (at != n)
        return 0;
    if (point >= 0)
        power -= (int)written - point;
    while (x->count && x->digits[x->count - 1] == '0')
        x->count--, power++;
    if (!x->count)
        x->negative = 0, power = 0;
    x->power = power;
    return x->count <= 38 && (!x->count || (power >= -40 && power <= 40));
}

/* Takes any number: the place behind it, 0 where it is refused. One of at most 31 bytes, with digits before the point
   and no other power of ten than E0, is read by its zeros at both ends. */
static u32 take_odd_number(struct item *it, const u8 *s, u32 at)
{
    u64 bits = digits(s + at);
    u32 end = at, negative = s[at] == '-', first = negative || s[at] == '+';
    struct number x;
    while (sort[s[end]] & IN_NUMBER)
        end++;
    it->at = at;
    it->end = end;
    it->kind = NUMBER;
    it->class = LARGE;
    u32 n = end - at, point = first + run(bits >> first), stop = point;
    if (n > 31 || point == first)
        return parse(s + at, n, &x) ? end : 0;
    if (s[at + point] == '.')
        stop = point + 1 + run(bits >> point >> 1);
    u32 back = n - stop;
    if (back && (back != 2 || (s[at + stop] | 32) != 'e' || s[at + stop + 1] != '0'))
        return parse(s + at, n, &x) ? end : 0;
    if (stop > point) {
        while (s[at + stop - 1] == '0')
            stop--;
        stop -= stop == point + 1;
    }
    u32 front = first;
    while (front + 1 < point && s[at + front] == '0')
        front++;
    if (negative && !(stop == front + 1 && s[at + front] == '0')) {
        if (front > 1)
            return end;
        front = 0;
    }
    it->class = TRIMMED;
    it->front = (u8)front;
    it->back = (u8)(n - stop);
    return end;
}

/* The same, first of all a digit by itself, then one of at most 31 bytes that is spelled as in a canonical text. */
static inline u32 take_number(struct item *it, const u8 *s, u32 at, u32 *odd)
{
    u32 sign = s[at] == '-', point, end;
    u64 bits;
    it->at = at;
    it->kind = NUMBER;
    it->class = DIGITS;
    it->front = it->back = 0;
    if (sort[s[at]] & IS_DIGIT && (s[at + 1] == ',' || s[at + 1] == ']'))
        return it->end = at + 1;
    bits = digits(s + at);
    point = end = run(bits | sign);
    if (point > sign && (s[at + sign] != '0' || point == sign + 1)) {
        int plain = !sign || s[at + 1] != '0';
        if (s[at + point] == '.') {
            end += 1 + run(bits >> point >> 1);
            plain = end > point + 1 && s[at + end - 1] != '0';
        }
        if (sign || end > point || end > 18)
            it->class = TRIMMED;
        if (plain && end < 32 && !(sort[s[at + end]] & IN_NUMBER))
            return it->end = at + end;
    }
    *odd = at + 1;
    return take_odd_number(it, s, at);
}

/* -1, 0 or 1. */
static inline int sign_of(const struct item *it)
{
    u32 at = it->at + it->front;
    struct number x;
    if (it->class == LARGE) {
        parse(text + it->at, it->end - it->at, &x);
        return x.negative ? -1 : x.count > 0;
    }
    return text[at] == '-' ? -1 : text[at] != '0' || it->end - it->back > at + 1;
}

/* The number where it is one to nine, else 0. */
static u32 digit_of(const struct item *it)
{
    u32 at = it->at + it->front;
    struct number x;
    if (it->class == LARGE) {
        parse(text + it->at, it->end - it->at, &x);
        return x.count == 1 && !x.power && !x.negative ? (u32)(x.digits[0] - '0') : 0;
    }
    return it->end - it->back == at + 1 ? (u32)(text[at] - '0') : 0;
}

/* ---- the scan */

static int is_utf8(const u8 *s, u32 n)
{
    for (u32 at = 0; at < n;) {
        u32 high = no_ascii(s + at);
        if (!high) {
            at += 32;
            continue;
        }
        at += (u32)__builtin_ctz(high);
        if (at >= n)
            break;
        u8 c = s[at];
        u32 more = c >= 0xC2 && c < 0xE0 ? 1 : (c & 0xF0) == 0xE0 ? 2 : c >= 0xF0 && c < 0xF5 ? 3 : 0;
        if (!more || at + more >= n)
            return 0;
        for (u32 k = 1; k <= more; k++)
            if ((s[at + k] & 0xC0) != 0x80)
                return 0;
        if ((c == 0xE0 && s[at + 1] < 0xA0) || (c == 0xED && s[at + 1] > 0x9F))
            return 0;
        if ((c == 0xF0 && s[at + 1] < 0x90) || (c == 0xF4 && s[at + 1] > 0x8F))
            return 0;
        at += more + 1;
    }
    return 1;
}

/* Takes a text: the place behind it, 0 where it is refused. */
static inline u32 take_text(struct item *it, const u8 *s, u32 at, u32 n)
{
    u32 found, high = 0;
    it->at = ++at;
    it->kind = TEXT;
    for (;; at += 2) {
        while (!(found = quotes(s + at))) {
            high |= no_ascii(s + at);
            if ((at += 32) >= n)
                return 0;
        }
        high |= no_ascii(s + at) & (found ^ (found - 1));
        at += (u32)__builtin_ctz(found);
        if (at >= n)
            return 0;
        if (s[at + 1] != '"')
            break;
    }
    it->end = at;
    return high && !is_utf8(s + it->at, at - it->at) ? 0 : at + 1;
}

/* Takes a word, or a keyword up to its bracket: the place behind it and white space. */
static inline u32 take_word(struct item *it, const u8 *s, u32 at, u32 *odd)
{
    u32 length = run(letters(s + at)), end = at + length;
    struct word w = word_at(s + at, length);
    u32 slot = slot_of(w, length);
    it->at = at;
    it->class = classes[slot];
    if (!is_word(w, firsts[slot])) {
        *odd = at + 1;
        it->class = class_of(w, length);
    }
    if (s[end] == '[') {
        it->kind = NODE;
        return end;
    }
    if (sort[s[end]] & IN_WORD) {
        it->class = NONE;
        while (sort[s[end]] & IN_WORD)
            end++;
    }
    it->end = end;
    for (; sort[s[end]] & IS_WHITE; end++)
        *odd = end + 1;
    it->kind = s[end] == '[' || s[end] == '(' ? NODE : WORD;
    if (s[end] == '(')
        *odd = end + 1;
    return end;
}

/* The items of a text of n bytes, or 0. */
static int scan(const u8 *s, u32 n)
{
    u32 depth = 0, at = 0, odd = 0;
    struct item *it = items, *open[DEEP + 1];
    u8 close[DEEP + 1];
    /* No bracket closes what isn't open: a comma was taken before. */
    close[0] = ',';
    text = s;
    for (;;) {
        u8 c = s[at];
        if (sort[c] & IS_LETTER) {
            at = take_word(it, s, at, &odd);
            if (it->kind == NODE) {
                if (depth == DEEP)
                    return 0;
                open[++depth] = it++;
                close[depth] = s[at++] == '[' ? ']' : ')';
                continue;
            }
        } else if (c == '"') {
            at = take_text(it, s, at, n);
        } else if (sort[c] & IN_NUMBER) {
            at = take_number(it, s, at, &odd);
        } else if (sort[c] & IS_WHITE) {
            odd = ++at;
            continue;
        } else {
            return 0;
        }
        if (!at)
            return 0;
        it++;
        while ((c = s[at++]) != ',') {
            if (c != close[depth]) {
                if (!(sort[c] & IS_WHITE))
                    return 0;
                odd = at;
                continue;
            }
            struct item *node = open[depth];
            node->end = at;
            node->next = (u32)(it - items);
            node->clean = odd <= node->at;
            if (--depth)
                continue;
            while (sort[s[at]] & IS_WHITE)
                at++;
            count = (u32)(it - items);
            return at == n && items[0].kind == NODE;
        }
    }
}

/* ---- what writes */

static u8 *out, *scratch;
static int broken;

/* Whether the canonical spelling of a node that is compared is another than its span. */
static int differs;

/* Copies by 16 bytes, past the end of both: they have room. */
static inline void put(const void *from, size_t n)
{
    u8 *to = out;
    const u8 *s = from;
    out += n;
    do
        memcpy(to, s, 16), to += 16, s += 16;
    while (to < out);
}

static void put_large(const struct item *it)
{
    struct number x;
    parse(text + it->at, it->end - it->at, &x);
    if (x.negative)
        *out++ = '-';
    int point = x.count + x.power;
    if (point <= 0) {
        *out++ = '0';
        if (x.count)
            *out++ = '.';
        for (; point < 0; point++)
            *out++ = '0';
        for (int k = 0; k < x.count; k++)
            *out++ = x.digits[k];
        return;
    }
    for (int k = 0; k < x.count || k < point; k++) {
        if (k == point)
            *out++ = '.';
        *out++ = k < x.count ? x.digits[k] : '0';
    }
}

static inline void put_number(const struct item *it)
{
    if (it->class == LARGE)
        put_large(it);
    else
        put(text + it->at + it->front, it->end - it->back - it->at - it->front);
}

struct span {
    u32 at, length;
};

/* Eight bytes as a number in whose order they stand. */
static inline u64 ordered(const u8 *s)
{
    u64 x;
    memcpy(&x, s, sizeof x);
    return __BYTE_ORDER__ == __ORDER_LITTLE_ENDIAN__ ? __builtin_bswap64(x) : x;
}

static inline int order(const u8 *a, u32 n, const u8 *b, u32 m)
{
    u32 least = n < m ? n : m;
    for (u32 k = 0; k < least; k += 8) {
        u64 x = ordered(a + k), y = ordered(b + k);
        if (x == y)
            continue;
        if (least - k < 8) {
            x >>= 64 - 8 * (least - k);
            y >>= 64 - 8 * (least - k);
        }
        if (x != y)
            return x < y ? -1 : 1;
        break;
    }
    return n < m ? -1 : n > m;
}

/* Brings n spans from `base` on in order, each once: how many are left, and whether that changed them. */
static u32 sort_spans(const u8 *base, struct span *spans, u32 n, int *changed)
{
    u32 kept = 0;
    for (u32 k = 0; k < n; k++) {
        struct span s = spans[k];
        u32 at = kept;
        int found = 1;
        while (at && (found = order(base + s.at, s.length, base + spans[at - 1].at, spans[at - 1].length)) < 0)
            at--;
        *changed |= at != kept || (at && !found);
        if (at && !found)
            continue;
        for (u32 m = kept++; m > at; m--)
            spans[m] = spans[m - 1];
        spans[at] = s;
    }
    return kept;
}

static void put_spans(const u8 *base, const struct span *spans, u32 n)
{
    for (u32 k = 0; k < n; k++) {
        *out++ = ',';
        put(base + spans[k].at, spans[k].length);
    }
}

/* Brings the members that were put from `start` on, a comma before each, in order, each once. */
static void sort_members(u8 *start, struct span *spans, u32 n)
{
    int changed = 0;
    u32 kept = sort_spans(start, spans, n, &changed);
    if (!changed)
        return;
    memcpy(scratch, start, (size_t)(out - start));
    out = start;
    put_spans(scratch, spans, kept);
}

/* ---- the walk by class */

static inline int is(u32 at, u32 end, int class)
{
    return at < end && items[at].kind == NODE && items[at].class == class;
}

static inline int is_unit(u32 at, u32 end, int kind)
{
    return at < end && items[at].kind == NODE && (items[at].class == kind || items[at].class == UNIT);
}

static inline int is_any_unit(u32 at, u32 end)
{
    return at < end && items[at].kind == NODE && items[at].class >= LENGTHUNIT && items[at].class <= UNIT;
}

/* Whether a node's bytes don't stand before those of the next. */
static int is_behind(const struct item *a, const struct item *b)
{
    return order(text + a->at, a->end - a->at, text + b->at, b->end - b->at) >= 0;
}

/* The place that an axis has by its order, 0: none, 9: no place. */
static u32 place_of(u32 at)
{
    for (u32 k = at + 1; k < items[at].next; k = items[k].kind == NODE ? items[k].next : k + 1)
        if (items[k].kind == NODE && items[k].class == ORDER) {
            u32 place = items[k].next == k + 2 && items[k + 1].kind == NUMBER ? digit_of(&items[k + 1]) : 0;
            return place ? place : 9;
        }
    return 0;
}

/* Whether a system of this type and dimension may be that of such a CRS. */
static int fits(int class, int type, u32 dimension)
{
    switch (class) {
    case VERTCRS:
        return type == VERTICAL && dimension == 1;
    case PROJCRS:
        return type == CARTESIAN && dimension >= 2;
    case GEOGCRS:
        return type == ELLIPSOIDAL && dimension >= 2;
    default:
        return type == CARTESIAN ? dimension == 3 : type != VERTICAL && dimension >= 2;
    }
}

/* The walk by class, three times over: to compare a node with its canonical spelling, to judge, to write. */
#define COMPARE 1
#define JUDGE 2
#define WRITE 3
#define MODE COMPARE
#define NAME(x) x##_compared
#include "reference.c"
#undef MODE
#undef NAME
#define MODE JUDGE
#define NAME(x) x##_judged
#include "reference.c"
#undef MODE
#undef NAME
#define MODE WRITE
#define NAME(x) x##_written
#include "reference.c"

/* Room for n bytes, at first those at `from`, which is freed. */
static void *room_of(void *from, size_t n)
{
    void *room = realloc(from, n);
    if (!room)
        exit(1);
    return room;
}

struct group {
    u64 hash;
    u32 length, lines;
    u8 *bytes;
};

static struct group *groups;
static u64 slots, taken;

static u64 hash_of(const u8 *s, size_t n)
{
    u64 h = n * 0x9E3779B97F4A7C15ULL, w[2];
    for (size_t at = 0; at < n; at += 16) {
        memcpy(w, s + at, 16);
        if (n - at < 16) {
            u64 rest = n - at;
            w[1] = rest > 8 ? w[1] & ((1ULL << (8 * (rest - 8))) - 1) : 0;
            if (rest < 8)
                w[0] &= (1ULL << (8 * rest)) - 1;
        }
        __uint128_t p = (__uint128_t)(w[0] ^ h) * (w[1] ^ 0xA0761D6478BD642FULL);
        h = (u64)p ^ (u64)(p >> 64);
    }
    return h | 1;
}

static void group(const u8 *s, size_t n)
{
    u64 h = hash_of(s, n), at = h & (slots - 1);
    for (; groups[at].hash; at = (at + 1) & (slots - 1))
        if (groups[at].hash == h && groups[at].length == n && !memcmp(groups[at].bytes, s, n)) {
            groups[at].lines++;
            return;
        }
    groups[at] = (struct group){h, (u32)n, 1, memcpy(room_of(NULL, n), s, n)};
    taken++;
}

static void empty_groups(void)
{
    for (u64 k = 0; taken && k < slots; k++) {
        taken -= groups[k].hash != 0;
        free(groups[k].bytes);
        groups[k] = (struct group){0};
    }
}

/* What a job makes of a text: how many items, texts or bytes. */
static size_t take(const u8 *s, u32 n, const char *job, u8 *made)
{
    out = made;
    broken = 0;
    int fine = scan(s, n);
    if (job[0] == 'i')
        return fine ? count : 0;
    if (job[0] == 'c' && job[1] == 'h')
        return fine && crs_judged();
    if (!fine || !crs_written())
        return 0;
    if (job[0] == 'g')
        group(made, (size_t)(out - made));
    return (size_t)(out - made);
}

/* All of standard input, with PADDING zeros behind it. */
static u8 *read_all(size_t *size)
{
    size_t room = 1 << 20, got;
    u8 *all = room_of(NULL, room + PADDING);
    for (*size = 0; (got = fread(all + *size, 1, room - *size, stdin)) > 0;)
        if ((*size += got) == room)
            all = room_of(all, (room *= 2) + PADDING);
    memset(all + *size, 0, PADDING);
    return all;
}

/* The lines that aren't empty, with a byte 0 behind each. */
static size_t split(u8 *all, size_t size, struct span *line)
{
    size_t lines = 0;
    for (size_t at = 0; at < size; at++) {
        u8 *end = memchr(all + at, '\n', size - at);
        size_t n = end ? (size_t)(end - all) - at : size - at;
        if (n)
            line[lines++] = (struct span){(u32)at, (u32)n};
        at += n;
        all[at] = 0;
    }
    return lines;
}

int main(int words, char **word)
{
    if (words < 3)
        return 2;
    size_t size, longest = 0;
    u8 *all = read_all(&size);
    struct span *line = room_of(NULL, (size / 2 + 1) * sizeof *line);
    size_t lines = split(all, size, line);
    for (size_t k = 0; k < lines; k++)
        longest = line[k].length > longest ? line[k].length : longest;
    items = room_of(NULL, (longest + 2) * sizeof *items);
    u8 *made = room_of(NULL, longest * 8 + 4096);
    scratch = room_of(NULL, longest * 8 + 4096);
    for (slots = 64; slots < 2 * lines;)
        slots *= 2;
    groups = room_of(NULL, slots * sizeof *groups);
    memset(groups, 0, slots * sizeof *groups);
    fill_words();
    fill_sort();
    int rounds = atoi(word[1]);
    const char *job = rounds ? word[2] : "canon";
    double total = 0;
    u64 counted = 0;
    for (int round = 0; round < (rounds ? rounds : 1); round++) {
        struct timespec from, to;
        empty_groups();
        counted = 0;
        clock_gettime(CLOCK_MONOTONIC, &from);
        for (size_t k = 0; k < lines; k++) {
            size_t found = take(all + line[k].at, line[k].length, job, made);
            counted += found;
            if (!rounds)
                printf("%.*s\n", found ? (int)found : 7, found ? (char *)made : "refused");
        }
        clock_gettime(CLOCK_MONOTONIC, &to);
        total += ((double)(to.tv_sec - from.tv_sec) * 1e9 + (double)(to.tv_nsec - from.tv_nsec)) / (double)lines;
    }
    if (rounds)
        printf("%s: %zu texts, %llu, %.0f ns a text\n", job, lines,
               (unsigned long long)(job[0] == 'g' ? taken : counted), total / rounds);
    empty_groups();
    void *rooms[] = {all, line, items, made, scratch, groups};
    for (size_t k = 0; k < sizeof rooms / sizeof *rooms; k++)
        free(rooms[k]);
    return 0;
}

#else

#define COMPARES (MODE == COMPARE)
#define WRITES (MODE == WRITE)
#define PUT(s) (WRITES ? put(s "                ", sizeof(s) - 1) : (void)0)
#define FAIL return broken = 1, end
#define DIFFERS_IF(condition) (COMPARES && (condition) ? (void)(differs = 1) : (void)0)

/* Copies a clean node whose comparison finds no difference, and ends the walk of it. */
#define COPY(compared)                                                                                                 \
    do {                                                                                                               \
        if (WRITES && items[at].clean && (differs = 0, compared, !differs)) {                                          \
            put(text + items[at].at, items[at].end - items[at].at);                                                    \
            return items[at].next;                                                                                     \
        }                                                                                                              \
    } while (0)

static inline u32 NAME(text)(u32 at, u32 end)
{
    if (at >= end || items[at].kind != TEXT)
        FAIL;
    if (WRITES)
        put(text + items[at].at - 1, items[at].end - items[at].at + 2);
    return at + 1;
}

/* A number of at least this sign. */
static inline u32 NAME(number)(u32 at, u32 end, int least)
{
    if (at >= end || items[at].kind != NUMBER || (least > -1 && sign_of(&items[at]) < least))
        FAIL;
    if (WRITES)
        put_number(&items[at]);
    return at + 1;
}

static u32 NAME(code)(u32 at, u32 end)
{
    if (at >= end || (items[at].kind != TEXT && items[at].kind != NUMBER))
        FAIL;
    const struct item *it = &items[at];
    if (MODE == JUDGE)
        return at + 1;
    u32 length = it->end - it->at;
    int bare = it->kind == NUMBER && it->class == DIGITS;
    if (!bare && length >= 1 && length <= 18) {
        bare = 1;
        for (u32 k = it->at; bare && k < it->end; k++)
            bare = sort[text[k]] & IS_DIGIT;
    }
    DIFFERS_IF(!bare != (it->kind == TEXT));
    if (WRITES) {
        if (!bare)
            *out++ = '"';
        put(text + it->at, length);
        if (!bare)
            *out++ = '"';
    }
    return at + 1;
}

/* A node of one text or one number, without its keyword. */
static u32 NAME(single)(u32 at, int kind)
{
    u32 end = items[at].next;
    u32 behind = kind == TEXT ? NAME(text)(at + 1, end) : NAME(number)(at + 1, end, -1);
    if (behind != end)
        broken = 1;
    if (WRITES)
        *out++ = ']';
    return end;
}

static u32 NAME(id)(u32 at)
{
    u32 end = items[at].next;
    COPY(id_compared(at));
    PUT("ID[");
    u32 k = NAME(text)(at + 1, end);
    PUT(",");
    k = NAME(code)(k, end);
    if (k < end && items[k].kind != NODE) {
        PUT(",");
        k = NAME(code)(k, end);
    }
    if (is(k, end, CITATION)) {
        PUT(",CITATION[");
        k = NAME(single)(k, TEXT);
    }
    if (is(k, end, URI)) {
        PUT(",URI[");
        k = NAME(single)(k, TEXT);
    }
    if (k != end)
        broken = 1;
    PUT("]");
    return end;
}

/* The members of a class from item k on, in order: from the text where each of them is canonical as it stands. */
#define SET(class, member, compared)                                                                                   \
    do {                                                                                                               \
        struct span spans[MOST];                                                                                       \
        u32 members = 0, first = k, before = k;                                                                        \
        u8 *start = out;                                                                                               \
        int changed = 0;                                                                                               \
        for (; WRITES && is(k, end, class); k = items[k].next) {                                                       \
            if (members == MOST || !items[k].clean || (differs = 0, compared, differs))                                \
                break;                                                                                                 \
            spans[members++] = (struct span){items[k].at, items[k].end - items[k].at};                                 \
        }                                                                                                              \
        if (WRITES && !is(k, end, class)) {                                                                            \
            if (members > 1)                                                                                           \
                members = sort_spans(text, spans, members, &changed);                                                  \
            put_spans(text, spans, members);                                                                           \
            break;                                                                                                     \
        }                                                                                                              \
        for (k = first, members = 0; is(k, end, class); members++) {                                                   \
            if (members == MOST)                                                                                       \
                FAIL;                                                                                                  \
            DIFFERS_IF(members > 0 && is_behind(&items[before], &items[k]));                                           \
            before = k;                                                                                                \
            PUT(",");                                                                                                  \
            spans[members].at = (u32)(out - start);                                                                    \
            k = member;                                                                                                \
            spans[members].length = (u32)(out - start) - spans[members].at;                                            \
        }                                                                                                              \
        if (WRITES && members > 1)                                                                                     \
            sort_members(start, spans, members);                                                                       \
    } while (0)

/* What ends most nodes. */
static inline u32 NAME(ids)(u32 k, u32 end)
{
    SET(ID, NAME(id)(k), id_compared(k));
    if (k != end)
        broken = 1;
    PUT("]");
    return end;
}

/* A node of a name and identifiers, without its keyword. */
static u32 NAME(named)(u32 at)
{
    u32 end = items[at].next;
    return NAME(ids)(NAME(text)(at + 1, end), end);
}

static u32 NAME(member)(u32 at)
{
    COPY(named_compared(at));
    PUT("MEMBER[");
    return NAME(named)(at);
}

static u32 NAME(unit)(u32 at, int kind)
{
    u32 end = items[at].next;
    PUT(",");
    DIFFERS_IF(items[at].class != kind);
    COPY(unit_compared(at, kind));
    switch (kind) {
    case LENGTHUNIT:
        PUT("LENGTHUNIT[");
        break;
    case ANGLEUNIT:
        PUT("ANGLEUNIT[");
        break;
    case SCALEUNIT:
        PUT("SCALEUNIT[");
        break;
    default:
        PUT("UNIT[");
    }
    u32 k = NAME(text)(at + 1, end);
    PUT(",");
    return NAME(ids)(NAME(number)(k, end, 1), end);
}

static u32 NAME(length)(u32 at, u32 end)
{
    if (is_unit(at, end, LENGTHUNIT))
        return NAME(unit)(at, LENGTHUNIT);
    DIFFERS_IF(1);
    PUT(",LENGTHUNIT[\"metre\",1]");
    return at;
}

static u32 NAME(ellipsoid)(u32 at)
{
    u32 end = items[at].next;
    PUT(",");
    COPY(ellipsoid_compared(at));
    PUT("ELLIPSOID[");
    u32 k = NAME(text)(at + 1, end);
    PUT(",");
    k = NAME(number)(k, end, 1);
    PUT(",");
    return NAME(ids)(NAME(length)(NAME(number)(k, end, 0), end), end);
}

static u32 NAME(ensemble)(u32 at, int geodetic)
{
    u32 end = items[at].next;
    PUT("ENSEMBLE[");
    u32 k = NAME(text)(at + 1, end);
    if (!is(k, end, MEMBER))
        FAIL;
    SET(MEMBER, NAME(member)(k), named_compared(k));
    if (geodetic) {
        if (!is(k, end, ELLIPSOID))
            FAIL;
        k = NAME(ellipsoid)(k);
    }
    if (!is(k, end, ENSEMBLEACCURACY))
        FAIL;
    PUT(",ENSEMBLEACCURACY[");
    return NAME(ids)(NAME(single)(k, NUMBER), end);
}

static u32 NAME(frame)(u32 at, u32 end, int geodetic)
{
    int ensemble = is(at, end, ENSEMBLE);
    if (!ensemble && !is(at, end, geodetic ? DATUM : VDATUM))
        FAIL;
    PUT(",");
    COPY(frame_compared(at, end, geodetic));
    if (ensemble)
        return NAME(ensemble)(at, geodetic);
    end = items[at].next;
    if (geodetic)
        PUT("DATUM[");
    else
        PUT("VDATUM[");
    u32 k = NAME(text)(at + 1, end), anchor = 0, epoch = 0;
    if (geodetic) {
        if (!is(k, end, ELLIPSOID))
            FAIL;
        k = NAME(ellipsoid)(k);
    }
    for (; is(k, end, ANCHOR) || is(k, end, ANCHOREPOCH); k = items[k].next) {
        u32 *place = items[k].class == ANCHOR ? &anchor : &epoch;
        if (*place)
            FAIL;
        *place = k;
    }
    DIFFERS_IF(epoch && anchor > epoch);
    if (anchor) {
        PUT(",ANCHOR[");
        NAME(single)(anchor, TEXT);
    }
    if (epoch) {
        PUT(",ANCHOREPOCH[");
        NAME(single)(epoch, NUMBER);
    }
    return NAME(ids)(k, end);
}

static u32 NAME(axis)(u32 at, int type, u32 shared, u32 place, u32 ordered)
{
    u32 end = items[at].next;
    PUT(",");
    COPY(axis_compared(at, type, shared, place, ordered));
    PUT("AXIS[");
    u32 k = NAME(text)(at + 1, end);
    if (k >= end || items[k].kind != WORD || items[k].class < DIRECTION)
        FAIL;
    int direction = items[k++].class;
    int kind = type == CARTESIAN || type == VERTICAL || direction == UP || direction == DOWN ? LENGTHUNIT : ANGLEUNIT;
    PUT(",");
    if (WRITES)
        put(spelled[direction].word, spelled[direction].length);
    if (is(k, end, MERIDIAN)) {
        u32 last = items[k].next;
        PUT(",MERIDIAN[");
        u32 inner = NAME(number)(k + 1, last, -1);
        if (!is_unit(inner, last, ANGLEUNIT))
            FAIL;
        if (NAME(unit)(inner, ANGLEUNIT) != last)
            broken = 1;
        PUT("]");
        k = last;
    }
    if (is(k, end, ORDER))
        k = items[k].next;
    else if (ordered)
        FAIL;
    else
        DIFFERS_IF(1);
    PUT(",ORDER[");
    if (WRITES)
        *out++ = (u8)('0' + place);
    PUT("]");
    u32 own = is_any_unit(k, end) && items[k].class != SCALEUNIT ? k : 0;
    if (!own == !shared)
        FAIL;
    u32 unit = own ? own : shared;
    if (items[unit].class != UNIT && items[unit].class != kind)
        FAIL;
    DIFFERS_IF(shared);
    NAME(unit)(unit, kind);
    return NAME(ids)(own ? items[own].next : k, end);
}

static void NAME(extents)(u32 scope, u32 area, u32 box, u32 heights)
{
    PUT("USAGE");
    u8 *start = out;
    if (scope) {
        PUT(",SCOPE[");
        NAME(single)(scope, TEXT);
    }
    if (area) {
        PUT(",AREA[");
        NAME(single)(area, TEXT);
    }
    if (box) {
        u32 end = items[box].next, k = box + 1;
        PUT(",BBOX[");
        for (int n = 0; n < 4; n++) {
            if (n)
                PUT(",");
            k = NAME(number)(k, end, -1);
        }
        if (k != end)
            broken = 1;
        PUT("]");
    }
    if (heights) {
        u32 end = items[heights].next;
        PUT(",VERTICALEXTENT[");
        u32 k = NAME(number)(heights + 1, end, -1);
        PUT(",");
        if (NAME(length)(NAME(number)(k, end, -1), end) != end)
            broken = 1;
        PUT("]");
    }
    if (WRITES)
        *start = '[';
    PUT("]");
}

static u32 NAME(usage)(u32 at)
{
    u32 end = items[at].next, k = at + 1, part[4] = {0};
    COPY(usage_compared(at));
    for (int n = 0; n < 4; n++)
        if (is(k, end, SCOPE + n))
            part[n] = k, k = items[k].next;
    if (k != end || k == at + 1)
        broken = 1;
    NAME(extents)(part[0], part[1], part[2], part[3]);
    return end;
}

static u32 NAME(parameter)(u32 at)
{
    u32 end = items[at].next;
    COPY(parameter_compared(at));
    PUT("PARAMETER[");
    u32 k = NAME(text)(at + 1, end);
    PUT(",");
    k = NAME(number)(k, end, -1);
    if (is_any_unit(k, end))
        k = NAME(unit)(k, items[k].class);
    return NAME(ids)(k, end);
}

#if MODE != COMPARE

static u32 NAME(meridian)(u32 at, u32 end)
{
    if (!is(at, end, PRIMEM)) {
        PUT(",PRIMEM[\"Greenwich\",0]");
        return at;
    }
    end = items[at].next;
    PUT(",PRIMEM[");
    u32 k = NAME(text)(at + 1, end);
    PUT(",");
    int zero = WRITES && k < end && items[k].kind == NUMBER && !sign_of(&items[k]);
    k = NAME(number)(k, end, -1);
    if (is_unit(k, end, ANGLEUNIT))
        k = zero ? unit_compared(k, ANGLEUNIT) : NAME(unit)(k, ANGLEUNIT);
    return NAME(ids)(k, end);
}

static u32 NAME(dynamic)(u32 at, u32 end, u32 *found)
{
    *found = (u32)is(at, end, DYNAMIC);
    if (!*found)
        return at;
    end = items[at].next;
    if (!is(at + 1, end, FRAMEEPOCH))
        FAIL;
    PUT(",DYNAMIC[FRAMEEPOCH[");
    u32 k = NAME(single)(at + 1, NUMBER);
    if (is(k, end, MODEL)) {
        PUT(",MODEL[");
        k = NAME(named)(k);
    }
    if (k != end)
        broken = 1;
    PUT("]");
    return end;
}

/* A name, a dynamic part and a frame. */
static u32 NAME(framed)(u32 at, u32 end, int geodetic)
{
    u32 found, k = NAME(dynamic)(NAME(text)(at + 1, end), end, &found);
    if (found && is(k, end, ENSEMBLE))
        broken = 1;
    k = NAME(frame)(k, end, geodetic);
    return geodetic ? NAME(meridian)(k, end) : k;
}

static u32 NAME(system)(u32 at, u32 end, int *type, u32 *dimension)
{
    if (!is(at, end, CS))
        FAIL;
    u32 k = at + 1, last = items[at].next, n = 0, axes[3], at_place[4] = {0}, ordered, shared;
    if (k >= last || items[k].kind != WORD || items[k].class < CARTESIAN || items[k].class > VERTICAL)
        FAIL;
    *type = items[k].class;
    PUT(",CS[");
    if (WRITES)
        put(spelled[*type].word, spelled[*type].length);
    PUT(",");
    if (++k >= last || items[k].kind != NUMBER)
        FAIL;
    *dimension = digit_of(&items[k]);
    NAME(ids)(NAME(number)(k, last, -1), last);
    for (k = last; is(k, end, AXIS); k = items[k].next) {
        if (n == 3)
            FAIL;
        axes[n++] = k;
    }
    if (!n || n != *dimension)
        FAIL;
    shared = is_any_unit(k, end) && items[k].class != SCALEUNIT ? k : 0;
    ordered = place_of(axes[0]);
    for (u32 a = 0; a < n; a++) {
        u32 place = place_of(axes[a]);
        if (!place != !ordered)
            FAIL;
        if (!place)
            place = a + 1;
        if (place > n || at_place[place])
            FAIL;
        at_place[place] = axes[a];
    }
    for (u32 a = 1; a <= n; a++)
        NAME(axis)(at_place[a], *type, shared, a, ordered);
    return shared ? items[shared].next : k;
}

static u32 NAME(tail)(u32 k, u32 end, int vertical)
{
    u32 part[5] = {0}, list[3][MOST], n[3] = {0};
    for (; k < end; k = items[k].next) {
        if (items[k].kind != NODE)
            FAIL;
        int class = items[k].class;
        int set = class == GEOIDMODEL && vertical ? 0 : class == USAGE ? 1 : class == ID ? 2 : 3;
        if (set < 3) {
            if (n[set] == MOST)
                FAIL;
            list[set][n[set]++] = k;
            continue;
        }
        int place = class >= SCOPE && class <= VERTICALEXTENT ? class - SCOPE : class == REMARK ? 4 : 5;
        if (place == 5 || part[place])
            FAIL;
        part[place] = k;
    }
    int bare = part[0] || part[1] || part[2] || part[3];
    for (int set = 0; set < 3; set++) {
        struct span spans[MOST + 1];
        u32 members = 0;
        u8 *start = out;
        for (u32 m = 0; m < n[set] + (set == 1 && bare); m++) {
            PUT(",");
            spans[members].at = (u32)(out - start);
            if (m == n[set])
                NAME(extents)(part[0], part[1], part[2], part[3]);
            else if (set == 1)
                NAME(usage)(list[set][m]);
            else if (set == 2)
                NAME(id)(list[set][m]);
            else {
                PUT("GEOIDMODEL[");
                NAME(named)(list[set][m]);
            }
            spans[members].length = (u32)(out - start) - spans[members].at;
            members++;
        }
        if (WRITES && members > 1)
            sort_members(start, spans, members);
    }
    if (part[4]) {
        PUT(",REMARK[");
        NAME(single)(part[4], TEXT);
    }
    PUT("]");
    return end;
}

static u32 NAME(method)(u32 at)
{
    PUT(",");
    COPY(named_compared(at));
    PUT("METHOD[");
    return NAME(named)(at);
}

static u32 NAME(conversion)(u32 at, u32 end)
{
    if (!is(at, end, CONVERSION))
        FAIL;
    end = items[at].next;
    PUT(",CONVERSION[");
    u32 k = NAME(text)(at + 1, end);
    if (!is(k, end, METHOD))
        FAIL;
    k = NAME(method)(k);
    SET(PARAMETER, NAME(parameter)(k), parameter_compared(k));
    return NAME(ids)(k, end);
}

/* The dimension of the system, ten more where the CRS is geodetic and no geographic one, 0 where something is wrong. */
static u32 NAME(one)(u32 at)
{
    u32 end = items[at].next, k, dimension = 0;
    int class = items[at].class, type = 0;
    u8 *start = out;
    switch (class) {
    case GEODCRS:
    case GEOGCRS:
        PUT("GEODCRS[");
        k = NAME(framed)(at, end, 1);
        break;
    case VERTCRS:
        PUT("VERTCRS[");
        k = NAME(framed)(at, end, 0);
        break;
    case PROJCRS: {
        PUT("PROJCRS[");
        k = NAME(text)(at + 1, end);
        if (!is(k, end, BASE))
            return broken = 1, 0;
        u32 last = items[k].next;
        PUT(",BASEGEOGCRS[");
        u32 inner = NAME(framed)(k, last, 1);
        if (is_unit(inner, last, ANGLEUNIT))
            inner = NAME(unit)(inner, ANGLEUNIT);
        NAME(ids)(inner, last);
        k = NAME(conversion)(last, end);
        break;
    }
    default:
        return broken = 1, 0;
    }
    k = NAME(system)(k, end, &type, &dimension);
    NAME(tail)(k, end, class == VERTCRS);
    if (WRITES && type == ELLIPSOIDAL)
        start[3] = 'G';
    if (!fits(class, type, dimension))
        broken = 1;
    return broken ? 0 : class == GEODCRS && type != ELLIPSOIDAL ? dimension + 10 : dimension;
}

/* Whether the items spell a CRS. */
static int NAME(crs)(void)
{
    if (items[0].class != COMPOUNDCRS)
        return NAME(one)(0) && !broken;
    u32 end = items[0].next;
    PUT("COMPOUNDCRS[");
    u32 k = NAME(text)(1, end);
    if (k >= end || items[k].kind != NODE || items[k].class > PROJCRS)
        return 0;
    PUT(",");
    if (NAME(one)(k) != 2)
        return 0;
    k = items[k].next;
    if (!is(k, end, VERTCRS))
        return 0;
    PUT(",");
    NAME(one)(k);
    NAME(tail)(items[k].next, end, 0);
    return !broken;
}

#endif

#undef COMPARES
#undef WRITES
#undef PUT
#undef FAIL
#undef DIFFERS_IF
#undef COPY
#undef SET
#endif
