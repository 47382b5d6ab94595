/* Hands a catalogue and rules from thread to thread, as crsdesk.h allows it.

       threads lock|atomic|join|unordered

   One thread makes a catalogue and rules, four threads add texts to it, ask it and make forms under them, each in its
   turn, and another thread than the first gives both back. What orders the turns is named: a mutex, a sequentially consistent atomic, or the end of one
   thread before the start of the next. In the end the catalogue must be that which one thread makes of the same texts.

   Under a thread sanitizer a turn that isn't ordered after the one before is seen where memory of the catalogue, which
   another thread allocated, is grown or freed. `unordered` has turns by a relaxed atomic, which order nothing: there the
   sanitizer must speak, else it would see nothing in the other three either.

   The last line is 'N passed, M failed' of the turns, and the status is 0 where M is 0. */
#include <pthread.h>
#include <sched.h>
#include <stdatomic.h>
#include <stdio.h>
#include <stdlib.h>
#include <string.h>

#include <crsdesk.h>

enum { THREADS = 4, TURNS = 400, DATUMS = 50, LENGTH = 200 };

static struct crsdesk_catalogue catalogue, expected;
static struct crsdesk_rules rules;
static unsigned passed;

/* The text of a turn: one of as many CRSs as there are datums, in one of two spellings. */
static size_t text_of(unsigned turn, char text[LENGTH])
{
    const char *metre = turn / DATUMS % 2 ? "1.0" : "1";
    return (size_t)snprintf(text, LENGTH,
                            "VERTCRS[\"H\",VDATUM[\"D%u\"],CS[vertical,1],AXIS[\"h\",up,LENGTHUNIT[\"metre\",%s]]]",
                            turn % DATUMS, metre);
}

static struct crsdesk_standing add(struct crsdesk_catalogue *to, unsigned turn)
{
    char text[LENGTH];
    size_t length = text_of(turn, text);
    return crsdesk_catalogue_add(to, turn, text, length);
}

/* Adds the text of a turn, and asks for its group. */
static void take_turn(unsigned turn)
{
    char text[LENGTH], form[LENGTH];
    struct crsdesk_refusal why;
    size_t length = 0, form_length = 0;
    uint64_t numbers[TURNS];
    size_t count = 0, group = turn % DATUMS + 1;
    struct crsdesk_standing told = add(&catalogue, turn);
    passed += told.code == CRSDESK_OK && told.group == group
              && crsdesk_catalogue_lines(&catalogue, group, numbers, TURNS, &count) == CRSDESK_OK
              && count == turn / DATUMS + 1 && numbers[count - 1] == turn
              && crsdesk_catalogue_text(&catalogue, group, text, LENGTH, &length) == CRSDESK_OK
              && length > 0 && length < LENGTH
              && crsdesk_canon_under(text, length, CRSDESK_FULL, &rules, form, LENGTH, &form_length, &why) == CRSDESK_OK
              && form_length == length - 1 && memcmp(form, "VERTCRS[\"\"", 10) == 0;
}

static pthread_mutex_t lock = PTHREAD_MUTEX_INITIALIZER;
static pthread_cond_t passed_on = PTHREAD_COND_INITIALIZER;
static unsigned locked_turn;
static atomic_uint atomic_turn;

static void *by_lock(void *at)
{
    unsigned self = *(unsigned *)at;
    for (unsigned turn = self; turn < TURNS; turn += THREADS) {
        pthread_mutex_lock(&lock);
        while (locked_turn != turn)
            pthread_cond_wait(&passed_on, &lock);
        take_turn(turn);
        locked_turn++;
        pthread_cond_broadcast(&passed_on);
        pthread_mutex_unlock(&lock);
    }
    return NULL;
}

static void *by_atomic(void *at)
{
    unsigned self = *(unsigned *)at;
    for (unsigned turn = self; turn < TURNS; turn += THREADS) {
        while (atomic_load(&atomic_turn) != turn)
            sched_yield();
        take_turn(turn);
        atomic_store(&atomic_turn, turn + 1);
    }
    return NULL;
}

static void *unordered(void *at)
{
    unsigned self = *(unsigned *)at;
    for (unsigned turn = self; turn < TURNS; turn += THREADS) {
        while (atomic_load_explicit(&atomic_turn, memory_order_relaxed) != turn)
            sched_yield();
        take_turn(turn);
        atomic_store_explicit(&atomic_turn, turn + 1, memory_order_relaxed);
    }
    return NULL;
}

/* A thread of its own for each turn. */
static void *by_join(void *at)
{
    take_turn(*(unsigned *)at);
    return NULL;
}

static pthread_t started(void *(*work)(void *), void *at)
{
    pthread_t thread;
    if (pthread_create(&thread, NULL, work, at) != 0) {
        fputs("no thread\n", stderr);
        exit(2);
    }
    return thread;
}

static void in_turns(void *(*work)(void *))
{
    static unsigned selves[THREADS];
    pthread_t threads[THREADS];
    for (unsigned i = 0; i < THREADS; i++) {
        selves[i] = i;
        threads[i] = started(work, &selves[i]);
    }
    for (unsigned i = 0; i < THREADS; i++)
        pthread_join(threads[i], NULL);
}

static void one_by_one(void)
{
    for (unsigned turn = 0; turn < TURNS; turn++)
        pthread_join(started(by_join, &turn), NULL);
}

static int are_alike(void)
{
    char here[LENGTH], there[LENGTH];
    size_t length = 0, other = 0;
    if (crsdesk_catalogue_groups(&catalogue) != DATUMS || crsdesk_catalogue_groups(&expected) != DATUMS)
        return 0;
    for (size_t group = 1; group <= DATUMS; group++) {
        if (crsdesk_catalogue_text(&catalogue, group, here, LENGTH, &length) != CRSDESK_OK
            || crsdesk_catalogue_text(&expected, group, there, LENGTH, &other) != CRSDESK_OK || length != other
            || memcmp(here, there, length) != 0)
            return 0;
        for (size_t index = 0; index <= TURNS / DATUMS; index++) {
            struct crsdesk_line line = crsdesk_catalogue_line(&catalogue, group, index);
            struct crsdesk_line wanted = crsdesk_catalogue_line(&expected, group, index);
            if (line.code != wanted.code || line.number != wanted.number)
                return 0;
        }
    }
    return 1;
}

/* Looks at the catalogue, and gives it and the rules back. */
static void *give_back(void *at)
{
    *(int *)at = are_alike();
    crsdesk_catalogue_free(&catalogue);
    crsdesk_rules_free(&rules);
    return NULL;
}

int main(int count, char **words)
{
    const char *order = count == 2 ? words[1] : "";
    int alike = 0;
    if (crsdesk_catalogue_new(&catalogue, CRSDESK_FULL) != CRSDESK_OK
        || crsdesk_catalogue_new(&expected, CRSDESK_FULL) != CRSDESK_OK)
        return 1;
    crsdesk_rules_new(&rules);
    if (crsdesk_rules_add(&rules, "UNCOUNTED[crsName]", 18).code != CRSDESK_OK)
        return 1;
    for (unsigned turn = 0; turn < TURNS; turn++)
        add(&expected, turn);
    if (strcmp(order, "lock") == 0)
        in_turns(by_lock);
    else if (strcmp(order, "atomic") == 0)
        in_turns(by_atomic);
    else if (strcmp(order, "unordered") == 0)
        in_turns(unordered);
    else if (strcmp(order, "join") == 0)
        one_by_one();
    else {
        fputs("threads lock|atomic|join|unordered\n", stderr);
        return 2;
    }
    pthread_join(started(give_back, &alike), NULL);
    crsdesk_catalogue_free(&expected);
    printf("%u passed, %u failed\n", alike ? passed : 0, alike ? TURNS - passed : TURNS);
    return alike && passed == TURNS ? 0 : 1;
}
