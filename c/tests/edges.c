/* Random calls with arrays of exactly their lengths: a call touches nothing beside them, writes none that it only reads, leaves
 * every array as it was if it is not done, and refuses a wrong length.
 *
 *   edges COUNT SEED           so many calls. Each array ends where a page begins that faults, or begins where one ends; what a
 *                              call only reads can't be written, and around what it writes is a pattern
 *   edges COUNT SEED heap      the same with each array in a block of its own, for those who watch the blocks
 *   edges COUNT SEED calls     prints each call: its number, its name, its result, and a sum over this and its arrays behind it
 *   edges COUNT SEED NUMBER    prints the result of the call of this number, and its arrays behind it
 *
 * A round is of one set. It fills the arrays with random bytes and makes the calls in the order of mldsa.h, so that what one writes
 * is what the next reads, and each has to be done. Behind each come the same and any other of the set, with arrays that are longer,
 * shorter, empty, of another set, changed, or from an earlier round; what these write is not kept. A SEED gives the same calls with
 * each library that answers alike. */
#define _GNU_SOURCE
#include "arrays.h"

#include <signal.h>
#include <sys/mman.h>
#include <unistd.h>

enum { PAGE = 1 << 16, SPACE = (ROOM + PAGE - 1) / PAGE * PAGE, PATTERN = 0xA5, KEPT = 4 };
/* The changed calls behind each call of a round; the ways to change an array, the first of which change its length alone. */
enum { CHANGED = 4, LENGTHS = 4, WAYS = 13 };
enum how { QUIET, ON_HEAP, EACH, ONE };

/* What the arrays hold, and what earlier rounds of each set left in them. */
struct round {
    uint8_t at[ARRAYS][ROOM];
    size_t lengths[ARRAYS];
};
static struct round now, was, earlier[3][KEPT];
static uint8_t *spaces[ARRAYS];
static enum how how;
static int which, made_calls, shown;
/* The call that runs, for what may end the program. */
static char running[64] = "no call";

static void ended(int number)
{
    const char *fault = number == SIGABRT ? " aborts\n" : " touches what it may not\n";
    ssize_t ignored = write(2, running, strlen(running));
    ignored += write(2, fault, strlen(fault));
    _exit(ignored > 0 ? 1 : 2);
}

static void wrong(const char *what, const char *array)
{
    fprintf(stderr, "%s %s %s\n", running, what, array);
    failures++;
}

static void make_spaces(void)
{
    for (int i = 0; i < ARRAYS; i++) {
        uint8_t *all = mmap(NULL, SPACE + 2 * PAGE, PROT_NONE, MAP_PRIVATE | MAP_ANONYMOUS, -1, 0);
        if (all == MAP_FAILED)
            exit(2);
        spaces[i] = all + PAGE;
    }
    signal(SIGSEGV, ended);
    signal(SIGBUS, ended);
    signal(SIGABRT, ended);
}

static void protect(int i, int protection)
{
    if (mprotect(spaces[i], SPACE, protection))
        exit(2);
}

static uint8_t *on_heap(int i)
{
    uint8_t *at = malloc(now.lengths[i]);
    if (!at && now.lengths[i])
        exit(2);
    if (at)
        memcpy(at, now.at[i], now.lengths[i]);
    /* A pointer for no bytes is not null either. */
    return at ? at : now.at[i];
}

/* Puts an array into its space: at its end, or at its begin. */
static uint8_t *put(int i, int is_written)
{
    size_t length = now.lengths[i], from = draw() % 4 ? SPACE - length : 0;
    uint8_t *at;
    if (how == ON_HEAP)
        return on_heap(i);
    at = spaces[i] + from;
    protect(i, PROT_READ | PROT_WRITE);
    if (is_written)
        memset(spaces[i], PATTERN, SPACE);
    memcpy(at, now.at[i], length);
    if (!is_written)
        protect(i, PROT_READ);
    return at;
}

static int is_pattern(const uint8_t *from, const uint8_t *to)
{
    while (from < to && *from == PATTERN)
        from++;
    return from == to;
}

/* Looks at an array behind a call, keeps what is in it, and gives its memory back. */
static void take(int i, uint8_t *at, int may_differ, int is_written)
{
    size_t length = now.lengths[i];
    if (!may_differ && memcmp(at, now.at[i], length))
        wrong("is not done and has written", KINDS[i].name);
    if (how != ON_HEAP && is_written && !(is_pattern(spaces[i], at) && is_pattern(at + length, spaces[i] + SPACE)))
        wrong("has written beside", KINDS[i].name);
    memcpy(now.at[i], at, length);
    if (how == ON_HEAP && at != now.at[i])
        free(at);
}

/* Whether an array has the one length that the call takes, if there is one: DER that is read, and an object identifier, may have
 * any. */
static int fits(int i, int is_written)
{
    const char *name = KINDS[i].name;
    int is_free = !strcmp(name, "oid") || (strstr(name, "_der") && !is_written);
    return is_free || !KINDS[i].lengths[which] || KINDS[i].lengths[which] == now.lengths[i];
}

static uint64_t sum_of(const struct export *call, uint32_t result)
{
    uint64_t sum = 0xCBF29CE484222325 ^ result;
    for (int k = 0; k < call->count; k++)
        for (size_t i = 0; i < now.lengths[call->arrays[k]]; i++)
            sum = (sum ^ now.at[call->arrays[k]][i]) * 0x100000001B3;
    return sum;
}

static void show(const struct export *call, uint32_t result)
{
    printf("result %u\n", result);
    for (int k = 0; k < call->count; k++) {
        int i = call->arrays[k];
        printf("%s ", KINDS[i].name);
        for (size_t at = 0; at < now.lengths[i]; at++)
            printf("%02x", now.at[i][at]);
        printf("\n");
    }
    exit(0);
}

/* Makes a call with what the arrays hold and, if it has a number, with any or with that of the set. Keeps what it wrote, and tells
 * whether it is done. */
static int make(const struct export *call, int is_any)
{
    struct array arrays[ARRAYS] = {0};
    /* (a call whose result for yes is 1 has 0 for all else) */
    uint32_t result, number = (uint32_t)(draw() % 8 ? draw() % 32 : draw()), refusal = call->done ? 0 : MLDSA_WRONG_LENGTH;
    const char *unfit = NULL;
    number = call->is_of_set && !(is_any && number % 2) ? (uint32_t)SETS[which].number : number;
    snprintf(running, sizeof running, "call %d, %s,", ++made_calls, call->name);
    for (int k = 0; k < call->count; k++) {
        int i = call->arrays[k];
        unfit = fits(i, call->written[k]) ? unfit : KINDS[i].name;
        arrays[i] = (struct array){now.lengths[i], put(i, call->written[k])};
    }
    result = call->call(arrays, number);
    for (int k = 0; k < call->count; k++)
        take(call->arrays[k], arrays[call->arrays[k]].at, !result && call->written[k], call->written[k]);
    if (unfit && result != refusal)
        wrong("takes a wrong length of", unfit);
    if (!unfit && result == MLDSA_WRONG_LENGTH)
        wrong("refuses", "lengths that fit");
    if (how == EACH)
        printf("%d %s %u %016llx\n", made_calls, call->name, result, (unsigned long long)sum_of(call, result));
    if (how == ONE && made_calls == shown)
        show(call, result);
    return !call->count || result == call->done;
}

static void fill(int i)
{
    for (size_t k = 0; k < KINDS[i].room; k++)
        now.at[i][k] = (uint8_t)draw();
}

static void copy(struct round *to, const struct round *from, int i)
{
    to->lengths[i] = from->lengths[i];
    memcpy(to->at[i], from->at[i], KINDS[i].room);
}

/* A length of the same array at another set; or of one that may have any, one at the edge of a limit or of a block of SHAKE. */
static size_t another_length(int i)
{
    static const size_t edges[] = {1, 135, 136, 137, 255, 256, 272, 1024, 1025, 2000};
    return KINDS[i].lengths[0] ? KINDS[i].lengths[draw() % 3] : edges[draw() % (sizeof edges / sizeof *edges)];
}

/* Makes each 13 bits of the last three fifths equal ones. A private key ends with t0, whose values have 13 bits each, and with such
 * values signing may take all its attempts. */
static void make_extreme(uint8_t *at, size_t length)
{
    unsigned bit = 0;
    for (size_t back = 0; back < length * 24 / 5; back++) {
        size_t place = 8 * length - 1 - back;
        unsigned mask = 1U << place % 8;
        bit = back % 13 ? bit : draw() % 2;
        at[place / 8] = (uint8_t)(bit ? at[place / 8] | mask : at[place / 8] & ~mask);
    }
}

static void change(int i, uint64_t ways)
{
    uint8_t *at = now.at[i];
    size_t length = now.lengths[i], place = length ? draw() % length : 0;
    switch (draw() % ways) {
    case 0: now.lengths[i] += length < KINDS[i].room; break;
    case 1: now.lengths[i] = length - (length > 0); break;
    case 2: now.lengths[i] = 0; break;
    case 3: now.lengths[i] = another_length(i); break;
    case 4: memset(at, 0, length); break;
    case 5: memset(at, 0xFF, length); break;
    case 6: fill(i); break;
    case 7: at[place] ^= (uint8_t)(1 << draw() % 8); break;
    case 8: at[place] = (uint8_t)draw(); break;
    /* (where DER has its types, lengths and names, of which some are neighbours) */
    case 9: at[draw() % 32] += (uint8_t)(draw() % 5 - 2); break;
    case 10: make_extreme(at, length); break;
    case 11: copy(&now, &earlier[which][draw() % KEPT], i); break;
    default: copy(&now, &earlier[draw() % 3][draw() % KEPT], i);
    }
}

static int is_of_round(const struct export *call)
{
    return !call->set || call->set == SETS[which].number;
}

static const struct export *any_of_round(void)
{
    const struct export *call = &CALLS[draw() % EXPORTS];
    while (!is_of_round(call))
        call = &CALLS[draw() % EXPORTS];
    return call;
}

/* Makes a call with so many changes in these ways to its arrays, and leaves all as it was. */
static void make_changed(const struct export *call, uint64_t changes, uint64_t ways)
{
    for (int k = 0; k < call->count; k++)
        copy(&was, &now, call->arrays[k]);
    for (; changes && call->count; changes--)
        change(call->arrays[draw() % (uint64_t)call->count], ways);
    make(call, 1);
    for (int k = 0; k < call->count; k++)
        copy(&now, &was, call->arrays[k]);
}

static void make_round(int count)
{
    struct array pool[ARRAYS];
    for (int i = 0; i < ARRAYS; i++) {
        fill(i);
        pool[i] = (struct array){length_of(i, which), now.at[i]};
    }
    fit_oid(pool);
    for (int i = 0; i < ARRAYS; i++)
        now.lengths[i] = pool[i].len;
    for (int k = 0; k < EXPORTS && !failures; k++) {
        if (!is_of_round(&CALLS[k]))
            continue;
        for (int i = 0; i < ARRAYS; i++)
            pool[i].len = now.lengths[i];
        fit_texts(pool, &CALLS[k]);
        for (int i = 0; i < ARRAYS; i++)
            now.lengths[i] = pool[i].len;
        if (made_calls < count && !make(&CALLS[k], 0))
            wrong("is not done", "with what the calls before it wrote");
        for (int i = 0; i < CHANGED && made_calls < count && !failures; i++)
            if (i == 0)
                make_changed(&CALLS[k], 1, LENGTHS);
            else
                make_changed(i < CHANGED - 1 ? &CALLS[k] : any_of_round(), (draw() % 8 + 5) / 6, WAYS);
    }
}

int main(int count, char **words)
{
    int calls = count > 2 ? atoi(words[1]) : 0;
    const char *said = count > 3 ? words[3] : "";
    if (!calls)
        return 2;
    state = 0x9E3779B97F4A7C15 * (1 + strtoull(words[2], NULL, 10));
    shown = atoi(said);
    how = shown ? ONE : !strcmp(said, "calls") ? EACH : !strcmp(said, "heap") ? ON_HEAP : QUIET;
    if (how != ON_HEAP)
        make_spaces();
    /* (so that no line is lost where a call ends the program) */
    setvbuf(stdout, NULL, _IOLBF, BUFSIZ);
    for (int round = 0; made_calls < calls && !failures; round++) {
        which = round % 3;
        make_round(calls);
        for (int i = 0; i < ARRAYS; i++)
            copy(&earlier[which][round / 3 % KEPT], &now, i);
    }
    return failures != 0;
}
