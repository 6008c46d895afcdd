/* Compares two libraries call by call over histories of house records.

       calls LIBRARY_A PREFIX_A LIBRARY_B PREFIX_B < histories
       linked < histories

   Both libraries get the same calls, now the one first and now the other. After each the
   four numbers, the returned number and the output bytes must be equal; output past the
   written bytes, the table past 32,768 and the answer past 32 must be untouched, and a
   refused call must alter nothing. Between the history's calls refused ones are tried:
   every slice too short, a table without its mark, sessions far too high, slices that are
   not exactly one record. So are pieces longer than a house record can hold; the
   tables are put back behind them.

   A history's seed is that of the dice too. It says how many calls it made and how often it
   reached what is rare. Exit status 0: all equal; 1: a difference.

   The second form is built with -DLINKED: the independent implementation and the product
   are linked in. */
#ifdef LINKED
#include "../../include/serifladder.h"
#include "../independent/independent.h"
#else
#include <dlfcn.h>
#endif
#include "histories.h"

#include <string.h>

enum {
    TABLE = 32768,
    OUTPUT = 4096,
    ANSWER = 32,
    SPARE = 64, /* room behind each lent slice, filled with MARK */
    PIECE_GREATEST = 140000,
    MARK = 0xA5
};

typedef uint64_t start_call(uint8_t *, size_t, const uint8_t *, size_t, uint8_t *, size_t);
typedef uint64_t session_call(uint8_t *, size_t, uint8_t *, size_t, uint64_t, uint8_t *, size_t);
typedef uint64_t bytes_call(uint8_t *, size_t, uint8_t *, size_t, uint64_t, const uint8_t *, size_t,
                            uint8_t *, size_t);
typedef uint64_t tick_call(uint8_t *, size_t, uint8_t *, size_t, uint8_t *, size_t);
typedef uint64_t record_call(uint8_t *, size_t, uint8_t *, size_t, const uint8_t *, size_t,
                             uint8_t *, size_t);

/* One library and what is lent to it. */
struct side {
    start_call *start;
    session_call *open;
    session_call *hang_up;
    bytes_call *bytes;
    tick_call *tick;
    record_call *record;
    uint8_t table[TABLE + SPARE], table_before[TABLE + SPARE];
    uint8_t output[OUTPUT + SPARE], output_before[OUTPUT + SPARE];
    uint8_t answer[ANSWER + SPARE], answer_before[ANSWER + SPARE];
    uint64_t returned;
};

/* One call, and how long the lent slices are. */
struct call {
    struct asked asked;
    size_t table_length, output_length, answer_length;
};

/* The fullest output of a call, and how often it was as full. */
struct fullest {
    uint64_t written;
    unsigned long times;
};

static struct side sides[2];
static unsigned long history_count, record_count, call_count, refused_count, first_count[2];
static unsigned long unmarked_and_short, lies_low, lies_high, slices_longer, long_pieces;
static struct fullest fullest[CALLS];
static uint32_t dice;

static unsigned roll(unsigned below)
{
    dice = dice * 1664525u + 1013904223u;
    return (dice >> 16) % below;
}

static void different(const struct call *call, const char *why)
{
    static const char *const NAMES[] = { "start", "open", "hang_up", "bytes", "tick", "record" };
    printf("history %lu, record %lu, call %s, session %llu, lengths %zu table, %zu output, %zu given, %zu answer: %s\n",
           history_count, record_count, NAMES[call->asked.what], (unsigned long long)call->asked.session, call->table_length,
           call->output_length, call->asked.given_length, call->answer_length, why);
    for (unsigned i = 0; i < 2; i++) {
        printf("%c returned %llu, answer", 'A' + (int)i, (unsigned long long)sides[i].returned);
        for (unsigned k = 0; k < 4; k++) {
            uint64_t value = 0;
            for (unsigned b = 8; b > 0; b--)
                value = value << 8 | sides[i].answer[8 * k + b - 1];
            printf(" %llu", (unsigned long long)value);
        }
        putchar('\n');
    }
    exit(1);
}

static uint64_t answered(const struct side *side, unsigned which)
{
    uint64_t value = 0;
    for (unsigned b = 8; b > 0; b--)
        value = value << 8 | side->answer[8 * which + b - 1];
    return value;
}

static uint64_t make_call(struct side *side, const struct call *call)
{
    uint8_t *t = side->table, *o = side->output, *a = side->answer;
    size_t tl = call->table_length, ol = call->output_length, al = call->answer_length;
    switch (call->asked.what) {
    case START:
        return side->start(t, tl, call->asked.given, call->asked.given_length, a, al);
    case OPEN:
        return side->open(t, tl, o, ol, call->asked.session, a, al);
    case HANG_UP:
        return side->hang_up(t, tl, o, ol, call->asked.session, a, al);
    case BYTES:
        return side->bytes(t, tl, o, ol, call->asked.session, call->asked.given, call->asked.given_length, a, al);
    case TICK:
        return side->tick(t, tl, o, ol, a, al);
    default:
        return side->record(t, tl, o, ol, call->asked.given, call->asked.given_length, a, al);
    }
}

static bool same(const uint8_t *now, const uint8_t *before, size_t from, size_t size)
{
    return memcmp(now + from, before + from, size - from) == 0;
}

/* What one side may not do, whatever the call. */
static void check_side(const struct side *side, const struct call *call)
{
    if (call->answer_length < ANSWER) {
        if (side->returned != 10)
            different(call, "short answer, but not 10");
        if (!same(side->answer, side->answer_before, 0, sizeof side->answer)
            || !same(side->table, side->table_before, 0, sizeof side->table)
            || !same(side->output, side->output_before, 0, sizeof side->output))
            different(call, "short answer, but something was written");
        return;
    }
    if (!same(side->answer, side->answer_before, ANSWER, sizeof side->answer))
        different(call, "answer past 32 touched");
    if (side->returned != answered(side, 0))
        different(call, "returned and answered number differ");
    bool refused = side->returned != 0;
    if (refused && (answered(side, 1) | answered(side, 2) | answered(side, 3)) != 0)
        different(call, "refused, but consumed, written or taken is not 0");
    if (!same(side->table, side->table_before, refused ? 0 : TABLE, sizeof side->table))
        different(call, refused ? "refused, but the table altered" : "table past 32,768 touched");
    size_t written = refused ? 0 : (size_t)answered(side, 2);
    if (written > OUTPUT)
        different(call, "more written than lent");
    if (!same(side->output, side->output_before, written, sizeof side->output))
        different(call, "output past the written bytes touched");
}

static void remember(struct side *side)
{
    memset(side->answer, MARK, sizeof side->answer);
    memset(side->output, (int)roll(256), sizeof side->output);
    memcpy(side->table_before, side->table, sizeof side->table);
    memcpy(side->output_before, side->output, sizeof side->output);
    memcpy(side->answer_before, side->answer, sizeof side->answer);
}

static void note_written(enum what what, uint64_t written)
{
    if (written > fullest[what].written)
        fullest[what] = (struct fullest){ written, 0 };
    fullest[what].times += written == fullest[what].written;
}

/* The same call on both sides, and all comparisons. Both run on the same stack: the dice say which goes first. */
static uint64_t both(const struct call *call)
{
    unsigned first = roll(2);
    first_count[first] += 1;
    for (unsigned k = 0; k < 2; k++) {
        struct side *side = &sides[first ^ k];
        remember(side);
        side->returned = make_call(side, call);
    }
    for (unsigned i = 0; i < 2; i++)
        check_side(&sides[i], call);
    if (sides[0].returned != sides[1].returned)
        different(call, "numbers differ");
    if (memcmp(sides[0].answer, sides[1].answer, ANSWER) != 0)
        different(call, "answers differ");
    if (sides[0].returned == 0
        && memcmp(sides[0].output, sides[1].output, (size_t)answered(&sides[0], 2)) != 0)
        different(call, "output differs");
    call_count += 1;
    refused_count += sides[0].returned != 0;
    if (sides[0].returned == 0)
        note_written(call->asked.what, answered(&sides[0], 2));
    return sides[0].returned;
}

/* What may be spoilt in a call, one or several. */
enum {
    SPOIL_TABLE = 1,
    SPOIL_MARK = 2,
    SPOIL_OUTPUT = 4,
    SPOIL_SESSION = 8,
    SPOIL_ANSWER = 16,
    SPOIL_GIVEN = 32,
    SPOILS = 6
};

static bool takes_record(enum what what)
{
    return what == START || what == RECORD;
}

static bool surely_refused(unsigned spoil, enum what what)
{
    if (spoil & (SPOIL_TABLE | SPOIL_ANSWER))
        return true;
    if ((spoil & (SPOIL_MARK | SPOIL_OUTPUT)) && what != START)
        return true;
    if ((spoil & SPOIL_SESSION) && (what == OPEN || what == HANG_UP || what == BYTES))
        return true;
    return (spoil & SPOIL_GIVEN) && takes_record(what);
}

/* A copy of the record that is one no more: the slice too short or too long, or a byte of its length altered. */
static void spoil_record(struct call *call)
{
    static uint8_t copy[HEADER + PAYLOAD_GREATEST + SPARE];
    unsigned way = roll(4);
    memset(copy, (int)roll(256), sizeof copy);
    memcpy(copy, call->asked.given, call->asked.given_length);
    call->asked.given = copy;
    if (way == 0) {
        call->asked.given_length = roll((unsigned)call->asked.given_length);
    } else if (way == 1) {
        call->asked.given_length += 1 + roll(SPARE);
        slices_longer += 1;
    } else {
        copy[way - 2] ^= (uint8_t)(1 + roll(255));
        *(way == 2 ? &lies_low : &lies_high) += 1;
    }
}

/* No table is well formed without its mark, which both begin with. */
static void spoil_marks(uint8_t by)
{
    sides[0].table[0] ^= by;
    sides[1].table[0] ^= by;
}

/* Calls that must be refused by what is lent or by their session, tried on the way. */
static void try_refused(struct call call)
{
    static const uint64_t HIGH[] = { 4, 5, 255, 256, UINT64_C(1) << 32, UINT64_MAX };
    unsigned spoil = roll(2) ? 1u << roll(SPOILS) : 1 + roll((1u << SPOILS) - 1);
    if (!surely_refused(spoil, call.asked.what))
        return;
    if (spoil & SPOIL_TABLE)
        call.table_length = roll(2) ? TABLE - 1 : roll(TABLE);
    if (spoil & SPOIL_OUTPUT)
        call.output_length = roll(2) ? OUTPUT - 1 : roll(OUTPUT);
    if (spoil & SPOIL_SESSION)
        call.asked.session = HIGH[roll(6)];
    if (spoil & SPOIL_ANSWER)
        call.answer_length = roll(2) ? ANSWER - 1 : roll(ANSWER);
    if ((spoil & SPOIL_GIVEN) && takes_record(call.asked.what))
        spoil_record(&call);
    uint8_t by = spoil & SPOIL_MARK ? (uint8_t)(1 + roll(255)) : 0;
    spoil_marks(by);
    uint64_t number = both(&call);
    spoil_marks(by);
    if (number == 0)
        different(&call, "a call was done that must be refused");
    unmarked_and_short += number == 2 && call.output_length < OUTPUT;
}

/* A call of the history, sometimes with longer slices than needed. */
static uint64_t history_call(const struct asked *asked)
{
    struct call call = { *asked, TABLE, OUTPUT, ANSWER };
    if (roll(4) == 0)
        try_refused(call);
    if (roll(2) == 0) {
        call.table_length += roll(SPARE);
        call.output_length += roll(SPARE);
        call.answer_length += roll(SPARE);
    }
    return both(&call);
}

/* A run that is longer than a house record can hold, in one piece or two, and a message behind it; then
   both tables are as they were. It begins like a message whose length is the run's, the run's less 10,000
   or 65,536, or 20. */
static void try_long_piece(uint64_t session)
{
    static const unsigned LENGTHS[] = { 9998, 9999, 10000, 10001, 10020, 19999, 65535, 65536, 65556, 75576, 131092 };
    static const unsigned LESS[] = { 0, 10000, 65536 };
    static const char MESSAGE[] = "00209999001         ";
    static uint8_t kept[2][TABLE], run[PIECE_GREATEST];
    unsigned length = LENGTHS[roll(sizeof LENGTHS / sizeof *LENGTHS)], less = LESS[roll(3)];
    unsigned told = roll(2) && less < length ? (length - less) % 10000 : 20;
    unsigned first = roll(2) ? length + 1 : roll(2) ? roll(length) : roll(60);
    for (unsigned i = 0; i < 2; i++)
        memcpy(kept[i], sides[i].table, TABLE);
    memset(run, 'x', length);
    snprintf((char *)run, 5, "%04u", told);
    memcpy(run + 4, MESSAGE + 4, sizeof MESSAGE - 5);
    run[length] = 0;
    struct asked pieces[] = {
        { BYTES, session, (const uint8_t *)"", 1 }, /* ends the run that stands there */
        { BYTES, session, run, first },
        { BYTES, session, run + first, length + 1 - first },
        { BYTES, session, (const uint8_t *)MESSAGE, sizeof MESSAGE },
    };
    for (unsigned k = roll(2); k < sizeof pieces / sizeof *pieces; k++)
        both(&(struct call){ pieces[k], TABLE, OUTPUT, ANSWER });
    for (unsigned i = 0; i < 2; i++)
        memcpy(sides[i].table, kept[i], TABLE);
    long_pieces += first > 10000 || length + 1 - first > 10000;
}

static void receive(uint64_t session, const uint8_t *bytes, size_t length)
{
    size_t at = 0;
    if (roll(100) == 0)
        try_long_piece(session);
    do {
        struct asked rest = { BYTES, session, bytes + at, length - at };
        if (history_call(&rest) != 0)
            return;
        size_t consumed = (size_t)answered(&sides[0], 1);
        if (consumed == 0 && at < length)
            different(&(struct call){ rest, TABLE, OUTPUT, ANSWER }, "nothing consumed");
        at += consumed;
    } while (at < length);
}

/* A whole history: the tables begin as zeros, which are not well formed. */
static void serve_history(const uint8_t *data, size_t size, uint32_t seed)
{
    struct asked asked;
    for (unsigned i = 0; i < 2; i++) {
        memset(sides[i].table, 0, TABLE);
        memset(sides[i].table + TABLE, MARK, SPARE);
    }
    dice = seed * 2654435761u;
    history_count += 1;
    record_count = 0;
    for (size_t at = 0; next_asked(data, size, &at, &asked);) {
        record_count += 1;
        if (asked.what == BYTES)
            receive(asked.session, asked.given, asked.given_length);
        else
            history_call(&asked);
    }
}

static void report(void)
{
    printf("%lu calls of %lu histories equal, %lu of them refused; A ran first in %lu, B in %lu\n", call_count,
           history_count, refused_count, first_count[0], first_count[1]);
    printf("table without its mark and output short %lu, length field lies %lu and in its upper byte %lu,\n"
           "slice longer than its record %lu, a piece of more than 10,000 bytes %lu\n",
           unmarked_and_short, lies_low, lies_high, slices_longer, long_pieces);
    printf("fullest output: received bytes %llu (%lu times), tick %llu (%lu), tool record %llu (%lu)\n",
           (unsigned long long)fullest[BYTES].written, fullest[BYTES].times,
           (unsigned long long)fullest[TICK].written, fullest[TICK].times,
           (unsigned long long)fullest[RECORD].written, fullest[RECORD].times);
}

#ifdef LINKED

#define BIND(side, prefix) \
    ((side)->start = prefix##_start, (side)->open = prefix##_open, \
     (side)->hang_up = prefix##_hang_up, (side)->bytes = prefix##_bytes, \
     (side)->tick = prefix##_tick, (side)->record = prefix##_record)

int main(void)
{
    BIND(&sides[0], independent);
    BIND(&sides[1], serifladder);
    serve_input(serve_history);
    report();
    return 0;
}

#else

/* A function of a library, by prefix and name. */
static void *find(void *library, const char *prefix, const char *name)
{
    char whole[128];
    snprintf(whole, sizeof whole, "%s_%s", prefix, name);
    void *found = dlsym(library, whole);
    if (found == NULL) {
        fprintf(stderr, "no %s in the library\n", whole);
        exit(2);
    }
    return found;
}

static void load(struct side *side, const char *path, const char *prefix)
{
    void *library = dlopen(path, RTLD_NOW | RTLD_LOCAL);
    if (library == NULL) {
        fprintf(stderr, "%s\n", dlerror());
        exit(2);
    }
    *(void **)&side->start = find(library, prefix, "start");
    *(void **)&side->open = find(library, prefix, "open");
    *(void **)&side->hang_up = find(library, prefix, "hang_up");
    *(void **)&side->bytes = find(library, prefix, "bytes");
    *(void **)&side->tick = find(library, prefix, "tick");
    *(void **)&side->record = find(library, prefix, "record");
}

int main(int count, char **arguments)
{
    if (count != 5) {
        fprintf(stderr, "calls LIBRARY_A PREFIX_A LIBRARY_B PREFIX_B < histories\n");
        return 2;
    }
    load(&sides[0], arguments[1], arguments[2]);
    load(&sides[1], arguments[3], arguments[4]);
    serve_input(serve_history);
    report();
    return 0;
}

#endif
