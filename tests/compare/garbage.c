/* Tables of garbage that is near: the tables of real histories with a few bytes altered, mostly where the control of a
   session or of the memory stands, and further calls over them. For the independent implementation, to be run under the sanitizers; built
   with -DPREFIX=serifladder for the product.

       garbage < histories

   A call answers 2 exactly where the table is not well formed, by the rule that stands in docs/TABLE.md and, of the
   independent implementation, in tests/README.md; both are said again here. A refused call alters no byte of table or
   output; one that is done leaves the output past its written bytes, and a table that is well formed. Pages that may not
   be touched lie behind all that is lent, and before the table. In a history that is not altered the product's table has one
   copy of each result that waits.

   The product's calls are made over a twin of the table too, which has something else where a table has no meaning: in the
   lanes of sessions that are not started, where the memory keeps nothing, and at the places that no session holds; and what
   waits stands at other places, or at one for each session that holds it. They answer and write the same.

   Exit status 0: all so, and what is to be met was met often enough: a count over its bound in a started, subscribed session
   and in the memory, a revision there that no subscription asks for, both of each kind of notice, a place that is none of the
   32, a place that one session holds twice, a session with such lanes that started, an 0065 out of such a memory, and an 0061
   from such places. */
#define _DEFAULT_SOURCE /* MAP_ANONYMOUS */
#include "../independent/independent.h"

#ifdef PREFIX
#include "../../include/serifladder.h"
#define JOINED(prefix, name) prefix##_##name
#define NAMED(prefix, name) JOINED(prefix, name)
#define independent_start NAMED(PREFIX, start)
#define independent_open NAMED(PREFIX, open)
#define independent_hang_up NAMED(PREFIX, hang_up)
#define independent_bytes NAMED(PREFIX, bytes)
#define independent_tick NAMED(PREFIX, tick)
#define independent_record NAMED(PREFIX, record)
#endif

#include "histories.h"

#include <string.h>
#include <sys/mman.h>

enum {
    TABLE = INDEPENDENT_TABLE_BYTES,
    OUTPUT = INDEPENDENT_OUTPUT_BYTES,
    ANSWER = INDEPENDENT_ANSWER_BYTES,
    SESSIONS = 4,
    KINDS = 3,
    CALLS_ASIDE = 4,
    PAGE = 4096,
    LEAST_OVER = 1000, /* calls over a table with a count of a kind over its bound in a started, subscribed session, or in the memory */
    LEAST_ODD = 1000,  /* calls over one in which such a session has a revision of that kind that no subscription asks for */
    LEAST_NEAR = 5000, /* calls over an altered table that is well formed */
    LEAST_OLD = 300,   /* of these, answered by an 0065 */
    LEAST_TWIN = 100,  /* sessions that started where the twin had other lanes, 0065 where its memory was another, 0061 of what waited
                          elsewhere */
    LEAST_PLACE = 300  /* calls over a table with a place that is none, and over one with a place that a session holds twice */
};

static const unsigned HELD_AT_MOST[KINDS] = { 2, 8, 4 }, REVISION_AT_MOST[KINDS] = { 2, 6, 1 }, KEPT_AT_MOST = 64;

/* ---- where a table's control stands, and which tables are well formed */

/* More kept than may be, or than there were numbers: of neither library is that well formed. */
static bool kept_over_its_bound(const uint8_t *table);

#ifdef PREFIX

enum { USED = 12864, MARK_SIZE = 8, FIRST_SESSION = 11712, SESSION_SIZE = 288, RUN_COUNT = 8, CONTROL_SIZE = 18, SHARED_SIZE = 81 };
enum { LAST = 8, KEPT_COUNT = 12, MEMORY = 1024, KEPT_SIZE = 106 };
enum { RESULTS = 1, SLOTS = 144, FIRST_PLACE = 8192, PLACES = 32, PLACE = 110 };
static const unsigned CONTROL[CONTROL_SIZE] =
    { 0, 1, RUN_COUNT, RUN_COUNT + 1, 56, 57, 58, 64, 128, 129, 130, 136, SLOTS, SLOTS + 3, 160, 161, 162, 168 };
static const unsigned SUBSCRIBED[KINDS] = { 56, 128, 160 }, COUNT[KINDS] = { 58, 130, 162 }, REVISION[KINDS] = { 64, 136, 168 };

/* How many slots of results are looked at: none are where there are more than may be. */
static unsigned slots_held(const uint8_t *session)
{
    return session[COUNT[RESULTS]] <= HELD_AT_MOST[RESULTS] ? session[COUNT[RESULTS]] : 0;
}

static bool places_formed(const uint8_t *session)
{
    for (unsigned slot = 0; slot < slots_held(session); slot++)
        if (session[SLOTS + slot] >= PLACES)
            return false;
    return true;
}

static bool place_held_twice(const uint8_t *session)
{
    for (unsigned slot = 1; slot < slots_held(session); slot++)
        if (memchr(session + SLOTS, session[SLOTS + slot], slot) != NULL)
            return true;
    return false;
}

/* Where only calls wrote the table: is there one copy of each result that waits, whoever waits for it? Two that are held are at one place
   where they have one number, and elsewhere else. */
static bool one_copy_of_each(const uint8_t *table)
{
    uint32_t stands[PLACES] = { 0 }; /* the number of what is held there */
    for (unsigned s = 0; s < SESSIONS; s++) {
        const uint8_t *session = table + FIRST_SESSION + s * SESSION_SIZE;
        for (unsigned slot = 0; session[0] == 2 && slot < slots_held(session); slot++) {
            unsigned place = session[SLOTS + slot];
            stands[place] = four_bytes(table + FIRST_PLACE + place * PLACE + KEPT_SIZE);
            for (unsigned other = 0; other < PLACES; other++)
                if (other != place && stands[other] == stands[place])
                    return false;
        }
        if (session[0] == 2 && place_held_twice(session))
            return false;
    }
    return true;
}

/* A lane begins with form, clock and count. Of a session that is not started they are to be so too, and its places, though they have no
   meaning. Whatever its revision is, it is well formed. */
static bool lane_formed(const uint8_t *lane, unsigned kind)
{
    return lane[0] <= 2 && lane[1] <= 119 && lane[2] <= HELD_AT_MOST[kind];
}

static bool session_formed(const uint8_t *session)
{
    if (session[0] > 2 || session[1] > 14 || session[RUN_COUNT] + 256 * session[RUN_COUNT + 1] > 10000)
        return false;
    for (unsigned kind = 0; kind < KINDS; kind++)
        if (!lane_formed(session + SUBSCRIBED[kind], kind))
            return false;
    return places_formed(session);
}

static bool shared_formed(const uint8_t *table)
{
    return memcmp(table, "SERIFLA4", MARK_SIZE) == 0 && !kept_over_its_bound(table);
}

static void alter(uint8_t *from, const uint8_t *to, unsigned (*any_below)(unsigned))
{
    memset(from, (int)any_below(256), (size_t)(to - from));
}

/* Something else behind the control, where the numbers stand that are not kept, and behind the last of these. */
static void alter_memory(uint8_t *table, unsigned (*any_below)(unsigned))
{
    uint8_t *memory = table + MEMORY;
    alter(table + KEPT_COUNT + 1, table + 16, any_below);
    alter(table + 49, table + 56, any_below);
    alter(table + SHARED_SIZE, memory, any_below);
    for (unsigned kept = 0; kept < KEPT_AT_MOST; kept++) {
        unsigned age = (four_bytes(table + LAST) - kept) % KEPT_AT_MOST;
        if (age >= table[KEPT_COUNT])
            alter(memory + kept * KEPT_SIZE, memory + (kept + 1) * KEPT_SIZE, any_below);
    }
    alter(memory + KEPT_AT_MOST * KEPT_SIZE, table + FIRST_PLACE, any_below);
}

/* Other places for all that waits for a session that is started, in any order; mostly a place for each session that holds it, else one
   for those that held the same. Something else at the places that are left. */
static void alter_places(uint8_t *table, unsigned (*any_below)(unsigned))
{
    static uint8_t before[PLACES * PLACE];
    uint8_t order[PLACES], moved_to[PLACES], *places = table + FIRST_PLACE;
    bool shared = any_below(4) == 0;
    unsigned used = 0;
    for (unsigned place = 0; place < PLACES; place++) {
        unsigned other = any_below(place + 1);
        order[place] = order[other];
        order[other] = (uint8_t)place;
    }
    memset(moved_to, PLACES, sizeof moved_to);
    memcpy(before, places, sizeof before);
    memset(places, (int)any_below(256), sizeof before);
    for (unsigned s = 0; s < SESSIONS; s++) {
        uint8_t *session = table + FIRST_SESSION + s * SESSION_SIZE;
        for (unsigned slot = 0; session[0] == 2 && slot < slots_held(session); slot++) {
            uint8_t place = session[SLOTS + slot];
            if (!shared || moved_to[place] == PLACES)
                moved_to[place] = order[used++];
            memcpy(places + moved_to[place] * PLACE, before + place * PLACE, PLACE);
            session[SLOTS + slot] = moved_to[place];
        }
    }
}

/* Other lanes, well formed, for sessions that are not started. */
static void alter_lanes(uint8_t *session, unsigned (*any_below)(unsigned))
{
    if (session[0] == 2)
        return;
    memset(session + SUBSCRIBED[0], (int)any_below(256), SESSION_SIZE - SUBSCRIBED[0]);
    for (unsigned kind = 0; kind < KINDS; kind++) {
        uint8_t *lane = session + SUBSCRIBED[kind];
        lane[0] = (uint8_t)any_below(3);
        lane[1] = (uint8_t)any_below(120);
        lane[2] = (uint8_t)any_below(HELD_AT_MOST[kind] + 1);
    }
    for (unsigned slot = 0; slot < HELD_AT_MOST[RESULTS]; slot++)
        session[SLOTS + slot] = (uint8_t)any_below(PLACES);
}

/* A place at an edge for what waits, or that of another which waits; false where nothing does. */
static bool spoil_place(uint8_t *session, unsigned (*any_below)(unsigned))
{
    static const uint8_t EDGES[] = { 0, 1, 30, 31, 32, 33, 64, 255 };
    unsigned held = slots_held(session);
    if (held == 0)
        return false;
    uint8_t other = session[SLOTS + any_below(held)];
    session[SLOTS + any_below(held)] = any_below(2) ? other : EDGES[any_below(sizeof EDGES)];
    return true;
}

#else

static bool spoil_place(uint8_t *session, unsigned (*any_below)(unsigned)) { return (void)session, (void)any_below, false; }
static bool places_formed(const uint8_t *session) { return (void)session, true; }
static bool place_held_twice(const uint8_t *session) { return (void)session, false; }
static bool one_copy_of_each(const uint8_t *table) { return (void)table, true; }

enum { USED = 14076, MARK_SIZE = 8, FIRST_SESSION = 66, SESSION_SIZE = 1934, RUN_COUNT = 2, CONTROL_SIZE = 19, SHARED_SIZE = 66 };
enum { LAST = 37, KEPT_COUNT = 7802, OLDEST = 7803, MEMORY = 7804, KEPT_SIZE = 98 };
enum { TEXT = 25 };
static const unsigned CONTROL[CONTROL_SIZE] =
    { 0, 1, RUN_COUNT, RUN_COUNT + 1, 49, 50, 51, 52, 53, 54, 55, 56, 57, 58, 59, 60, 61, 62, 63 };
static const unsigned SUBSCRIBED[KINDS] = { 49, 54, 59 }, COUNT[KINDS] = { 52, 57, 62 }, REVISION[KINDS] = { 51, 56, 61 };
static const unsigned NOTICES[KINDS] = { 64, 114, 1802 }, NOTICE[KINDS] = { TEXT, 211, 33 }; /* where they begin, and the bytes of one */

static bool is_text(const uint8_t *bytes, size_t count)
{
    for (size_t i = 0; i < count; i++)
        if (bytes[i] < ' ' || bytes[i] > '~')
            return false;
    return true;
}

/* Of a kind: subscribed, free, revision, count and clock. */
static bool subscription_formed(const uint8_t *part, unsigned kind, bool started)
{
    if (part[0] > 1 || part[1] > 1 || part[3] > HELD_AT_MOST[kind] || part[4] > 119)
        return false;
    if (part[0] == 0)
        return part[1] == 0 && part[2] == 0 && part[3] == 0 && part[4] == 0;
    return started && part[2] >= 1 && part[2] <= REVISION_AT_MOST[kind] && (part[1] == 0 || part[3] == 0)
        && (part[3] > 0 || part[4] == 0);
}

static bool session_formed(const uint8_t *session)
{
    unsigned run = session[RUN_COUNT] + 256u * session[RUN_COUNT + 1], kept = run < 45 ? run : 45;
    if (session[0] > 2 || session[1] > 14 || run > 10000 || memchr(session + 4, 0, kept) != NULL)
        return false;
    if (session[0] == 0 && (session[1] > 0 || run > 0))
        return false;
    for (unsigned kind = 0; kind < KINDS; kind++)
        if (!subscription_formed(session + SUBSCRIBED[kind], kind, session[0] == 2)
            || !is_text(session + NOTICES[kind], NOTICE[kind] * session[COUNT[kind]]))
            return false;
    return true;
}

/* Until all places are used the oldest stands in the first. */
static bool memory_formed(const uint8_t *table)
{
    return !kept_over_its_bound(table) && table[OLDEST] < KEPT_AT_MOST
        && (table[OLDEST] == 0 || table[KEPT_COUNT] == KEPT_AT_MOST) && is_text(table + MEMORY, KEPT_SIZE * table[KEPT_COUNT]);
}

static bool shared_formed(const uint8_t *table)
{
    return memcmp(table, "op-indep", MARK_SIZE) == 0 && memory_formed(table) && table[8] + 256 * table[9] <= 9999 && table[10] <= 99
        && table[11] <= 1 && is_text(table + 12, TEXT) && is_text(table + 41, TEXT);
}

#endif

static bool kept_over_its_bound(const uint8_t *table)
{
    return table[KEPT_COUNT] > KEPT_AT_MOST || table[KEPT_COUNT] > four_bytes(table + LAST);
}

static bool table_formed(const uint8_t *table)
{
    for (unsigned s = 0; s < SESSIONS; s++)
        if (!session_formed(table + FIRST_SESSION + s * SESSION_SIZE))
            return false;
    return shared_formed(table);
}

static bool count_over_its_bound(const uint8_t *table, unsigned kind)
{
    for (unsigned s = 0; s < SESSIONS; s++) {
        const uint8_t *session = table + FIRST_SESSION + s * SESSION_SIZE;
        if (session[0] == 2 && session[SUBSCRIBED[kind]] != 0 && session[COUNT[kind]] > HELD_AT_MOST[kind])
            return true;
    }
    return false;
}

static bool revision_odd(const uint8_t *table, unsigned kind)
{
    for (unsigned s = 0; s < SESSIONS; s++) {
        const uint8_t *session = table + FIRST_SESSION + s * SESSION_SIZE, revision = session[REVISION[kind]];
        if (session[0] == 2 && session[SUBSCRIBED[kind]] != 0 && (revision < 1 || revision > REVISION_AT_MOST[kind]))
            return true;
    }
    return false;
}

/* Is it so of a session that is started and acknowledges results? */
static bool place_so(const uint8_t *table, bool (*is_so)(const uint8_t *))
{
    for (unsigned s = 0; s < SESSIONS; s++) {
        const uint8_t *session = table + FIRST_SESSION + s * SESSION_SIZE;
        if (session[0] == 2 && session[SUBSCRIBED[1]] == 2 && is_so(session))
            return true;
    }
    return false;
}

static bool place_is_none(const uint8_t *session)
{
    return !places_formed(session);
}

/* ---- the calls */

static uint8_t *table, *output, *answer, *given; /* what is lent */
static uint8_t before[TABLE], output_before[OUTPUT], kept[TABLE];
static uint64_t dice;
static unsigned long numbers[11], aside_count, over_count[KINDS], kept_over_count, odd_count[KINDS], near_count, old_count;
static unsigned long none_count, twice_count;

static unsigned roll(unsigned below)
{
    dice ^= dice << 13;
    dice ^= dice >> 7;
    dice ^= dice << 17;
    return (unsigned)(dice >> 33) % below;
}

/* As many bytes, with a page that may not be touched behind them, and one before the page that they begin in. */
static uint8_t *fenced(size_t size)
{
    size_t room = (size + PAGE - 1) / PAGE * PAGE;
    uint8_t *pages = mmap(NULL, room + 2 * PAGE, PROT_NONE, MAP_PRIVATE | MAP_ANONYMOUS, -1, 0);
    if (pages == MAP_FAILED || mprotect(pages + PAGE, room, PROT_READ | PROT_WRITE) != 0) {
        perror("mmap");
        exit(2);
    }
    return pages + PAGE + room - size;
}

static void wrong(const char *why, uint64_t number)
{
    printf("garbage: answered %u: %s\n", (unsigned)number, why);
    exit(1);
}

static uint64_t answered(unsigned which)
{
    uint64_t value = 0;
    for (unsigned b = 8; b > 0; b--)
        value = value << 8 | answer[8 * which + b - 1];
    return value;
}

/* Did the call send an 0065? It is the reply to a message, and alone. */
static bool sent_old_result(void)
{
    return answered(2) == 4 + 119 && memcmp(output + 4, "01180065", 8) == 0;
}

static uint64_t make_call(const struct asked *asked)
{
    uint8_t *slice = given + 2 * PAYLOAD_GREATEST - asked->given_length;
    if (asked->given_length > 0)
        memcpy(slice, asked->given, asked->given_length);
    switch (asked->what) {
    case START:
        return independent_start(table, TABLE, slice, asked->given_length, answer, ANSWER);
    case OPEN:
        return independent_open(table, TABLE, output, OUTPUT, asked->session, answer, ANSWER);
    case HANG_UP:
        return independent_hang_up(table, TABLE, output, OUTPUT, asked->session, answer, ANSWER);
    case BYTES:
        return independent_bytes(table, TABLE, output, OUTPUT, asked->session, slice, asked->given_length, answer, ANSWER);
    case TICK:
        return independent_tick(table, TABLE, output, OUTPUT, answer, ANSWER);
    default:
        return independent_record(table, TABLE, output, OUTPUT, slice, asked->given_length, answer, ANSWER);
    }
}

/* A call, and whether it kept to what stands above. */
static void checked_call(const struct asked *asked)
{
    bool formed = asked->what == START || table_formed(table);
    memcpy(before, table, TABLE);
    memset(output, (int)roll(256), OUTPUT);
    memcpy(output_before, output, OUTPUT);
    uint64_t number = make_call(asked);
    if (number > 9 || number != answered(0))
        wrong("not one of the numbers, or not the one returned", number);
    if ((number == 2) == formed)
        wrong(formed ? "but the table is well formed" : "but the table is not well formed", number);
    numbers[number] += 1;
    uint64_t written = answered(2);
    if (number != 0 && (memcmp(table, before, TABLE) != 0 || (answered(1) | written | answered(3)) != 0))
        wrong("refused, but the table altered, or the answer not 0", number);
    if (written > OUTPUT || memcmp(output + written, output_before + written, OUTPUT - written) != 0)
        wrong("output past the written bytes altered", number);
    if (number == 0 && !table_formed(table))
        wrong("the table is left not well formed", number);
}

/* ---- garbage */

/* An 0064 for the newest, for a number about those that may be kept, or for one in which a byte is no digit; of a session
   that is started, where there is one. */
static struct asked a_fetch(void)
{
    static char text[] = "00300064            0000000000";
    uint64_t session = roll(SESSIONS);
    for (unsigned i = 0; i < SESSIONS && table[FIRST_SESSION + session * SESSION_SIZE] != 2; i++)
        session = (session + 1) % SESSIONS;
    uint64_t number = (uint64_t)four_bytes(table + LAST) + 1 - roll(67);
    snprintf(text + 20, sizeof text - 20, "%010llu", roll(4) && number < UINT64_C(10000000000) ? (unsigned long long)number : 0);
    if (roll(8) == 0)
        text[20 + roll(10)] = ' ';
    return (struct asked){ BYTES, session, (const uint8_t *)text, sizeof text };
}

/* To a session that is opened and not started often the one that starts it. */
static struct asked a_message(uint64_t session)
{
    static const char *const MESSAGES[] = {
        "00200001001         ", "00200051002         ", "002000600010        ", "002000600060        ",
        "00200062            ", "00200053            ", "00209999            ", "002000700010        ", "00200072            ",
        "00300050            ABCDEFGHIJ", "00200003            ", "00200063            ", "00200073            ", "0020",
    };
    bool starts = table[FIRST_SESSION + session * SESSION_SIZE] == 1 && roll(4) > 0;
    const char *text = MESSAGES[starts ? 0 : roll(sizeof MESSAGES / sizeof *MESSAGES)];
    return (struct asked){ BYTES, session, (const uint8_t *)text, strlen(text) + (starts || roll(2)) };
}

/* Each of its limits is 0 or none. */
static struct asked a_tightening(void)
{
    static const unsigned LIMITS[] = { 39, 43, 47, 55, 59, 63 };
    static uint8_t record[110] = { 106, 0, 1, 0 };
    for (unsigned i = 0; i < sizeof LIMITS / sizeof *LIMITS; i++)
        memset(record + LIMITS[i], roll(2) ? 0xff : 0, 4);
    memset(record + 4, ' ', 25);
    memcpy(record + 71, "2024-01-02:03:04:05", 19);
    memcpy(record + 90, "2024-01-02:03:04:05", 19);
    return (struct asked){ RECORD, 0, record, sizeof record };
}

static struct asked a_scan(void)
{
    static uint8_t record[29] = { 25, 0, 2, 0 };
    memset(record + 4, 'i', 25);
    return (struct asked){ RECORD, 0, record, sizeof record };
}

static struct asked an_alarm(void)
{
    static uint8_t record[29] = { 25, 0, 5, 0, 'E', '4', '0', '4', 1, 0 };
    memcpy(record + 10, "2024-01-02:03:04:05", 19);
    return (struct asked){ RECORD, 0, record, sizeof record };
}

static struct asked any_call(void)
{
    uint64_t session = roll(4);
    switch (roll(12)) {
    case 0:
        return (struct asked){ OPEN, session, NULL, 0 };
    case 1:
        return (struct asked){ HANG_UP, session, NULL, 0 };
    case 2:
        return a_tightening();
    case 3:
        return a_scan();
    case 4:
        return an_alarm();
    case 5:
    case 6:
        return a_fetch();
    case 7:
    case 8:
        return (struct asked){ TICK, 0, NULL, 0 };
    default:
        return a_message(session);
    }
}

/* A run that is being received, of a length at an edge. */
static void spoil_run(uint8_t *session)
{
    static const unsigned LENGTHS[] = { 0, 1, 44, 45, 46, 9999, 10000, 10001, 65535 };
    unsigned length = LENGTHS[roll(sizeof LENGTHS / sizeof *LENGTHS)];
    session[RUN_COUNT] = (uint8_t)(length & 255);
    session[RUN_COUNT + 1] = (uint8_t)(length >> 8);
    memset(session + RUN_COUNT + 2, 'x', 45);
    if (roll(4) == 0)
        session[RUN_COUNT + 2 + roll(45)] = 0;
}

/* A revision of a kind at an edge, mostly one of results, which have the most. */
static void spoil_revision(uint8_t *session)
{
    static const uint8_t REVISIONS[] = { 0, 1, 2, 3, 4, 5, 6, 7, 8, 255 };
    session[REVISION[roll(2) ? 1 : roll(KINDS)]] = REVISIONS[roll(sizeof REVISIONS)];
}

/* A count of the memory at an edge, or what stands behind it (the independent one's place of the oldest), or a last number that
   may be below it. */
static void spoil_memory(void)
{
    static const uint8_t COUNTS[] = { 0, 1, 2, 7, 62, 63, 64, 64, 65, 66, 128, 255 };
    table[KEPT_COUNT + roll(2)] = COUNTS[roll(sizeof COUNTS)];
    if (roll(3) == 0) {
        memset(table + LAST, 0, 4);
        table[LAST] = roll(2) ? table[KEPT_COUNT] : (uint8_t)(table[KEPT_COUNT] - 1 + roll(3));
    }
}

/* Another value for a byte: near its own, at an edge of what controls and texts hold, or any. */
static uint8_t another(uint8_t byte)
{
    static const uint8_t EDGES[] = { 0, 1, 2, 3, 4, 5, 6, 7, 8, 9, 14, 15, 16, 17, 31, 32, 39, 40, 63, 64, 65, 99, 100, 119, 120, 126, 127,
                                     255 };
    switch (roll(4)) {
    case 0:
        return (uint8_t)roll(256);
    case 1:
        return EDGES[roll(sizeof EDGES)];
    default:
        return (uint8_t)(byte + roll(8) - 3);
    }
}

/* Mostly a byte of a session's control; else one of what all share, the memory's control, a run, a revision, the place of a result, or
   any byte that is used; seldom everything, or everything but the mark. */
static void spoil(void)
{
    unsigned sort = roll(200);
    if (sort < 2) {
        for (unsigned i = sort ? MARK_SIZE : 0; i < USED; i++)
            table[i] = (uint8_t)roll(256);
        return;
    }
    for (unsigned i = roll(3) + 1; i > 0; i--) {
        uint8_t *session = table + FIRST_SESSION + roll(SESSIONS) * SESSION_SIZE;
        unsigned where = roll(15);
        uint8_t *byte = where == 0 ? table + roll(USED) : where == 1 ? table + roll(SHARED_SIZE) : session + CONTROL[roll(CONTROL_SIZE)];
        if (where == 2)
            spoil_run(session);
        else if (where == 3 || where == 4)
            spoil_memory();
        else if (where == 5)
            spoil_revision(session);
        else if (where != 6 || !spoil_place(session, roll))
            *byte = another(*byte);
    }
}

#ifdef PREFIX

static uint8_t twin[TABLE], with_twin[OUTPUT], answer_before[ANSWER];
static bool twin_stands;
static unsigned long twin_starts, twin_fetches, twin_results;

static void swap_twin(void)
{
    static uint8_t other[TABLE];
    memcpy(other, table, TABLE);
    memcpy(table, twin, TABLE);
    memcpy(twin, other, TABLE);
}

/* The table's twin, where it is well formed. */
static void begin_twin(void)
{
    twin_stands = table_formed(table);
    memcpy(twin, table, TABLE);
    if (!twin_stands)
        return;
    for (unsigned s = 0; s < SESSIONS; s++)
        alter_lanes(twin + FIRST_SESSION + s * SESSION_SIZE, roll);
    alter_memory(twin, roll);
    alter_places(twin, roll);
}

/* Did the call send a result that had waited, or one once more? */
static bool sent_waiting_result(const struct asked *asked)
{
    for (uint64_t at = 0; asked->what != RECORD && at + 4 < answered(2); at += 4 + output[at] + 256u * output[at + 1])
        if (memcmp(output + at + 8, "0061", 4) == 0)
            return true;
    return false;
}

/* The call that was made over the table, over its twin. */
static void call_twin(const struct asked *asked)
{
    if (!twin_stands)
        return;
    for (unsigned s = 0; s < SESSIONS; s++)
        twin_starts += twin[FIRST_SESSION + s * SESSION_SIZE] == 1 && table[FIRST_SESSION + s * SESSION_SIZE] == 2;
    twin_fetches += sent_old_result();
    twin_results += sent_waiting_result(asked);
    memcpy(with_twin, output, OUTPUT);
    memcpy(answer_before, answer, ANSWER);
    memcpy(output, output_before, OUTPUT);
    swap_twin();
    uint64_t number = make_call(asked);
    if (memcmp(answer, answer_before, ANSWER) != 0 || memcmp(output, with_twin, OUTPUT) != 0)
        wrong("otherwise where the lanes of a session that is not started, what keeps nothing, or the places are others", number);
    swap_twin();
}

static bool twins_enough(void)
{
    printf("garbage: %lu sessions started where a twin of the table had other lanes, %lu 0065 sent where its memory was another,\n"
           "%lu times an 0061 of what waited at another place there; %lu calls over a place that is none, %lu over one held twice\n",
           twin_starts, twin_fetches, twin_results, none_count, twice_count);
    return twin_starts >= LEAST_TWIN && twin_fetches >= LEAST_TWIN && twin_results >= LEAST_TWIN && none_count >= LEAST_PLACE
        && twice_count >= LEAST_PLACE;
}

#else

static void begin_twin(void) {}
static void call_twin(const struct asked *asked) { (void)asked; }
static bool twins_enough(void) { return true; }

#endif

/* Calls over the spoilt table, which afterwards is as it was. */
static void aside(const struct asked *asked)
{
    memcpy(kept, table, TABLE);
    spoil();
    begin_twin();
    for (unsigned i = 0; i < CALLS_ASIDE; i++) {
        struct asked call = i == 0 && asked->what != START ? *asked : any_call();
        for (unsigned kind = 0; kind < KINDS; kind++) {
            over_count[kind] += count_over_its_bound(table, kind);
            odd_count[kind] += revision_odd(table, kind);
        }
        kept_over_count += kept_over_its_bound(table);
        near_count += table_formed(table);
        none_count += place_so(table, place_is_none);
        twice_count += table_formed(table) && place_so(table, place_held_twice);
        aside_count += 1;
        checked_call(&call);
        old_count += sent_old_result();
        call_twin(&call);
    }
    memcpy(table, kept, TABLE);
}

static void serve_history(const uint8_t *data, size_t size, uint32_t seed)
{
    struct asked asked;
    dice = seed * 2654435761u + 88172645463325252u;
    memset(table, 0, TABLE);
    for (size_t at = 0; next_asked(data, size, &at, &asked);) {
        checked_call(&asked);
        if (!one_copy_of_each(table))
            wrong("a result that waits has no copy or two", answered(0));
        if (roll(2))
            aside(&asked);
    }
}

static bool kinds_enough(void)
{
    static const char *const NAMES[KINDS] = { "identifiers", "results", "alarms" };
    bool enough = true;
    for (unsigned kind = 0; kind < KINDS; kind++) {
        printf("garbage: of %s, in a started, subscribed session: %lu calls over a count above its bound,\n"
               "%lu over a revision that nobody asks for\n", NAMES[kind], over_count[kind], odd_count[kind]);
        enough = enough && over_count[kind] >= LEAST_OVER && odd_count[kind] >= LEAST_ODD;
    }
    return enough;
}

int main(void)
{
    table = fenced(TABLE);
    output = fenced(OUTPUT);
    answer = fenced(ANSWER);
    given = fenced(2 * PAYLOAD_GREATEST);
    serve_input(serve_history);
    printf("garbage: %lu calls over altered tables: %lu of them well formed, %lu with a count over its bound in the memory,\n"
           "%lu answered by an 0065; in all %lu done, %lu answered 2, %lu answered 5 or 6, no crash\n",
           aside_count, near_count, kept_over_count, old_count, numbers[0], numbers[2], numbers[5] + numbers[6]);
    bool enough = kinds_enough();
    return !twins_enough() || !enough || kept_over_count < LEAST_OVER || near_count < LEAST_NEAR || old_count < LEAST_OLD;
}
