/* The product's library, the independent one and a peer written for speed in one process, on
   the same inputs: how long each kind of call takes, how many instructions it executes, and
   how deep its stack goes.

   A kind of call is a table in a certain state and a few calls from there. Before each
   measurement the table is put back into that state, which is not timed; of all else only the
   upper halves of the vector registers are cleared. A round takes the libraries in turn, many times, and compares the times that one
   measurement in ten stays below, which other work on the machine hardly alters. A ratio
   shown is the median of the rounds, and the spread is that of their middle half, in percent
   of it. Rounds are added until it is 5 % or less, or until there are too many.

   Instructions are counted by the processor's trap flag: while it is set, every instruction
   is followed by a signal, which a handler counts, on a processor as under an emulator. A
   string instruction that repeats itself counts once, as in a processor's own counters. What
   the same calls take of a library that returns at once is taken off.

   The stack is painted: the calls run on a stack of their own, filled with a pattern, and the
   lowest byte that is not the pattern any more shows how deep they went.

       bench               all kinds of call
       bench CALL MOST     one of them, whose ratios to the peer are to be so much at most */
#define _GNU_SOURCE /* the place of an instruction in a signal's context */
#include "../../include/serifladder.h"
#include "../independent/independent.h"
#include "peer.h"

#include <math.h>
#include <signal.h>
#include <stdatomic.h>
#include <stdbool.h>
#include <stdio.h>
#include <stdlib.h>
#include <string.h>
#include <ucontext.h>
#include <x86intrin.h>

enum {
    TABLE = SERIFLADDER_TABLE_SIZE,
    OUTPUT = SERIFLADDER_OUTPUT_SIZE,
    ANSWER = SERIFLADDER_ANSWER_SIZE,
    SESSIONS = SERIFLADDER_SESSIONS,
    KEPT = 64,    /* tightenings, by the controller */
    HELD = 8,     /* results, by a session */
    FLOOD = 8192, /* bytes at once */
    REPEATS = 2001,
    ROUNDS_LEAST = 15,
    ROUNDS_MOST = 201,
    STACK = 1 << 18,
    PATTERN = 0xA5,
    TRAP_FLAG = 0x100
};

static const double STEADY = 5.0, RATIO_MOST = 1.5; /* against the second implementation */
static const double INSTRUCTIONS_MOST = 1.0;        /* the same */
static const long STACK_MOST = 1200;

struct library {
    uint64_t (*start)(uint8_t *, size_t, const uint8_t *, size_t, uint8_t *, size_t);
    uint64_t (*open)(uint8_t *, size_t, uint8_t *, size_t, uint64_t, uint8_t *, size_t);
    uint64_t (*hang_up)(uint8_t *, size_t, uint8_t *, size_t, uint64_t, uint8_t *, size_t);
    uint64_t (*bytes)(uint8_t *, size_t, uint8_t *, size_t, uint64_t, const uint8_t *, size_t,
                      uint8_t *, size_t);
    uint64_t (*tick)(uint8_t *, size_t, uint8_t *, size_t, uint8_t *, size_t);
    uint64_t (*record)(uint8_t *, size_t, uint8_t *, size_t, const uint8_t *, size_t,
                       uint8_t *, size_t);
};

/* A library that returns at once, to see what driving takes. */
static uint64_t nothing_start(uint8_t *t, size_t tl, const uint8_t *g, size_t gl, uint8_t *a, size_t al)
{
    return (void)t, (void)tl, (void)g, (void)gl, (void)a, (void)al, 0;
}

static uint64_t nothing_session(uint8_t *t, size_t tl, uint8_t *o, size_t ol, uint64_t s, uint8_t *a, size_t al)
{
    return (void)t, (void)tl, (void)o, (void)ol, (void)s, (void)a, (void)al, 0;
}

static uint64_t nothing_bytes(uint8_t *t, size_t tl, uint8_t *o, size_t ol, uint64_t s, const uint8_t *g, size_t gl,
                              uint8_t *a, size_t al)
{
    return (void)t, (void)tl, (void)o, (void)ol, (void)s, (void)g, (void)gl, (void)a, (void)al, 0;
}

static uint64_t nothing_tick(uint8_t *t, size_t tl, uint8_t *o, size_t ol, uint8_t *a, size_t al)
{
    return (void)t, (void)tl, (void)o, (void)ol, (void)a, (void)al, 0;
}

static uint64_t nothing_record(uint8_t *t, size_t tl, uint8_t *o, size_t ol, const uint8_t *g, size_t gl, uint8_t *a, size_t al)
{
    return (void)t, (void)tl, (void)o, (void)ol, (void)g, (void)gl, (void)a, (void)al, 0;
}

enum { PRODUCT, INDEPENDENT, PEER, COMPARED, NOTHING = COMPARED, LIBRARY_COUNT };

static const struct library LIBRARIES[LIBRARY_COUNT] = {
    { serifladder_start, serifladder_open, serifladder_hang_up, serifladder_bytes,
      serifladder_tick, serifladder_record },
    { independent_start, independent_open, independent_hang_up, independent_bytes,
      independent_tick, independent_record },
    { peer_start, peer_open, peer_hang_up, peer_bytes, peer_tick, peer_record },
    { nothing_start, nothing_session, nothing_session, nothing_bytes, nothing_tick, nothing_record },
};

static uint8_t table[LIBRARY_COUNT][TABLE], state[LIBRARY_COUNT][TABLE], output[LIBRARY_COUNT][OUTPUT], answer[LIBRARY_COUNT][ANSWER];
static uint64_t worst; /* the greatest number that a call answered */

static void note(uint64_t number)
{
    if (number > worst)
        worst = number;
}

/* ---- what is given to the calls, made before anything is measured */

static uint8_t settings[37] = { 33, 0, 3, 0, 12, 0, 3, 1 }, tightening[110] = { 106, 0, 1, 0 }, tool_alarm[29] = { 25, 0, 5, 0 };
static uint8_t without_limits[sizeof tightening];
static uint8_t flood[FLOOD], message_in_flood[FLOOD];

static const char KEEP_ALIVE[] = "00209999001         ";

static void make_inputs(void)
{
    memset(settings + 8, ' ', 25);
    memcpy(settings + 8, "LINE4", 5);
    memset(tightening + 4, ' ', 25);
    memcpy(tightening + 4, "BODY 4711", 9);
    memcpy(tightening + 71, "2026-11-15:10:20:30", 19);
    memcpy(tightening + 90, "2026-11-14:08:00:00", 19);
    memcpy(without_limits, tightening, sizeof tightening);
    memset(without_limits + 39, 0xff, 12); /* of the torque */
    memset(without_limits + 55, 0xff, 12); /* of the angle */
    memcpy(tool_alarm + 4, "E404\0\1" "2026-11-15:10:20:30", 25);
    memset(flood, 'A', FLOOD);
    memset(message_in_flood, 'A', FLOOD);
    memcpy(message_in_flood, KEEP_ALIVE, sizeof KEEP_ALIVE);
}

/* ---- calls */

static void start(unsigned i)
{
    note(LIBRARIES[i].start(table[i], TABLE, settings, sizeof settings, answer[i], ANSWER));
}

static void open_session(unsigned i, uint64_t session)
{
    note(LIBRARIES[i].open(table[i], TABLE, output[i], OUTPUT, session, answer[i], ANSWER));
}

static void hang_up(unsigned i, uint64_t session)
{
    note(LIBRARIES[i].hang_up(table[i], TABLE, output[i], OUTPUT, session, answer[i], ANSWER));
}

static void receive(unsigned i, uint64_t session, const uint8_t *bytes, size_t length)
{
    note(LIBRARIES[i].bytes(table[i], TABLE, output[i], OUTPUT, session, bytes, length, answer[i], ANSWER));
}

/* A message, with the NUL that ends it. */
#define SEND(i, session, message) receive(i, session, (const uint8_t *)(message), sizeof(message))

static void tick(unsigned i)
{
    note(LIBRARIES[i].tick(table[i], TABLE, output[i], OUTPUT, answer[i], ANSWER));
}

static void record(unsigned i, const uint8_t *given, size_t length)
{
    note(LIBRARIES[i].record(table[i], TABLE, output[i], OUTPUT, given, length, answer[i], ANSWER));
}

static void tighten(unsigned i) { record(i, tightening, sizeof tightening); }
static void tighten_without_limits(unsigned i) { record(i, without_limits, sizeof without_limits); }
static void raise_alarm(unsigned i) { record(i, tool_alarm, sizeof tool_alarm); }

/* ---- the kinds of call: how the table gets into its state, and what is timed */

/* Four sessions, started, each told the same further message. */
static void all_started(unsigned i, const char *then)
{
    start(i);
    for (uint64_t s = 0; s < SESSIONS; s++) {
        open_session(i, s);
        SEND(i, s, "00200001001         ");
        if (then != NULL)
            receive(i, s, (const uint8_t *)then, strlen(then) + 1);
    }
}

static void prepare_closed(unsigned i) { start(i); }
static void prepare_started(unsigned i) { all_started(i, NULL); }
static void prepare_identifiers(unsigned i) { all_started(i, "002000510011        "); }
static void prepare_results(unsigned i) { all_started(i, "002000600011        "); }
static void prepare_alarms(unsigned i) { all_started(i, "002000700011        "); }

/* As many as are kept, numbers 1 to 64; nobody listens. */
static void prepare_kept(unsigned i)
{
    all_started(i, NULL);
    for (unsigned k = 0; k < KEPT; k++)
        tighten(i);
}

/* Four sessions that acknowledge results; so many wait for all of them, the open one counted. */
static void all_hold(unsigned i, unsigned count)
{
    all_started(i, "00200060001         ");
    for (unsigned k = 0; k < count; k++)
        tighten(i);
}

static void prepare_acknowledging(unsigned i) { all_hold(i, 0); }
static void prepare_seven(unsigned i) { all_hold(i, HELD - 1); }
static void prepare_queue(unsigned i) { all_hold(i, HELD); }

/* One session after the other, from `first` on, comes to acknowledge results and is told of eight for which no other has room, the last
   of seven. So as many different ones wait as can, but for one. */
static void each_holds(unsigned i, uint64_t first)
{
    all_started(i, NULL);
    for (uint64_t s = first; s < SESSIONS; s++) {
        SEND(i, s, "00200060001         ");
        for (unsigned k = s + 1 < SESSIONS ? 0 : 1; k < HELD; k++)
            tighten(i);
    }
}

static void prepare_7_wait(unsigned i) { each_holds(i, SESSIONS - 1); }
static void prepare_31_wait(unsigned i) { each_holds(i, 0); }

/* Four sessions, subscribed to results in revisions 1, 2, 5 and 6. */
static void prepare_revisions(unsigned i)
{
    all_started(i, NULL);
    SEND(i, 0, "002000600011        ");
    SEND(i, 1, "002000600021        ");
    SEND(i, 2, "002000600051        ");
    SEND(i, 3, "002000600061        ");
}

/* Copies of what is open now are due at the next tick. */
static void grow_old(unsigned i)
{
    for (unsigned k = 0; k < 19; k++) {
        tick(i);
        for (uint64_t s = 0; s < SESSIONS; s++)
            SEND(i, s, KEEP_ALIVE);
    }
}

/* A result's copy is due on every session. */
static void due(unsigned i, const char *subscription)
{
    all_started(i, subscription);
    tighten(i);
    grow_old(i);
}

static void prepare_due(unsigned i) { due(i, "00200060001         "); }
static void prepare_due_6(unsigned i) { due(i, "00200060006         "); }

/* A copy of each kind, the longest that there are. */
static void prepare_due_all(unsigned i)
{
    all_started(i, "00200051002         ");
    for (uint64_t s = 0; s < SESSIONS; s++) {
        SEND(i, s, "00200060006         ");
        SEND(i, s, "00200070001         ");
    }
    SEND(i, 1, "00290050001         BODY 4712");
    tighten(i);
    raise_alarm(i);
    grow_old(i);
}

static void run_start(unsigned i) { start(i); }

static void run_open_and_hang_up(unsigned i)
{
    open_session(i, 2);
    hang_up(i, 2);
}

static void run_keep_alive(unsigned i) { SEND(i, 1, KEEP_ALIVE); }
static void run_message_in_flood(unsigned i) { receive(i, 1, message_in_flood, FLOOD); }
static void run_flood(unsigned i) { receive(i, 1, flood, FLOOD); }
static void run_acknowledge(unsigned i) { SEND(i, 1, "00200062001         "); }
static void run_download(unsigned i) { SEND(i, 1, "00290050001         BODY 4712"); }
static void run_newest(unsigned i) { SEND(i, 1, "00300064001         0000000000"); }
static void run_oldest(unsigned i) { SEND(i, 1, "00300064001         0000000001"); }
static void run_tick(unsigned i) { tick(i); }
static void run_tighten(unsigned i) { tighten(i); }
static void run_tighten_without_limits(unsigned i) { tighten_without_limits(i); }
static void run_alarm(unsigned i) { raise_alarm(i); }

struct call_kind {
    const char *name;
    void (*prepare)(unsigned);
    void (*run)(unsigned);
    unsigned times; /* that often from one state */
    uint64_t written; /* what the last call writes, as documents 01 and 02 have it */
};

static const struct call_kind CALL_KINDS[] = {
    { "start", prepare_closed, run_start, 8, 0 },
    { "open and hang-up", prepare_closed, run_open_and_hang_up, 8, 0 },
    { "bytes: keep-alive", prepare_started, run_keep_alive, 8, 25 },
    { "bytes: keep-alive, 8 KB behind it", prepare_started, run_message_in_flood, 8, 25 },
    { "bytes: 8 KB without NUL", prepare_started, run_flood, 8, 0 },
    { "bytes: acknowledge that sends the next", prepare_queue, run_acknowledge, 7, 236 },
    { "bytes: acknowledge of the first of eight", prepare_queue, run_acknowledge, 1, 236 },
    { "bytes: 0050 to four subscribers", prepare_identifiers, run_download, 8, 29 + 4 * 50 },
    { "bytes: 0064, the newest of 64 kept", prepare_kept, run_newest, 8, 123 },
    { "bytes: 0064, the oldest of 64 kept", prepare_kept, run_oldest, 8, 123 },
    { "tick, nothing open", prepare_started, run_tick, 12, 0 },
    { "tick, copies due on four sessions", prepare_due, run_tick, 1, 4 * 236 },
    { "tick, copies due on four, revision 6", prepare_due_6, run_tick, 1, 4 * 531 },
    { "tick, copies of three kinds due on four", prepare_due_all, run_tick, 1, 4 * (133 + 531 + 58) },
    { "tool record to four sessions", prepare_results, run_tighten, 8, 4 * 236 },
    { "tool record without limits to four", prepare_results, run_tighten_without_limits, 8, 4 * 236 },
    { "tool record that four hold, none before", prepare_acknowledging, run_tighten, 1, 4 * 236 },
    { "tool record that four hold, behind seven", prepare_seven, run_tighten, 1, 0 },
    { "tool record that one holds, 7 wait", prepare_7_wait, run_tighten, 1, 0 },
    { "tool record that one holds, 31 wait", prepare_31_wait, run_tighten, 1, 0 },
    { "tool record, revisions 1, 2, 5 and 6", prepare_revisions, run_tighten, 8, 236 + 390 + 511 + 531 },
    { "tool record, an alarm to four sessions", prepare_alarms, run_alarm, 8, 4 * 58 },
    { "tool record to nobody, none kept", prepare_started, run_tighten, 8, 0 },
    { "tool record to nobody, 64 kept", prepare_kept, run_tighten, 8, 0 },
};

enum { CALL_KIND_COUNT = sizeof CALL_KINDS / sizeof CALL_KINDS[0] };

/* ---- time */

static int by_size(const void *a, const void *b)
{
    double x = *(const double *)a, y = *(const double *)b;
    return (x > y) - (x < y);
}

static double at_part(double *values, unsigned count, double part)
{
    qsort(values, count, sizeof *values, by_size);
    return values[(unsigned)(part * (count - 1) + 0.5)];
}

/* What other code left in the upper halves of the vector registers would slow down code that does not know them. */
static void clear_upper_halves(void)
{
    if (__builtin_cpu_supports("avx"))
        __asm__ volatile("vzeroupper");
}

static double ticks_of(const struct call_kind *call_kind, unsigned i)
{
    unsigned cpu;
    memcpy(table[i], state[i], TABLE);
    clear_upper_halves();
    _mm_lfence();
    uint64_t began = __rdtsc();
    for (unsigned k = 0; k < call_kind->times; k++)
        call_kind->run(i);
    uint64_t ended = __rdtscp(&cpu);
    _mm_lfence();
    return (double)(ended - began);
}

/* What the measuring itself takes. */
static double overhead(void)
{
    static double taken[REPEATS];
    for (unsigned k = 0; k < REPEATS; k++) {
        unsigned cpu;
        _mm_lfence();
        uint64_t began = __rdtsc();
        uint64_t ended = __rdtscp(&cpu);
        _mm_lfence();
        taken[k] = (double)(ended - began);
    }
    return at_part(taken, REPEATS, 0.5);
}

/* Many measurements for each library, taken in turn; what one in ten of them stays below. */
static void one_round(const struct call_kind *call_kind, double nothing, double quick[COMPARED])
{
    static double taken[COMPARED][REPEATS];
    for (unsigned k = 0; k < REPEATS; k++)
        for (unsigned i = 0; i < COMPARED; i++)
            taken[i][k] = ticks_of(call_kind, i);
    for (unsigned i = 0; i < COMPARED; i++)
        quick[i] = (at_part(taken[i], REPEATS, 0.1) - nothing) / call_kind->times;
}

/* How the product's time stands to another library's, in the rounds so far. */
struct ratio {
    double each[ROUNDS_MOST], median, spread;
};

static void add_round(struct ratio *ratio, unsigned rounds, double ours, double theirs)
{
    static double sorted[ROUNDS_MOST];
    ratio->each[rounds] = ours / theirs;
    memcpy(sorted, ratio->each, (rounds + 1) * sizeof *sorted);
    ratio->median = at_part(sorted, rounds + 1, 0.5);
    ratio->spread = 100 * (at_part(sorted, rounds + 1, 0.75) - at_part(sorted, rounds + 1, 0.25)) / ratio->median;
}

/* ---- instructions */

static uint64_t counted;
static greg_t place_before;

/* An instruction was executed. One that repeats itself leaves the place as it was until it has ended. */
static void count_one(int signal, siginfo_t *info, void *context)
{
    greg_t place = ((const ucontext_t *)context)->uc_mcontext.gregs[REG_RIP];
    (void)signal, (void)info;
    counted += place != place_before;
    place_before = place;
}

static void take_traps(void)
{
    struct sigaction action = { .sa_sigaction = count_one, .sa_flags = SA_SIGINFO };
    if (sigaction(SIGTRAP, &action, NULL) != 0) {
        perror("sigaction");
        exit(2);
    }
}

static uint64_t counted_of(const struct call_kind *call_kind, unsigned i)
{
    memcpy(table[i], state[i], TABLE);
    counted = 0;
    place_before = 0;
    atomic_signal_fence(memory_order_seq_cst);
    __writeeflags(__readeflags() | TRAP_FLAG);
    for (unsigned k = 0; k < call_kind->times; k++)
        call_kind->run(i);
    __writeeflags(__readeflags() & ~(unsigned long long)TRAP_FLAG);
    atomic_signal_fence(memory_order_seq_cst);
    return counted;
}

static double instructions_of(const struct call_kind *call_kind, unsigned i)
{
    return (double)(counted_of(call_kind, i) - counted_of(call_kind, NOTHING)) / call_kind->times;
}

/* ---- stack */

static uint8_t stack[STACK];
static ucontext_t caller, callee;
static void (*to_run)(unsigned);
static unsigned to_run_with;

static void on_painted_stack(void)
{
    if (to_run != NULL)
        to_run(to_run_with);
}

static long depth(void (*run)(unsigned), unsigned i)
{
    memset(stack, PATTERN, sizeof stack);
    getcontext(&callee);
    callee.uc_stack.ss_sp = stack;
    callee.uc_stack.ss_size = sizeof stack;
    callee.uc_link = &caller;
    to_run = run;
    to_run_with = i;
    makecontext(&callee, on_painted_stack, 0);
    swapcontext(&caller, &callee);
    size_t lowest = 0;
    while (lowest < sizeof stack && stack[lowest] == PATTERN)
        lowest += 1;
    return (long)(sizeof stack - lowest);
}

/* ---- all of it */

static uint64_t written(unsigned i)
{
    uint64_t value = 0;
    for (unsigned b = 8; b > 0; b--)
        value = value << 8 | answer[i][16 + b - 1];
    return value;
}

/* What the product's ratios to the peer are to stay below, where that is asked. */
static double peer_most = HUGE_VAL;

/* Puts the tables into the kind's state; ends the program if a call does not do what it should. */
static void prepare(const struct call_kind *call_kind)
{
    worst = 0;
    for (unsigned i = 0; i < COMPARED; i++) {
        call_kind->prepare(i);
        memcpy(state[i], table[i], TABLE);
        for (unsigned k = 0; k < call_kind->times; k++)
            call_kind->run(i);
        if (worst != 0 || written(i) != call_kind->written) {
            printf("%s: library %u answered %llu and wrote %llu bytes\n", call_kind->name, i,
                   (unsigned long long)worst, (unsigned long long)written(i));
            exit(1);
        }
    }
}

static void end_row(bool good)
{
    puts(good ? "" : "  <-- beyond what is asked");
    fflush(stdout);
}

static bool measure_time(const struct call_kind *call_kind, double nothing)
{
    static double times[COMPARED][ROUNDS_MOST];
    static struct ratio independent, peer;
    unsigned rounds = 0;
    double quick[COMPARED];
    prepare(call_kind);
    one_round(call_kind, nothing, quick); /* warms up */
    independent.spread = peer.spread = 100;
    while (rounds < ROUNDS_MOST && (rounds < ROUNDS_LEAST || independent.spread > STEADY || peer.spread > STEADY)) {
        one_round(call_kind, nothing, quick);
        for (unsigned i = 0; i < COMPARED; i++)
            times[i][rounds] = quick[i];
        add_round(&independent, rounds, quick[PRODUCT], quick[INDEPENDENT]);
        add_round(&peer, rounds, quick[PRODUCT], quick[PEER]);
        rounds += 1;
    }
    bool good = independent.median <= RATIO_MOST && independent.spread <= STEADY && peer.median <= peer_most;
    printf("%-40s %8.0f %8.0f %6.2f %5.1f %% %8.0f %6.2f %5.1f %% %6u", call_kind->name, at_part(times[PRODUCT], rounds, 0.5),
           at_part(times[INDEPENDENT], rounds, 0.5), independent.median, independent.spread, at_part(times[PEER], rounds, 0.5),
           peer.median, peer.spread, rounds);
    end_row(good);
    return good;
}

static bool measure_work(const struct call_kind *call_kind, long bare)
{
    double instructions[COMPARED];
    long deep[COMPARED];
    prepare(call_kind);
    for (unsigned i = 0; i < COMPARED; i++) {
        instructions[i] = instructions_of(call_kind, i);
        memcpy(table[i], state[i], TABLE);
        deep[i] = depth(call_kind->run, i) - bare;
    }
    bool good = deep[PRODUCT] <= STACK_MOST && instructions[PRODUCT] <= INSTRUCTIONS_MOST * instructions[INDEPENDENT]
                && instructions[PRODUCT] <= peer_most * instructions[PEER];
    printf("%-40s %8.0f %8.0f %6.2f %8.0f %6.2f %9ld %7ld %7ld", call_kind->name, instructions[PRODUCT], instructions[INDEPENDENT],
           instructions[PRODUCT] / instructions[INDEPENDENT], instructions[PEER], instructions[PRODUCT] / instructions[PEER],
           deep[PRODUCT], deep[INDEPENDENT], deep[PEER]);
    end_row(good);
    return good;
}

static bool measure_times(const struct call_kind *call_kinds, unsigned count)
{
    double nothing = overhead();
    bool good = true;
    printf("cycles of the time stamp counter a call; the product's ratio to the second implementation (at most %.1f) and to the peer,\n"
           "each with the spread of its middle half (the first at most %.0f %%); rounds of %u\n", RATIO_MOST, STEADY, REPEATS);
    printf("%-40s %8s %8s %6s %7s %8s %6s %7s %6s\n", "call", "product", "indep.", "ratio", "spread", "peer", "ratio", "spread",
           "rounds");
    for (unsigned k = 0; k < count; k++)
        good &= measure_time(&call_kinds[k], nothing);
    return good;
}

static bool measure_works(const struct call_kind *call_kinds, unsigned count)
{
    long bare = depth(NULL, 0);
    bool good = true;
    printf("instructions a call, and the product's ratios (to the second implementation at most %.1f);\n"
           "stack in bytes (the product's at most %ld)\n", INSTRUCTIONS_MOST, STACK_MOST);
    printf("%-40s %8s %8s %6s %8s %6s %9s %7s %7s\n", "call", "product", "indep.", "ratio", "peer", "ratio", "stack", "indep.",
           "peer");
    for (unsigned k = 0; k < count; k++)
        good &= measure_work(&call_kinds[k], bare);
    return good;
}

static const struct call_kind *call_kind_named(const char *name)
{
    for (unsigned k = 0; k < CALL_KIND_COUNT; k++)
        if (strcmp(CALL_KINDS[k].name, name) == 0)
            return &CALL_KINDS[k];
    fprintf(stderr, "bench: no call is named %s\n", name);
    exit(2);
}

int main(int argument_count, char **arguments)
{
    const struct call_kind *call_kinds = CALL_KINDS;
    unsigned count = CALL_KIND_COUNT;
    if (argument_count == 3) {
        call_kinds = call_kind_named(arguments[1]);
        count = 1;
        peer_most = atof(arguments[2]);
        printf("the product's ratios to the peer are to be %.1f at most\n", peer_most);
    }
    make_inputs();
    take_traps();
    bool good = measure_times(call_kinds, count);
    good &= measure_works(call_kinds, count);
    printf("bench: %s\n", good ? "all within what is asked" : "NOT all within what is asked");
    return good ? 0 : 1;
}
