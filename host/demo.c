/* A simulated tool: it scans the identifier of a body, then tightens its bolts one after the other; a bolt that is not OK is done again.
   Now and then it has a fault. */
#include "host.h"

#include <stdio.h>
#include <stdlib.h>
#include <string.h>
#include <time.h>

enum { BOLTS = 4, ONE_NOT_OK_IN = 8 };

/* Each so many things that it does, and the first soon, so that it is seen. */
enum { FAULT_EACH = 20, FIRST_FAULT = 3 };

/* What a torque, in hundredths of Nm, or an angle, in degrees, is held against; a limit that was never set is SERIFLADDER_NEVER_SET. */
struct window {
    uint32_t least, most, target;
};

#define NO_WINDOW { SERIFLADDER_NEVER_SET, SERIFLADDER_NEVER_SET, SERIFLADDER_NEVER_SET }

/* The programs, by their parameter sets; the bolts of a body take turns with them. The second is torque-only: no angle is wrong there. */
static const struct program {
    unsigned parameter_set;
    struct window torque, angle;
} PROGRAMS[] = {
    { 7, { 2250, 2750, 2500 }, { 70, 110, 90 } },
    { 8, { 2250, 2750, 2500 }, NO_WINDOW },
};

/* A record, as it is filled from its front; a tightening is the longest. */
static struct {
    uint8_t bytes[SERIFLADDER_RECORD_HEADER + 106];
    size_t length;
} record;

static void begin(unsigned record_kind, size_t payload)
{
    put_little(record.bytes, 2, payload);
    put_little(record.bytes + 2, 2, record_kind);
    record.length = SERIFLADDER_RECORD_HEADER;
}

static void add(size_t size, uint64_t number)
{
    put_little(record.bytes + record.length, size, number);
    record.length += size;
}

static void add_text(size_t size, const char *text)
{
    memset(record.bytes + record.length, ' ', size);
    memcpy(record.bytes + record.length, text, strlen(text));
    record.length += size;
}

static void give(void)
{
    char line[ANSWER_LINE];
    tool_record(NULL, record.bytes, record.length, line);
}

static void write_time(char text[TIME_LENGTH + 1], time_t when)
{
    struct tm parts;
    localtime_r(&when, &parts);
    strftime(text, TIME_LENGTH + 1, "%Y-%m-%d:%H:%M:%S", &parts);
}

static unsigned between(unsigned least, unsigned most)
{
    return least + (unsigned)rand() % (most - least + 1);
}

static void fault(void)
{
    static const struct {
        const char *code;
        bool controller_ready, tool_ready;
    } FAULTS[] = { { "E404", true, false }, { "E217", true, true }, { "E501", false, false } };
    unsigned which = between(0, sizeof FAULTS / sizeof FAULTS[0] - 1);
    char now[TIME_LENGTH + 1];
    write_time(now, time(NULL));
    begin(SERIFLADDER_ALARM, CODE_LENGTH + 2 + TIME_LENGTH);
    add_text(CODE_LENGTH, FAULTS[which].code);
    add(1, FAULTS[which].controller_ready);
    add(1, FAULTS[which].tool_ready);
    add_text(TIME_LENGTH, now);
    give();
}

static void scan(unsigned body)
{
    char identifier[NAME_LENGTH + 1];
    snprintf(identifier, sizeof identifier, "BODY %06u", body % 1000000);
    begin(SERIFLADDER_IDENTIFIER, NAME_LENGTH);
    add_text(NAME_LENGTH, identifier);
    give();
}

static bool is_set(uint32_t limit)
{
    return limit != SERIFLADDER_NEVER_SET;
}

/* A status is 0 where the value is low, 1 where it is OK and 2 where it is high: beyond a limit that was set. */
static unsigned status(unsigned value, const struct window *window)
{
    if (is_set(window->least) && value < window->least)
        return 0;
    return is_set(window->most) && value > window->most ? 2 : 1;
}

static void add_window(const struct window *window)
{
    add(4, window->least);
    add(4, window->most);
    add(4, window->target);
}

/* The angle at which the torque is there; without a window any will do, and the bolts are longer. */
static unsigned turned(const struct window *window, bool slips)
{
    if (!is_set(window->least) || !is_set(window->most))
        return between(180, 360);
    return slips ? between(window->most + 1, window->most + 60) : between(window->least + 8, window->most - 8);
}

/* Tightens the bolt that is the next of its batch; true where it is OK. */
static bool tighten(unsigned done)
{
    static char changed[TIME_LENGTH + 1]; /* when the parameter set was last changed: when the demo began */
    const struct program *program = &PROGRAMS[done % (sizeof PROGRAMS / sizeof PROGRAMS[0])];
    char now[TIME_LENGTH + 1];
    bool slips = rand() % ONE_NOT_OK_IN == 0;
    unsigned torque = slips ? between(1200, program->torque.least - 1) : between(program->torque.least + 100, program->torque.most - 100);
    unsigned angle = turned(&program->angle, slips);
    write_time(now, time(NULL));
    if (changed[0] == '\0')
        write_time(changed, time(NULL));
    begin(SERIFLADDER_TIGHTENING, sizeof record.bytes - SERIFLADDER_RECORD_HEADER);
    add_text(NAME_LENGTH, ""); /* the identifier in force */
    add(1, 1);                 /* job */
    add(2, program->parameter_set);
    add(2, BOLTS);
    add(2, slips ? done : done + 1);
    add(1, !slips);
    add(1, status(torque, &program->torque));
    add(1, status(angle, &program->angle));
    add_window(&program->torque);
    add(4, torque);
    add_window(&program->angle);
    add(4, angle);
    add_text(TIME_LENGTH, now);
    add_text(TIME_LENGTH, changed);
    add(1, !slips && done + 1 == BOLTS); /* batch status: 1 where the batch is complete */
    give();
    return !slips;
}

void demo_step(void)
{
    static unsigned body, done = BOLTS, steps;
    if (body == 0)
        srand((unsigned)time(NULL));
    if (steps++ % FAULT_EACH == FIRST_FAULT) {
        fault();
    } else if (done == BOLTS) {
        scan(++body);
        done = 0;
    } else if (tighten(done)) {
        done += 1;
    }
}
