/* A journal given to the library again: the calls that its records stand for, as the test program replay makes them. */
#include "host.h"

#include <errno.h>
#include <string.h>
#include <unistd.h>

static uint8_t *lent_table;
static const struct listener *listener;
static uint8_t output[SERIFLADDER_OUTPUT_SIZE], answer_bytes[SERIFLADDER_ANSWER_SIZE];

#define LENT lent_table, SERIFLADDER_TABLE_SIZE, output, sizeof output
#define ANSWER answer_bytes, sizeof answer_bytes

static struct answer answered(void)
{
    struct answer answer = read_answer(answer_bytes);
    if (listener != NULL)
        listener->answered(&answer, output);
    return answer;
}

/* One call at least, and with what is left again until nothing is, or a call is refused. */
static void replay_bytes(unsigned session, const uint8_t *bytes, size_t length)
{
    struct answer answer;
    do {
        serifladder_bytes(LENT, session, bytes, length, ANSWER);
        answer = answered();
        bytes += answer.consumed;
        length -= (size_t)answer.consumed;
    } while (answer.number == SERIFLADDER_DONE && length > 0);
}

static void replay_record(const uint8_t *record, size_t length)
{
    unsigned record_kind = (unsigned)little(record + 2, 2);
    if (record_kind >= JOURNAL_BYTES && record_kind < JOURNAL_TICK) {
        replay_bytes(record_kind - JOURNAL_BYTES, record + SERIFLADDER_RECORD_HEADER, length - SERIFLADDER_RECORD_HEADER);
        return;
    }
    if (record_kind == SERIFLADDER_SETTINGS)
        serifladder_start(lent_table, SERIFLADDER_TABLE_SIZE, record, length, ANSWER);
    else if (record_kind >= JOURNAL_OPEN && record_kind < JOURNAL_HANG_UP)
        serifladder_open(LENT, record_kind - JOURNAL_OPEN, ANSWER);
    else if (record_kind >= JOURNAL_HANG_UP && record_kind < JOURNAL_BYTES)
        serifladder_hang_up(LENT, record_kind - JOURNAL_HANG_UP, ANSWER);
    else if (record_kind == JOURNAL_TICK)
        serifladder_tick(LENT, ANSWER);
    else
        serifladder_record(LENT, record, length, ANSWER);
    answered();
}

/* Replays the whole records that bytes begin with; how many bytes those are. A record that is too long is none. */
static size_t replay_whole(const uint8_t *bytes, size_t length)
{
    size_t at = 0;
    while (length - at >= SERIFLADDER_RECORD_HEADER) {
        size_t size = SERIFLADDER_RECORD_HEADER + (size_t)little(bytes + at, 2);
        if (size > RECORD_GREATEST || size > length - at)
            break;
        replay_record(bytes + at, size);
        at += size;
    }
    return at;
}

struct replayed replay_journal(int file, uint8_t table[SERIFLADDER_TABLE_SIZE], const struct listener *who)
{
    static uint8_t bytes[65536];
    struct replayed replayed = { 0 };
    lent_table = table;
    listener = who;
    while (!replayed.too_long) {
        ssize_t got = read(file, bytes + replayed.rest, sizeof bytes - replayed.rest);
        if (got < 0 && errno == EINTR)
            continue;
        replayed.failed = got < 0;
        if (got <= 0)
            break;
        size_t length = replayed.rest + (size_t)got, whole = replay_whole(bytes, length);
        replayed.whole += whole;
        replayed.rest = length - whole;
        memmove(bytes, bytes + whole, replayed.rest);
        replayed.too_long = replayed.rest >= SERIFLADDER_RECORD_HEADER && little(bytes, 2) > PAYLOAD_GREATEST;
        if (listener != NULL)
            listener->served();
    }
    return replayed;
}

/* ---- a table that was kept */

/* docs/TABLE.md: where it is said how many tightenings are kept, and where these begin; behind them the results that wait, a place for
   each; behind those the regions of the sessions. In a region: where the lane of tightenings begins, and its slots, and the lane of
   alarms. */
enum { MARK_LENGTH = 8, KEPT_COUNT = 12, MEMORY = 1024, PLACES = 8192, PLACE = 110, PLACE_COUNT = 32 };
enum { REGIONS = PLACES + PLACE_COUNT * PLACE, REGION = 288, LANE = 128, SLOTS = LANE + 16, SLOT_COUNT = 8, ALARMS = 160 };
enum { STARTED = 2, ACKNOWLEDGED = 2 }; /* a session's phase, a lane's form */

/* In the earlier maps the results that wait stood in the slots of each region, and the lane of alarms behind them; before there were alarms
   a region ended there. In the first map the regions stood where the tightenings are kept now. */
enum { FIRST_SIZE = 16384, EARLIER_REGION = 1024, THIRD_REGION = 1152, EARLIER_ALARMS = 1024, ALARMS_LENGTH = REGION - ALARMS };
#define THIRD_MAP "map 3\n"
static const char MARK[] = "SERIFLA4", EARLIER_MARK[] = "SERIFLAD";

/* The number of the place at which a result stands; it is put there where no place has it yet. Four sessions hold 32 at most. */
static uint8_t place_of(uint8_t places[PLACE_COUNT][PLACE], size_t *count, const uint8_t *result)
{
    size_t place = 0;
    while (place < *count && memcmp(places[place], result, PLACE) != 0)
        place++;
    if (place == *count)
        memcpy(places[(*count)++], result, PLACE);
    return (uint8_t)place;
}

/* Moves the regions of an earlier table from where they begin. What waits for several sessions is equal in each, and comes to one place. Of
   alarms, all that is zero, there is none and nobody is subscribed. */
static void move_regions(uint8_t table[SERIFLADDER_TABLE_SIZE], size_t from, size_t size)
{
    uint8_t places[PLACE_COUNT][PLACE] = { { 0 } }, regions[SERIFLADDER_SESSIONS][REGION] = { { 0 } };
    size_t count = 0;
    for (unsigned s = 0; s < SERIFLADDER_SESSIONS; s++) {
        const uint8_t *earlier = table + from + s * size, *lane = earlier + LANE;
        bool waits = earlier[0] == STARTED && lane[0] == ACKNOWLEDGED;
        memcpy(regions[s], earlier, SLOTS);
        for (size_t slot = 0; waits && slot < SLOT_COUNT && slot < lane[2]; slot++)
            regions[s][SLOTS + slot] = place_of(places, &count, earlier + SLOTS + slot * PLACE);
        if (size > EARLIER_REGION)
            memcpy(regions[s] + ALARMS, earlier + EARLIER_ALARMS, ALARMS_LENGTH);
    }
    memcpy(table + PLACES, places, sizeof places);
    memcpy(table + REGIONS, regions, sizeof regions);
}

static void bring_first_up_to_date(uint8_t table[SERIFLADDER_TABLE_SIZE])
{
    table[KEPT_COUNT] = 0;
    move_regions(table, MEMORY, EARLIER_REGION);
    memset(table + MEMORY, 0, PLACES - MEMORY);
}

/* A table of one of the earlier maps, as it stands in one of today; false where what was kept, of that length, is none. */
static bool bring_up_to_date(uint8_t table[SERIFLADDER_TABLE_SIZE], const uint8_t *behind, size_t length)
{
    if (memcmp(table, EARLIER_MARK, MARK_LENGTH) != 0)
        return false;
    memcpy(table, MARK, MARK_LENGTH);
    if (length == FIRST_SIZE)
        bring_first_up_to_date(table);
    else if (length == SERIFLADDER_TABLE_SIZE)
        move_regions(table, PLACES, EARLIER_REGION);
    else if (length == TABLE_KEPT_SIZE && memcmp(behind, THIRD_MAP, TABLE_MAP_LENGTH) == 0)
        move_regions(table, PLACES, THIRD_REGION);
    else
        return false;
    return true;
}

/* An opening of a session that is none is refused, and alters nothing; of a table that is not well formed the refusal is another. */
bool table_is_formed(uint8_t table[SERIFLADDER_TABLE_SIZE])
{
    return serifladder_open(table, SERIFLADDER_TABLE_SIZE, output, sizeof output, SERIFLADDER_SESSIONS, ANSWER)
        == SERIFLADDER_SESSION_TOO_HIGH;
}

bool table_read(int file, uint8_t table[SERIFLADDER_TABLE_SIZE])
{
    static uint8_t kept[TABLE_KEPT_SIZE + 1];
    size_t length = 0;
    for (ssize_t got = 1; got > 0 && length < sizeof kept; length += got > 0 ? (size_t)got : 0)
        got = read(file, kept + length, sizeof kept - length);
    const uint8_t *behind = kept + SERIFLADDER_TABLE_SIZE;
    memcpy(table, kept, SERIFLADDER_TABLE_SIZE);
    if (length == TABLE_KEPT_SIZE && memcmp(behind, TABLE_MAP, TABLE_MAP_LENGTH) == 0)
        return table_is_formed(table);
    return bring_up_to_date(table, behind, length) && table_is_formed(table);
}
