"""The lent table, as docs/TABLE.md has it: what all sessions share, the results that wait, and what the region of each session says of it.
Whatever reads a table in Python reads it by this."""

from dataclasses import dataclass

from house_records import ALARM, PAYLOADS, SCANNED, TIGHTENING

SIZE = 32768
MAP = b"map 4\n"  # stands behind a table that the host keeps: the number of its map
MARK = b"SERIFLA4"
LAST = slice(8, 12)  # the last tightening number, in what is shared
KEPT_COUNT = 12  # the byte that says how many tightenings are kept
MEMORY, KEPT, KEPT_SIZE = 1024, 64, PAYLOADS[TIGHTENING].size  # where they begin, how many there can be, the bytes of one
SHARED = 8192  # bytes, of what is shared
SESSIONS = 4

# The results that wait, one copy of each, whoever waits for it: how many there can be, and the bytes of one, which end with its number.
PLACES, NUMBER = 32, slice(PAYLOADS[TIGHTENING].size, PAYLOADS[TIGHTENING].size + 4)
PLACE = NUMBER.stop
REGIONS, REGION = SHARED + PLACES * PLACE, 288  # where the sessions' begin, and the bytes of one
USED = REGIONS + REGION * SESSIONS  # the bytes that have a meaning

CLOSED, OPENED, STARTED = range(3)  # phases
RUN_COUNT, RUN = slice(8, 10), slice(10, 55)  # the bytes that were received, and the first of them

NOT, PLAIN, ACKNOWLEDGED = range(3)  # forms of a subscription
CONTROL = 16  # bytes of a lane before its slots
# Where a lane begins, and the bytes of a slot in it: a notice, or of a tightening the number of its place.
LANES = IDENTIFIERS, TIGHTENINGS, ALARMS = (56, PAYLOADS[SCANNED].size), (128, 1), (160, PAYLOADS[ALARM].size)
HELD = 8  # tightenings by a session at most

# Tables that were kept earlier, of another mark. The third map had its number behind it, the first two are told by their sizes. Of each:
# where its regions begin, and the bytes of one. Each session had the results that wait for it in its own region; its lane of alarms stood
# behind them, and before the third map there was none. Of the first, from before tightenings were kept, the regions stand where these are.
EARLIER_MARK, FIRST_SIZE, EARLIER_REGION, THIRD_REGION = b"SERIFLAD", 16384, 1024, 1152
EARLIER = {(FIRST_SIZE, b""): (MEMORY, EARLIER_REGION), (SIZE, b""): (SHARED, EARLIER_REGION), (SIZE, b"map 3\n"): (SHARED, THIRD_REGION)}


def little(data):
    return int.from_bytes(data, "little")


def read(data):
    """The bytes that have a meaning of a table that was kept, or of an earlier one as they stand in one of today; ValueError where it is
    neither."""
    table, behind = data[:SIZE], data[SIZE:]
    if table.startswith(EARLIER_MARK) and (len(table), behind) in EARLIER:
        table = brought_up_to_date(table, *EARLIER[len(table), behind])
    elif not table.startswith(MARK) or behind != MAP:
        raise ValueError("it is no table")
    if not all(has_places(region.data) for region in regions(table)):
        raise ValueError("it is no table")
    return table[:USED]


def has_places(region):
    """Whether what its slots of tightenings say are places, of which it holds no more than it may."""
    at, first = TIGHTENINGS[0], TIGHTENINGS[0] + CONTROL
    held = region[at + 2]
    return held <= HELD and max(region[first:first + held], default=0) < PLACES


def brought_up_to_date(table, begin, size):
    """Of alarms, all that is zero, there is none and nobody is subscribed; nor is a tightening kept in a table of the first map. Results
    that wait for several sessions are equal in each, and come to one place."""
    shared = bytearray(MARK + table[len(MARK):SHARED])
    if len(table) == FIRST_SIZE:
        shared[KEPT_COUNT] = 0
        shared[MEMORY:] = bytes(SHARED - MEMORY)
    places = []
    regions = [region_of_today(table[at:at + size].ljust(THIRD_REGION, b"\0"), places)
               for at in range(begin, begin + size * SESSIONS, size)]
    return bytes(shared) + b"".join(places).ljust(PLACES * PLACE, b"\0") + b"".join(regions)


def region_of_today(region, places):
    """What waits for the session has places in its slots; they are added where they are not there."""
    at, first = TIGHTENINGS[0], TIGHTENINGS[0] + CONTROL
    form, _, held = region[at:at + 3]
    slots = bytearray(HELD)
    for slot in range(min(held, HELD) if region[0] == STARTED and form == ACKNOWLEDGED else 0):
        result = region[first + slot * PLACE:first + (slot + 1) * PLACE]
        if result not in places:
            places.append(result)
        slots[slot] = places.index(result)
    return (region[:first] + slots).ljust(ALARMS[0], b"\0") + region[EARLIER_REGION:][:REGION - ALARMS[0]]


def last_number(table):
    return little(table[LAST])


def kept(table):
    """The payloads of the tightenings that are kept, by their numbers, the oldest first."""
    last = last_number(table)
    begins = {number: MEMORY + number % KEPT * KEPT_SIZE for number in range(last + 1 - table[KEPT_COUNT], last + 1)}
    return {number: table[at:at + KEPT_SIZE] for number, at in begins.items()}


def places(table):
    """What stands at each of them. It has a meaning where a session holds it."""
    return [table[at:at + PLACE] for at in range(SHARED, REGIONS, PLACE)]


def regions(table):
    return [Region(table[at:at + REGION], places(table)) for at in range(REGIONS, USED, REGION)]


@dataclass
class Lane:
    """A subscription to a kind of notice."""

    form: int
    clock: int  # of the open notice
    notices: list  # that are held, the open one first


@dataclass
class Region:
    data: bytes
    places: list  # of all sessions

    def phase(self):
        return self.data[0]

    def run(self):
        """How many bytes were received of it, and the first of them. Of a session that is closed it has no meaning."""
        count = little(self.data[RUN_COUNT])
        return count, self.data[RUN][:count]

    def identifiers(self):
        return self.lane(*IDENTIFIERS)

    def tightenings(self):
        lane = self.lane(*TIGHTENINGS)
        lane.notices = [self.places[slot[0]] for slot in lane.notices]
        return lane

    def alarms(self):
        return self.lane(*ALARMS)

    def lane(self, at, size):
        """What its slots hold. What the lanes of a session that is not started hold has no meaning; nor has what one holds that asks no
        acknowledge."""
        form, clock, held = self.data[at:at + 3]
        if self.phase() != STARTED:
            form = NOT
        first = at + CONTROL
        slots = range(first, first + size * held, size) if form == ACKNOWLEDGED else []
        return Lane(form, clock, [self.data[slot:slot + size] for slot in slots])
