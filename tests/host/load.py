"""Load: results as fast as they are acknowledged."""

import select

import harness
from harness import InTime, Wrong, check, done, equal, in_memory, openprotocol, result_fields, test, tightening_fields, tightening_record

REVISIONS = (1, 2, 5, 6)  # of the results, one for each server

# A session keeps eight results; one acknowledge of a server may be on its way, so that seven may be without one.
WINDOW = 7


def drive(place, count):
    """Four servers, each in its revision: each result is to arrive at each of them once, in order, and as the tool gave it."""
    host = place.host(tick=None)  # a tick a second, as in earnest
    tool = place.tool()
    servers = [place.server(host).start() for _ in REVISIONS]
    for server, revision in zip(servers, REVISIONS):
        server.subscribe_results(revision)
    begin = [len(server.seen) for server in servers]
    by_link = {server.link: server for server in servers}
    given = answered = 0
    acknowledge = openprotocol.message(openprotocol.ACKNOWLEDGE_RESULT)
    acknowledged = dict.fromkeys(servers, 0)
    in_time = InTime("%d results" % count, more=count / 100)
    while in_time() and (answered < count or min(acknowledged.values()) < count):
        more = min(count, min(acknowledged.values()) + WINDOW)
        if more > given:
            tool.send(b"".join(tightening_record(tightening_fields(i)) for i in range(given + 1, more + 1)))
            given = more
        ready = select.select([tool.link, *by_link], [], [], harness.SECONDS)[0]
        check(ready, "nothing more came within %d s", harness.SECONDS)
        for link in ready:
            if link is tool.link:
                equal(tool.answer(), done("0 1 2 3", answered + 1), "answer %d" % (answered + 1))
                answered += 1
                while b"\n" in tool.received:
                    equal(tool.answer(), done("0 1 2 3", answered + 1), "answer %d" % (answered + 1))
                    answered += 1
            else:
                server = by_link[link]
                check(server.take(), "the host closed a link")
                acknowledged[server] += len(server.waiting)
                link.sendall(acknowledge * len(server.waiting))
                server.waiting.clear()
    for server in servers:
        equal(server.fence(), [], "something behind the last result")
    place.finish(host, servers)
    lost = doubled = 0
    for server, first in zip(servers, begin):
        results = [openprotocol.read(run).fields for run in server.seen[first:-1]]
        numbers = [result["number"] for result in results]
        lost += len(set(range(1, count + 1)) - set(numbers))
        doubled += len(numbers) - len(set(numbers))
        if not lost and not doubled:
            for i, result in enumerate(results, 1):
                equal(result, result_fields(tightening_fields(i), i, server.revision), "result %d" % i)
    place.said.append("%d results sent to each of 4 servers, lost %d, doubled %d" % (count, lost, doubled))
    if lost or doubled:
        raise Wrong(place.said[-1])


@test
@in_memory
def load(place):
    """Results to four servers, each in another revision, as fast as they are acknowledged."""
    drive(place, place.count)


@test
def load_on_the_disk(place):
    """The same with the state and the journal on the disk, and fewer results: here each waits for the disk."""
    drive(place, max(1, place.count // 20))
