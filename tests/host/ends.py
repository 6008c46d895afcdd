"""The host's end in order."""

import os
import signal

from harness import HANG_UP, equal, test, tightening_fields


@test
def ended_by_a_signal(place):
    """SIGTERM and SIGINT end the host in order: sessions hung up and journaled, links and the tool's socket file gone, status 0."""
    for run, number in enumerate((signal.SIGTERM, signal.SIGINT)):
        host = place.host()
        tool = place.tool()
        servers = [place.server(host).subscribe() for _ in range(3)]
        tool.tighten(tightening_fields(run), "0 1 2")
        servers[1].close()
        place.wait_for_hang_up(1, run + 1)
        equal(host.end(number), 0, "status")
        for server in (servers[0], servers[2]):
            server.expect_result(tightening_fields(run), run + 1)
            equal(server.until_closed(), [], "what is sent at the end")
        equal(tool.answer(), None, "what the tool is told at the end")
        equal(os.path.exists(place.tool_path), False, "the tool's socket file stands yet")
        record_kinds = [record_kind for record_kind, _ in place.journaled()]
        equal([record_kinds.count(HANG_UP + session) for session in range(4)], [run + 1, run + 1, run + 1, 0], "hang-ups of each session")
