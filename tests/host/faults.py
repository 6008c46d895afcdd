#!/usr/bin/env python3
"""Shows that the tests of the host find faults: plants each of these in a copy of its sources, or of the tools that watch and draw, builds
it, and runs the test that is to find it.

    faults.py --host PROGRAM --replay PROGRAM --archive ARCHIVE --compiler COMPILER [--runner RUNNER] [--only NAME,NAME,..]

The host itself has to pass all those tests first. Exit status 0: every fault was found."""

import argparse
import multiprocessing
import os
import re
import shutil
import subprocess
import sys
import tempfile
import time

import tracing

HERE = os.path.dirname(os.path.abspath(__file__))
ROOT = os.path.join(HERE, "..", "..")

SERIAL_KEPT = """\
    if (number == SERIFLADDER_DONE && serial != NULL)
        serial_keep(serial, numbered ? last + 1 : 0, answer.taken);
"""
NUMBER_KEPT = """\
    if (numbered)
        state_keep(++last);
"""
RECORD_JOURNALED = """\
    journal_record(journal_record_kind(record_kind), record + SERIFLADDER_RECORD_HEADER, length - SERIFLADDER_RECORD_HEADER);
"""
ALARM_TOLD = """\
    else if (number == SERIFLADDER_DONE && record_kind == SERIFLADDER_ALARM)
        sessions_event(alarm_brought(record + SERIFLADDER_RECORD_HEADER), answer.taken);
"""
RESULT_SENT = """\
    if (numbered)
        sessions_event((struct event){ .kind = RESULT, .number = last }, answer.taken);
""" + ALARM_TOLD + """\
    carry_out(answer.written);
"""

ADDRESS_TAKEN = """\
    links_listen(&address); /* before a file is made or renamed: a second host on the same port leaves all as it is */
"""
STATE_MADE = """\
    uint32_t kept = state_open(given[STATE], given[NEW_STATE] == NULL ? NULL : &fresh), shown = kept;
    if (given[JOURNAL] != NULL && !journal_find(&journal, &shown))
        shown = kept;
    uint32_t last = last_of_both(kept, shown);
    serials_open(given[STATE], shown);
    state_keep(last);
"""

SHARES = ("RUNS_AT_ONCE = 16,        /* of a link in a turn: what else has come waits for the next */\n"
          "    BYTES_A_SECOND = 262144,")

LISTENS = "listen(door.socket, SOMAXCONN) != 0"
LISTENED = """\
        cannot_listen(address);
    unblock(door.socket);
}

void links_ready(void)
{
    struct sockaddr_in address = { .sin_family = AF_INET };
    socklen_t size = sizeof address;
    char text[INET_ADDRSTRLEN + 8];
    if (getsockname(door.socket, (struct sockaddr *)&address, &size) != 0"""

# The fault, the test that finds it, the file, what stands there, and what is put in its place.
IN_HOST = [
    ("state not written", "killed-between-results", "calls.c", "state_keep(++last);", "++last;"),
    ("state written after sending", "no-room-for-the-state", "calls.c",
     NUMBER_KEPT + RECORD_JOURNALED + RESULT_SENT,
     NUMBER_KEPT.replace("state_keep(++last)", "++last") + RECORD_JOURNALED + RESULT_SENT + NUMBER_KEPT.replace("++last", "last")),
    ("journal written after sending", "no-room-for-the-journal", "calls.c",
     "    journal_record(record_kind, payload, length);\n    carry_out(answer.written);",
     "    carry_out(answer.written);\n    journal_record(record_kind, payload, length);"),
    ("a fifth let in", "four-servers-and-a-fifth", "links.c",
     "    const char *why = why_refused(&address, s < SERIFLADDER_SESSIONS);",
     '    if (s == SERIFLADDER_SESSIONS)\n        hang_up(&links[--s], "room is made");\n'
     "    const char *why = why_refused(&address, true);"),
    ("rest of a slice not passed on", "many-messages-in-one-segment", "links.c",
     "for (size_t at = 0; at < (size_t)length && link->socket >= 0;) {", "for (size_t at = 0; at == 0 && link->socket >= 0;) {"),
    ("output of one session to another", "four-servers-and-a-fifth", "calls.c",
     "links_send(record_kind - SERIFLADDER_FRAME,", "links_send((record_kind - SERIFLADDER_FRAME) & 2,"),
    ("ticks not made up for", "ticks-are-made-up-for", "main.c", "timer->next += timer->period;", "timer->next = now() + timer->period;"),
    ("all missed ticks made up for", "a-stall-of-the-host", "main.c", "late / timer->period - MADE_UP_GREATEST;", "0;"),
    ("a flood heard to its end", "the-tools-answer-beside-flooders", "links.c", SHARES,
     "RUNS_AT_ONCE = 8192,\n    BYTES_A_SECOND = 1 << 30,"),
    ("a link that may bring anything", "what-a-link-may-bring", "links.c", "BYTES_A_SECOND = 262144,", "BYTES_A_SECOND = 1 << 30,"),
    ("runs too long borne with", "runs-too-long-again-and-again", "links.c", "link->overlong >= TOO_LONG_GREATEST",
     "link->overlong > 100 * TOO_LONG_GREATEST"),
    ("a file taken for the FIFO", "a-fifo-that-goes-away", "tool.c", "|| !S_ISFIFO(found.st_mode)) {", ") {"),
    ("the FIFO not looked for", "a-fifo-that-goes-away", "tool.c", "else if (fifo_replaced())", "else if (fifo_replaced() && missing)"),
    ("silent tools keep their places", "silent-tools", "tool.c", "most->silent < SILENT ?", "most->silent < 100 * SILENT ?"),
    ("a door that never rests", "few-descriptors", "door.c", "door->rests = now() + SECOND;", "door->rests = 0;"),
    ("no descriptor spared", "few-descriptors", "door.c", "taken >= 0 && is_spare(taken);", "taken >= 0 && is_spare(taken) && taken < 0;"),
    ("everybody may connect", "who-may-connect", "links.c", "if (allowed_count > 0 && i == allowed_count)", "if (i > allowed_count)"),
    ("a hang-up that loses results in silence", "results-that-are-lost", "links.c",
     "    session_ended((unsigned)(link - links), link->waiting.length, why);\n", ""),
    ("an acknowledge not counted", "results-that-are-lost", "sessions.c", "== KINDS[kind].acknowledges)", "== KINDS[kind].tells)"),
    ("an acknowledge too long counted", "results-that-are-lost", "sessions.c", " && length == MESSAGE_LENGTH &&", " && length > 0 &&"),
    ("given up in silence", "results-that-are-lost", "sessions.c", "GIVEN_UP = 120,", "GIVEN_UP = 12000,"),
    ("a ninth lost in silence", "results-that-are-lost", "sessions.c",
     '            say_lost(s, &event, "not taken", KINDS[event.kind].why_not_taken);\n', ""),
    ("what was not sent lost in silence", "results-not-read", "sessions.c", "    drop_unsent(s, waiting, why);\n",
     "    (void)drop_unsent;\n    (void)waiting;\n"),
    ("fewer notices thought to wait than can", "alarms-not-read", "sessions.c", "NOTICE_SHORTEST = 54,", "NOTICE_SHORTEST = 232,"),
    ("an alarm that was not sent lost in silence", "alarms-not-read", "sessions.c", "if (message == KINDS[kind].tells &&",
     "if (kind == RESULT && message == KINDS[kind].tells &&"),
    ("an alarm lost in silence", "alarms-that-are-lost", "calls.c", ALARM_TOLD, ""),
    ("a bad alarm thought to be lost", "alarms-that-are-bad", "calls.c", "else if (number == SERIFLADDER_DONE && record_kind ==",
     "else if (record_kind =="),
    ("three alarms thought to be all that are held", "alarms-that-are-lost", "sessions.c", "{ 70, 71, 72, 73, 4,", "{ 70, 71, 72, 73, 3,"),
    ("a result's acknowledge thought to be an alarm's", "alarms-that-are-lost", "sessions.c", "{ 70, 71, 72,", "{ 70, 71, 62,"),
    ("alarms thought to end with the results", "alarms-that-are-lost", "sessions.c", "{ 70, 71, 72, 73,", "{ 70, 71, 72, 63,"),
    ("one clock for results and alarms", "an-alarm-that-is-not-acknowledged", "sessions.c", "++sessions[s].clocks[kind]",
     "++sessions[s].clocks[RESULT]"),
    ("alarms counted as results", "the-status", "sessions.c", "losses[kind].dropped += lane->held;",
     "losses[RESULT].dropped += lane->held;"),
    ("a code that is no text of JSON", "the-status", "status.c", "== NULL ? \"\" : \"\\\\\",", "== NULL ? \"\" : \"\","),
    ("an alarm's time read where it does not stand", "log-lines-of-alarms", "sessions.c", "TIME = 34 }", "TIME = 32 }"),
    ("an alarm's time cut", "log-lines-of-alarms", "sessions.c", "TIME = CODE_LENGTH + 2 }", "TIME = CODE_LENGTH + 1 }"),
    ("controller and tool exchanged in the log", "log-lines-of-alarms", "tool.c", "CONTROLLER_READY = CODE_LENGTH, TOOL_READY }",
     "TOOL_READY = CODE_LENGTH, CONTROLLER_READY }"),
    ("an alarm in the log as an identifier", "log-lines-of-alarms", "tool.c", "else if (record_kind == SERIFLADDER_ALARM)",
     "else if (record_kind == SERIFLADDER_SETTINGS)"),
    ("an alarm that is sent in the log without its name", "log-lines-of-alarms", "links.c", 'memcmp(text + 4, "0071", 4) == 0',
     'memcmp(text + 4, "0076", 4) == 0'),
    ("a fault of the demo's at another time", "the-demo", "demo.c", "write_time(now, time(NULL));\n    begin(SERIFLADDER_ALARM,",
     "write_time(now, 0);\n    begin(SERIFLADDER_ALARM,"),
    ("the demo's missing limits told as 0", "the-demo", "demo.c", "static void add_window(const struct window *window)\n{\n",
     "static void add_window(const struct window *window)\n{\n    static const struct window ZEROS;\n"
     "    window = is_set(window->least) ? window : &ZEROS;\n"),
    ("a target in the demo's missing window", "the-demo", "demo.c", "SERIFLADDER_NEVER_SET, SERIFLADDER_NEVER_SET }",
     "SERIFLADDER_NEVER_SET, 90 }"),
    ("the demo's angles all held against one window", "the-demo", "demo.c", "status(angle, &program->angle)",
     "status(angle, &PROGRAMS[0].angle)"),
    ("the demo's angles too low where none is too low", "the-demo", "demo.c", "is_set(window->least) && value <", "value <"),
    ("no program of the demo's without a window", "the-demo", "demo.c", "{ 2250, 2750, 2500 }, NO_WINDOW }",
     "{ 2250, 2750, 2500 }, { 180, 360, 270 } }"),
    ("an alarm's serial not kept", "alarms-with-a-serial", "calls.c", "if (number == SERIFLADDER_DONE && serial != NULL)",
     "if (number == SERIFLADDER_DONE && serial != NULL && record_kind != SERIFLADDER_ALARM)"),
    ("the number read at the end of every 0061", "log-lines-in-each-revision", "sessions.c",
     "(revision_of(frame) == 1 ? OF_REVISION_1 : OF_LATER_REVISIONS)", "number_at(frame, 4) - NUMBER_LENGTH"),
    ("the number read where revision 1 has it", "results-not-read", "sessions.c", "revision_of(frame) == 1 ?", "revision_of(frame) > 0 ?"),
    ("no revision in the log", "log-lines-in-each-revision", "links.c", "revision_of(link->run) > 1", "revision_of(link->run) > 999"),
    ("a serial that is known taken again", "records-with-a-serial", "tool.c",
     "if (serial != NULL && serial_known(serial, &number, &taken)) {",
     "number = 0;\n    taken = 0;\n    if (serial != NULL && number > taken) {"),
    ("serials forgotten with the host", "records-with-a-serial", "serials.c", "        put_line(next, line);\n", ""),
    ("a status that tells of another session", "the-status", "status.c", "session_state(s);", "session_state(s ^ 1);"),
    ("a wish for no acknowledge missed", "the-status-and-the-table", "sessions.c", "sessions[s].byte_12 != '1' }",
     "sessions[s].byte_12 != 0 }"),
    ("the number not answered", "the-status", "tool.c", "numbered ? last_number() : 0);", "0 * (uint32_t)numbered);"),
    ("stale output kept over a hang-up", "a-peer-that-stops-reading", "links.c", "    link->waiting.length = 0;\n", ""),
    ("a hang-up that the library is not told", "a-link-cut-with-a-notice-open", "links.c",
     "    call_hang_up((unsigned)(link - links));\n    close_link(link, why);", "    close_link(link, why);"),
    ("a close record not carried out", "silence-until-the-time-out", "calls.c", "links_close(record_kind - SERIFLADDER_CLOSE);", ";"),
    ("ticks not journaled", "the-journal-replays", "calls.c",
     'settle_done("a tick", serifladder_tick(LENT, ANSWER), JOURNAL_TICK, NULL, 0);',
     "serifladder_tick(LENT, ANSWER);\n    carry_out(read_answer(answer_bytes).written);"),
    ("a tool's record journaled as another call", "refused-tool-records", "calls.c",
     "journal_record(journal_record_kind(record_kind),", "(void)journal_record_kind;\n    journal_record(record_kind,"),
    ("a peer that does not read is waited for", "a-peer-that-stops-reading", "links.c",
     'link->failed = "64 KiB wait for it, and it does not read";', "link->waiting.length = 0;"),
    ("sessions not hung up at the end", "ended-by-a-signal", "main.c", "    links_end();\n", ""),
    ("no lock on the state", "a-lock-that-was-removed", "state.c", "if (!lock_file(opened))", "if (opened < 0)"),
    ("what a slow reader is owed is forgotten", "a-peer-that-stops-reading", "common.c",
     "    waiting->length -= sent;\n    memmove(waiting->bytes, waiting->bytes + sent, waiting->length);", "    waiting->length = 0;"),
    ("a tool that sent too much keeps its place", "tool-records-that-end-the-connection", "tool.c",
     "(source->ended || source->skipping))", "source->ended)"),
    ("a loop that never waits", "an-idle-host-rests", "links.c", "(links[s].waiting.length > 0 ? POLLOUT : 0)", "POLLOUT"),
    ("check sum not tested", "a-damaged-state", "state.c", "if (length != whole || memcmp(text, expected, whole) != 0)",
     "if (length < whole)"),
    ("the end of a cut journal lost", "a-journal-with-a-cut-end", "journal.c", "    write_beside(CUT, bytes, earlier.rest);",
     "    write_beside(CUT, bytes, 0);"),
    ("old parts not deleted", "a-peer-that-fills-the-journal", "journal.c", "i + journal.keep < there.count;", "i > there.count;"),
    ("a small disk not looked at", "a-disk-that-is-too-small", "journal.c", "disk.f_bavail < more / disk.f_frsize", "disk.f_frsize == 0"),
    ("tables of deleted parts not deleted", "a-peer-that-fills-the-journal", "journal.c",
     "for (size_t e = 0; e < END_COUNT; e++)\n        remove_beside", "for (size_t e = 0; e < 1; e++)\n        remove_beside"),
    ("another host's journal deleted", "a-journal-named-like-a-part", "journal.c", "if (is_of_another_host(part)) {",
     "if (is_of_another_host(part) && part == 0) {"),
    ("the table of a part kept too late", "parts-replayed-alone", "calls.c",
     "    journal_prepare(table);\n    uint64_t number = serifladder_bytes(LENT, session, bytes, length, ANSWER);",
     "    uint64_t number = serifladder_bytes(LENT, session, bytes, length, ANSWER);\n    journal_prepare(table);"),
    ("what repeats is written to the log", "lines-that-repeat", "log.c", "line_kind->said < LINES_A_SECOND", "line_kind->said + 1 > 0"),
    ("a refusal not printed", "generated-histories-replayed", "replay.c", "answer->number != SERIFLADDER_DONE", "answer->number > 8"),
    ("received bytes replayed to the first NUL only", "generated-histories-replayed", "replaying.c",
     "answer.number == SERIFLADDER_DONE && length > 0", "answer.number != SERIFLADDER_DONE && length > 0"),
    ("the sessions of a table from before not moved", "tables-from-before", "replaying.c",
     "    move_regions(table, MEMORY, EARLIER_REGION);\n", ""),
    ("the sessions of a table from before alarms not moved", "tables-from-before-alarms", "replaying.c",
     "        move_regions(table, PLACES, EARLIER_REGION);\n", "        ;\n"),
    ("the sessions of a table from before places not moved", "tables-from-before-places", "replaying.c",
     "        move_regions(table, PLACES, THIRD_REGION);\n", "        ;\n"),
    ("what waits put to the first place", "tables-from-before-places", "replaying.c", "    return (uint8_t)place;\n", "    return 0;\n"),
    ("results told apart by their first byte", "tables-from-before-places", "replaying.c", "result, PLACE) != 0)", "result, 1) != 0)"),
    ("the open result alone brought up to date", "tables-from-before-places", "replaying.c", "slot < SLOT_COUNT &&", "slot < 1 &&"),
    ("alarms of a table from before places lost", "tables-from-before-places", "replaying.c", "    if (size > EARLIER_REGION)\n",
     "    if (size > THIRD_REGION)\n"),
    ("the number of a map not looked at", "tables-from-before-places", "replaying.c",
     "memcmp(behind, TABLE_MAP, TABLE_MAP_LENGTH) == 0", "memcmp(kept, MARK, MARK_LENGTH) == 0"),
    ("any number taken for the third map's", "tables-from-before-places", "replaying.c",
     "memcmp(behind, THIRD_MAP, TABLE_MAP_LENGTH) == 0", "behind[0] == THIRD_MAP[0]"),
    ("the number of the map not kept", "parts-replayed-alone", "journal.c",
     "memcpy(kept + SERIFLADDER_TABLE_SIZE, TABLE_MAP, TABLE_MAP_LENGTH);", "memset(kept + SERIFLADDER_TABLE_SIZE, 0, TABLE_MAP_LENGTH);"),
    ("a count of tightenings read in a table from before", "tables-from-before", "replaying.c", "    table[KEPT_COUNT] = 0;\n", ""),
    ("an old result in the log without its number", "what-a-server-missed", "links.c", "OLD_NUMBER = HEADER + 2,", "OLD_NUMBER = HEADER,"),
    ("the state itself not locked", "a-lock-that-was-removed", "state.c", "if (!lock_file(current))", "if (current < 0)"),
    ("the lock not looked at again", "a-lock-that-was-removed", "state.c", "    hold_lock();\n", "    (void)hold_lock;\n"),
    ("the journal's number not compared", "an-older-state", "main.c", "if (shown <= kept)", "if (shown <= kept || shown > 0)"),
    ("a journal that was removed is written on", "a-journal-that-is-removed", "journal.c",
     "== 0 && same_file(&found, &ours) &&", "== 0 || same_file(&found, &ours) ||"),
    ("a reader is waited for against a signal", "a-journal-whose-reader-stops", "journal.c", "    if (signals_end())\n",
     "    if (signals_end() && signals_reopen())\n"),
    ("a link followed to another file", "a-link-in-the-place-of-the-next-state", "state.c",
     "O_EXCL | O_NOFOLLOW | O_CLOEXEC, file_mode);\n    if (file", "O_TRUNC | O_CLOEXEC, file_mode);\n    if (file"),
    ("one file for two purposes", "one-file-for-two-purposes", "main.c", "for (size_t k = 0; k < i; k++)",
     "for (size_t k = i; k < i; k++)"),
    ("a part number given twice", "the-last-part-number", "journal.c", "if (number > UINT32_MAX)", "if (number > UINT64_MAX - 1)"),
    ("a state that is there made anew", "a-missing-state", "state.c", "= there ? read_state() : *fresh;",
     "= there && fresh == NULL ? read_state() : *fresh;"),
    ("a given mode lessened by the umask", "modes-and-groups", "main.c", "file_mode = mode_of(FILE_MODE, file_mode & ~lessens);",
     "file_mode = mode_of(FILE_MODE, file_mode) & ~lessens;"),
    ("SIGHUP not heard", "log-and-journal-opened-again", "main.c", "            log_reopen();\n", "            continue;\n"),
    ("a full log not put aside", "a-log-that-is-full", "log.c", "file_size > FILE_GREATEST)", "file_size < 0)"),
    ("a time too late", "the-time-of-day-beside-the-journal", "journal.c", "TICKS_BETWEEN_TIMES = 60", "TICKS_BETWEEN_TIMES = 61"),
    ("listens when the files are made", "two-hosts-at-once", "links.c",
     " || %s)\n%s)" % (LISTENS, LISTENED), ")\n%s || %s)" % (LISTENED, LISTENS)),
    ("a state made though the port is taken", "an-address-in-use", "main.c", ADDRESS_TAKEN + STATE_MADE,
     STATE_MADE + ADDRESS_TAKEN),
]
if tracing.possible():
    IN_HOST += [
        ("a serial kept behind its record", "told-again-after-every-kill", "calls.c", SERIAL_KEPT + NUMBER_KEPT + RECORD_JOURNALED,
         NUMBER_KEPT + RECORD_JOURNALED + SERIAL_KEPT.replace("last + 1", "last")),
        ("a serial known that was not journaled", "told-again-after-every-kill", "serials.c", "if (kept[place].number > given)",
         "if (kept[place].number > given + 1)"),
        ("ticks before the links are heard", "a-slow-disk", "main.c", "        if (ticks) {\n", "        while (is_due(&tick)) {\n"),
        ("state not synced", "killed-before-every-call-of-the-system", "state.c", " || fsync(file) != 0", ""),
        ("folder of the state not synced", "killed-before-every-call-of-the-system", "state.c", " || fsync(folder) != 0", ""),
        ("the end of a FIFO's writer not sought", "a-fifo-writer-that-is-not-told", "tool.c",
         "while (receive(source) && ++reads < FIFO_READS)\n        ;", "(void)reads;\n    receive(source);"),
    ]


IN_TOOLS = [
    ("missing limits shown as 0", "watch-shows-missing-limits", "watch", "(limit if limit is None else written(limit) for limit",
     "(written(limit or 0) for limit"),
    ("missing limits shown as nothing", "watch-shows-missing-limits", "watch", "words = openprotocol.missing_limits(result, what)",
     "words = []"),
    ("no window said where a limit is set", "watch-shows-missing-limits", "openprotocol.py",
     "len(missing) == len(LIMITS) else missing", "len(missing) > 1 else missing"),
    ("a limit of 0 shown as missing", "watch-shows-missing-limits", "openprotocol.py", 'fields[what + "_" + which] is None]',
     'not fields[what + "_" + which]]'),
    ("a limit of spaces read as 0", "watch-shows-missing-limits", "openprotocol.py", "            return None\n", "            return 0\n"),
    ("a target that must be digits", "watch-shows-missing-limits", "openprotocol.py",
     '*(Row(LIMIT, width, what + "_" + which) for which in LIMITS)',
     '*(Row(NUMBER if which == "target" else LIMIT, width, what + "_" + which) for which in LIMITS)'),
    ("a limit of digits and spaces taken", "watch-takes-no-other-spaces", "openprotocol.py",
     "if self.sort in NUMBERS and not value.isdigit():", "if self.sort == NUMBER and not value.isdigit():"),
    ("a number of spaces taken", "watch-takes-no-other-spaces", "openprotocol.py",
     "if self.sort == LIMIT and value == SPACES * self.width:", "if self.sort in NUMBERS and value == SPACES * self.width:"),
    ("blanks before digits taken", "watch-takes-no-other-spaces", "openprotocol.py", "not value.isdigit():",
     "not value.lstrip().isdigit():"),
    ("missing limits not drawn", "missing-limits-are-drawn", "ladder_rows.py",
     'openprotocol.missing_limits(fields, what) if what + "_min" in fields else []', "[]"),
    ("missing limits of the torque not drawn", "missing-limits-are-drawn", "ladder_rows.py",
     '    for what in ("torque", "angle"):\n        words +=', '    for what in ("angle",):\n        words +='),
    ("what waits drawn from the first place", "tables-from-before-places", "lent_table.py", "slots[slot] = places.index(result)",
     "slots[slot] = 0"),
    ("a place that is none not refused", "tables-from-before-places", "lent_table.py", "default=0) < PLACES", "default=0) < 256"),
    ("a missing limit of a record read as a number", "missing-limits-are-drawn", "house_records.py",
     "return None if self.sort == LIMIT and value == NEVER_SET else value", "return value"),
]

FAULTS = [(name, finder, folder + "/" + file, *edit) for folder, faults in (("host", IN_HOST), ("tools", IN_TOOLS))
          for name, finder, file, *edit in faults]


def planted(name, file, old, new):
    """The file with the fault."""
    with open(os.path.join(ROOT, file), encoding="ascii") as source:
        text = source.read()
    if text.count(old) != 1:
        sys.exit("'%s' can't be planted: %s has its place %d times" % (name, file, text.count(old)))
    return text.replace(old, new)


def copied(folder, file, text):
    """A copy of the folder in which a file stands, with that text in the file."""
    shutil.copytree(os.path.join(ROOT, os.path.dirname(file)), folder)
    with open(os.path.join(folder, os.path.basename(file)), "w", encoding="ascii") as source:
        source.write(text)
    return folder


def tools_with(folder, file, text):
    """The tools with that file instead of their own, beside what they look for in the repository."""
    os.mkdir(folder)
    for name in ("target", "tests"):
        os.symlink(os.path.abspath(os.path.join(ROOT, name)), os.path.join(folder, name))
    return copied(os.path.join(folder, "tools"), file, text)


def build(program, sources_name, file, text, options):
    """A program of the host's with that file instead of its own, built as its Makefile says; None where it is not built of that file."""
    folder = copied(program + "-sources", file, text)
    with open(os.path.join(folder, "Makefile"), encoding="ascii") as makefile:
        said = makefile.read()
    names = re.search(r"^%s := ((?:.*\\\n)*.*)$" % sources_name, said, re.M).group(1).replace("\\\n", " ").split()
    if os.path.basename(file) not in names:
        return None
    flags = re.search(r"^STRICT := (.*)$", said, re.M).group(1).split()
    sources = [os.path.join(folder, name) for name in names]
    subprocess.run([options.compiler, *flags, "-O1", "-static", "-I", os.path.join(ROOT, "include"), *sources, options.archive,
                    "-o", program], check=True)
    if not options.runner:
        return program
    with open(program + "-run", "w", encoding="ascii") as wrapper:
        wrapper.write('#!/bin/sh\nexec "%s" "%s" "$@"\n' % (os.path.abspath(options.runner), program))
    os.chmod(program + "-run", 0o755)
    return program + "-run"


def run_tests(host, replay, names, *more):
    """The status of the tests, which wait no longer for what does not come than here is time for, and what they printed."""
    command = [sys.executable, os.path.join(HERE, "run.py"), "--host", host, "--replay", replay, "--only", ",".join(names),
               "--seconds", "5", *more]
    done = subprocess.run(command, stdout=subprocess.PIPE, encoding="utf-8", check=False)
    return done.returncode, done.stdout


def find(arguments):
    """Builds what has a fault and runs the test that is to find it: the test, and what it said; None if it said nothing."""
    program, (_, finder, file, _, _), text, options = arguments
    host, more = options.host, ["--own-replay", os.path.join(os.path.dirname(options.host), "serifladder-replay")]
    if file.startswith("tools/"):
        more += ["--tools", tools_with(program, file, text)]
    else:
        host = build(program, "SOURCES", file, text, options) or host
        more[1] = build(program + "-replay", "REPLAY_SOURCES", file, text, options) or more[1]
    status, printed = run_tests(host, options.replay, [finder], *more)
    return finder, None if status == 0 else printed.partition("WRONG: ")[2].partition("\n")[0]


def main():
    parser = argparse.ArgumentParser(description=__doc__.splitlines()[0])
    for option in ("--host", "--replay", "--archive", "--compiler"):
        parser.add_argument(option, required=True)
    parser.add_argument("--runner", default="")
    parser.add_argument("--only", type=lambda text: text.split(","))
    options = parser.parse_args()
    began = time.monotonic()
    faults = [fault for fault in FAULTS if not options.only or fault[0] in options.only]
    texts = [planted(name, *edit) for name, _, *edit in faults]
    status, printed = run_tests(options.host, options.replay, sorted({finder for _, finder, *_ in faults}))
    if status != 0:
        sys.exit("the host itself does not pass:\n" + printed)
    missed = 0
    with tempfile.TemporaryDirectory(prefix="serifladder-") as folder, multiprocessing.Pool(2) as pool:
        work = [(os.path.join(folder, "host-%d" % i), fault, text, options) for i, (fault, text) in enumerate(zip(faults, texts))]
        for (name, *_), (finder, difference) in zip(faults, pool.imap(find, work)):
            missed += difference is None
            print("%-42s %s" % (name, "NOT FOUND by " + finder if difference is None else "%s: %.70s" % (finder, difference)), flush=True)
    print("host-faults: %d of %d found, %.0f s" % (len(faults) - missed, len(faults), time.monotonic() - began))
    return 1 if missed else 0


if __name__ == "__main__":
    sys.exit(main())
