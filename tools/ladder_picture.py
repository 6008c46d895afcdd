"""The pictures of tools/ladder: which rows are shown, and how they look, as text and as SVG."""

import re
import textwrap
import time
from dataclasses import dataclass
from xml.sax.saxutils import escape, quoteattr

import history
from ladder_journal import count
from ladder_rows import ALARMED, CONTROLLER, IDENTIFIER, TIGHTENED, TOOL

COLUMNS = 140  # the most that a line has, be it of text or of SVG


@dataclass
class Moment:
    """A second, or a time of day."""

    value: int
    of_day: bool = False

    def of(self, row):
        """The same of a row; None where its time of day is not known."""
        return row.time if self.of_day else row.second


@dataclass
class Window:
    """What is asked for: from which moment to which, sessions (None: all), and one page of so many rows."""

    begin: Moment
    end: Moment
    sessions: list
    page: int
    rows: int

    def is_before(self, row):
        at = self.begin.of(row)
        return at is None or at < self.begin.value

    def is_behind(self, row):
        at = self.end.of(row)
        return at is not None and at > self.end.value

    def concerns(self, row):
        return not self.sessions or row.concerns is None or any(session in self.sessions for session in row.concerns)


class Picture:
    """The rows of the page, with the silent seconds that are folded before each and behind the last. The others are only counted."""

    def __init__(self, title, window):
        self.title, self.window = title, window
        self.rows, self.folds, self.footers = [], [], []
        self.count = 0  # rows of all pages
        self.at = None if window.begin.of_day else window.begin.value  # the second of the row before
        self.open = None  # the sessions that are open behind the last row of the page

    def show(self, row):
        if self.window.is_before(row):
            return
        page = self.count // self.window.rows + 1
        if self.open is None and (page > self.window.page or self.window.is_behind(row)):
            self.open = row.open
        if self.window.is_behind(row) or not self.window.concerns(row):
            return
        if page == self.window.page:
            silent = 0 if self.at is None else row.second - self.at - row.ticked
            self.folds.append(silent if silent > 1 else 0)  # a single one shows in the seconds at the left
            self.rows.append(row)
        self.at = row.second
        self.count += 1

    def end(self, ladder):
        """Behind the last row of the journal."""
        is_last = self.window.page == self.pages()
        until = self.silent_until(ladder.second)
        self.folds.append(max(0, until - self.at) if is_last and self.at is not None else 0)
        if self.open is None:
            self.open = ladder.open
        self.footers = self.repeats()
        if is_last and until == ladder.second:
            self.footers += [held_words(notices) for notices in ladder.books.held()
                             if not self.window.sessions or notices[0].session in self.window.sessions]

    def silent_until(self, last):
        """The second up to which nothing happens behind the last row, within the window."""
        if not self.window.end.of_day:
            return min(self.window.end.value, last)
        return last if self.open is None else self.at

    def pages(self):
        return max(1, -(-self.count // self.window.rows))

    def rails(self):
        return [TOOL, CONTROLLER] + sorted({row.session() for row in self.rows if row.session() >= 0})

    def notices(self):
        return list({row.notice.number: row.notice for row in self.rows if row.notice}.values())

    def heading(self):
        shown = self.notices()
        many = sum(1 for notice in shown if len(notice.seconds) > 1)
        losses = [row.lost for row in self.rows if row.lost]
        fetched = sum(loss.fetched is not None for loss in losses)
        words = "%s, %d of them sent more than once; %d lost%s; %d refused" % (
            count(len(shown), "notice"), many, len(losses), ", %d of them fetched later" % fetched if fetched else "",
            sum(1 for row in self.rows if row.refused))
        if self.has_times():
            words += "; from %s on" % time.strftime("%Y-%m-%d %H:%M:%S UTC", time.gmtime(next(row.time for row in self.rows if row.time)))
        if self.pages() > 1:
            words = "page %d of %d (--page), %d of %d rows: %s" % (self.window.page, self.pages(), len(self.rows), self.count, words)
        return words

    def has_times(self):
        return any(row.time for row in self.rows)

    def repeats(self):
        """A line for each notice that was sent more than once."""
        return ["notice %d (%s %s) to server %d, %d copies: at %d s and, not acknowledged by then, at %s s" % (
            notice.number, notice.kind, notice.words(), notice.session, len(notice.seconds),
            notice.seconds[0], ", ".join(map(str, notice.seconds[1:])))
            for notice in self.notices() if len(notice.seconds) > 1]


def held_words(notices):
    first, *others = notices
    waiting = "; %s wait%s behind it" % (", ".join(notice.event_words() for notice in others), "s" if len(others) == 1 else "")
    return "at the end server %d has not acknowledged notice %d, %s%s" % (
        first.session, first.number, first.event_words(), waiting if others else "")


def rail_name(rail):
    return {TOOL: "tool", CONTROLLER: "controller"}.get(rail, "server %d" % rail)


def is_closed(rail, is_open):
    return rail >= 0 and rail not in is_open


def fold_words(seconds):
    return ".. %d s .." % seconds


def second_words(row):
    return "%d s" % row.second if row.started else "-"


def time_words(row):
    """The time of day, as near as the seconds since it was last noted tell it."""
    return time.strftime("%m-%d %H:%M:%S", time.gmtime(row.time)) if row.time else ""


# ---- as text

DAY, TIME, PITCH, GAP = 15, 13, 12, 3
LEAST = 30  # the columns that labels have even where lines get longer by them: beside the rails of more than five servers


def folded(text, columns, indent=""):
    return textwrap.wrap(text, columns, subsequent_indent=indent, break_on_hyphens=False) or [""]


def draw_text(shown):
    rails = shown.rails()
    places = {rail: TIME + 4 + PITCH * place for place, rail in enumerate(rails)}
    width = TIME + 4 + PITCH * (len(rails) - 1) + 1
    margin = DAY if shown.has_times() else 0
    room = max(LEAST, COLUMNS - margin - width - GAP)
    names = [" "] * (width + PITCH)
    for rail, place in places.items():
        name = rail_name(rail)
        begin = place - len(name) // 2
        names[begin:begin + len(name)] = name
    lines = folded("%s: %s" % (shown.title, shown.heading()), COLUMNS) + ["", " " * margin + "".join(names)]
    for row, fold in zip(shown.rows, shown.folds):
        if fold:
            lines.append(" " * margin + text_fold(places, width, row.open, fold))
        arrow, label = text_row(places, width, row)
        first, *more = folded(label, room)
        lines.append(time_words(row).ljust(margin) + arrow + " " * GAP + first)
        rails_only = " " * margin + "".join(text_rails(places, width, row.open, "|")) + " " * GAP
        lines += [rails_only + part for part in more]
    if shown.folds[-1]:
        lines.append(" " * margin + text_fold(places, width, shown.open, shown.folds[-1]))
    lines += [""] if shown.footers else []
    for footer in shown.footers:
        lines += folded(footer, COLUMNS, "  ")
    return "".join(line.rstrip() + "\n" for line in lines)


def text_rails(places, width, is_open, mark):
    cells = [" "] * width
    for rail, place in places.items():
        cells[place] = "." if is_closed(rail, is_open) else mark
    return cells


def text_fold(places, width, is_open, fold):
    cells = text_rails(places, width, is_open, ":")
    return fold_words(fold).ljust(TIME) + "".join(cells)[TIME:]


def text_row(places, width, row):
    """The row with its arrow, and its label."""
    cells = text_rails(places, width, row.open, "|")
    line = "=" if row.notice else "." if row.link else "-"
    label = row.text()
    if row.origin == row.target:
        cells[places[row.target]] = "X" if row.refused or row.lost else "#"
        label = row.word + ": " + label
    else:
        left, right = sorted((places[row.origin], places[row.target]))
        cells[left + 1:right] = line * (right - left - 1)
        head = left + 1 if places[row.target] == left else right - 1
        cells[head] = "X" if row.refused else "x" if row.vain else "<" if head == left + 1 else ">"
        # The word stands in the part next to the outer rail.
        near = left if TOOL in (row.origin, row.target) else right - PITCH
        begin = near + 1 + (PITCH - 1 - len(row.word)) // 2
        cells[begin:begin + len(row.word)] = row.word
    time = second_words(row).rjust(TIME - 2)
    return time.ljust(TIME) + "".join(cells)[TIME:], label


# ---- as SVG: rails at the left, each with the words of its arrows before it, and the labels in a column of their own

MARGIN, DAY_X, TIME_X, TOOL_X, APART = 24, 90, 84, 112, 108
TO_LABELS, LABELS = 40, 600  # from the last rail, and how wide they are
TOP, STEP, LEADING = 118, 23, 14  # where the rails begin, a row, a further line of a label
BRACKETS = {TIGHTENED: 8, IDENTIFIER: 14, ALARMED: 20}  # so far beside its rail stands what joins the copies of a notice
COLOURS = ("#1769aa", "#c4570a", "#12805c", "#7a4fb5", "#b3246f", "#7d6208", "#3f7d1e", "#0b7c8c")
INK, GREY, PALE, FAINT, RED = "#222222", "#707070", "#c8c8c8", "#e8e8e8", "#c01818"
THIN, THICK, DOTS = 1.2, 2.4, "2 3"

STYLE = """
text { font: 11px "DejaVu Sans", Verdana, Arial, sans-serif }
.title { font-size: 18px; font-weight: bold }
.name { font-weight: bold; text-anchor: middle }
.time { text-anchor: end; fill: %s }
.word { font-size: 10px; text-anchor: middle; paint-order: stroke; stroke: white; stroke-width: 4px; stroke-linejoin: round }
.badge { fill: white; font-weight: bold; font-size: 10px; text-anchor: middle }
.strong { font-weight: bold }
""" % GREY

# What a line is not cut within: a tag's further words, each with its blank; how a tag begins; a character by its name; of a text a word, or
# a part of one.
PIECE = re.compile(r"( [^ <>]*(?:>|(?=[^<>]*>)))|<[^ >]*>?|&\w+;|[^ <>&]{1,120}| ")


def cut(line):
    """A line as lines of COLUMNS at most: they end in a tag, where a blank stands, or in a comment, so that no text has a blank more."""
    lines = [""]
    for piece in PIECE.finditer(line):
        if len(lines[-1] + piece[0] + "<!--") <= COLUMNS:
            lines[-1] += piece[0]
        elif piece[1]:
            lines.append(piece[0].lstrip())
        else:
            lines[-1] += "<!--"
            lines.append("-->" + piece[0])
    return "\n".join(lines)


def tag(name, content="", **attributes):
    """An element; `class_` is the attribute class, and so on."""
    given = "".join(" %s=%s" % (key.rstrip("_").replace("_", "-"), quoteattr(str(value)))
                    for key, value in attributes.items() if value != "")
    return "<%s%s>%s</%s>" % (name, given, content, name) if content else "<%s%s/>" % (name, given)


def text_at(x, y, text, class_="", fill=""):
    return tag("text", escape(text), x=x, y=y, class_=class_, fill=fill)


def line(x1, y1, x2, y2, colour, width=THIN, dash=""):
    return tag("line", x1=x1, y1=y1, x2=x2, y2=y2, stroke=colour, stroke_width=width, stroke_dasharray=dash)


def cross(x, y, colour):
    return line(x - 4, y - 4, x + 4, y + 4, colour, 2) + "\n" + line(x - 4, y + 4, x + 4, y - 4, colour, 2)


def arrow(x1, x2, y, colour, width=THIN, dash="", crossed=False):
    """An arrow; that of what is refused or does nothing ends in a cross."""
    neck = x2 + (8 if x2 < x1 else -8)
    head = cross(neck, y, colour) if crossed else tag("path", d="M%d,%d L%d,%d v8 z" % (x2, y, neck, y - 4), fill=colour)
    return line(x1, y, neck, y, colour, width, dash) + "\n" + head


def width_of(text):
    """About as wide as the widest of the fonts sets it."""
    return sum(11 if c in "MWmw@%" else 8 if c.isupper() else 7.1 if c.isdigit() else 3.6 if c in " .,:;'ijl|" else 6.8 for c in text)


def wrapped(text, first, width):
    """The text in lines of the width, the first of them shortened by what stands before it."""
    lines, room = [""], width - first
    for word in text.split(" "):
        longer = (lines[-1] + " " + word).strip()
        if lines[-1] and width_of(longer) > room:
            lines.append(word)
            room = width
        else:
            lines[-1] = longer
    return lines


def colour_of(notice):
    return COLOURS[(notice.number - 1) % len(COLOURS)]


def row_colour(row):
    if row.refused or row.lost:
        return RED
    return colour_of(row.notice) if row.notice else GREY if row.link else INK


class Svg:
    def __init__(self, shown):
        self.shown = shown
        self.left = DAY_X if shown.has_times() else 0  # so much further to the right stands all that follows the time of day
        self.places = {rail: self.left + TOOL_X + APART * place for place, rail in enumerate(shown.rails())}
        self.labels = max(self.places.values()) + TO_LABELS
        self.width = self.labels + LABELS + MARGIN
        self.y, self.clock = TOP, ""
        self.under, self.over = [], []
        self.stretches = {rail: [] for rail in self.places}  # of a rail: from, to, how it looks
        self.copies = {}  # of a notice: where its arrows are

    def draw(self):
        shown = self.shown
        for row, fold in zip(shown.rows, shown.folds):
            self.draw_fold(row.open, fold)
            self.draw_row(row)
        self.draw_fold(shown.open, shown.folds[-1])
        self.reach(shown.open, self.y + 10)
        self.draw_rails()
        self.join_copies()
        for text in shown.footers:
            for part in wrapped(text, 0, self.width - 2 * MARGIN):
                self.y += 16
                self.over.append(text_at(MARGIN, self.y + 6, part))
        height = self.y + MARGIN
        head = [text_at(MARGIN, 36, shown.title, "title"), text_at(MARGIN, 56, shown.heading())] + legend(82)
        head += [text_at(place, TOP - 6, rail_name(rail), "name") for rail, place in self.places.items()]
        begin = '<svg xmlns="http://www.w3.org/2000/svg" width="%d" height="%d" viewBox="0 0 %d %d" fill="%s">' % (
            self.width, height, self.width, height, INK)
        paper = tag("rect", width=self.width, height=height, fill="white")
        drawn = "\n".join([begin, tag("style", STYLE), paper] + head + self.under + self.over + ["</svg>", ""])
        return "\n".join(map(cut, drawn.split("\n")))

    def reach(self, is_open, y, fold=False):
        """Takes the rails down to y."""
        for rail, stretches in self.stretches.items():
            look = (is_closed(rail, is_open), fold)
            if stretches and stretches[-1][2] == look:
                stretches[-1][1] = y
            else:
                stretches.append([self.y, y, look])
        self.y = y

    def draw_fold(self, is_open, seconds):
        if seconds:
            self.reach(is_open, self.y + STEP, fold=True)
            self.over.append(text_at(self.left + TIME_X, self.y - 6, fold_words(seconds), "time"))

    def draw_row(self, row):
        badge = str(row.notice.number) if row.notice else ""
        room = 12 + 7 * len(badge) if badge else 0
        lines = wrapped(row.text(), room + width_of(row.word + "  "), LABELS)
        y = self.y + STEP - 6
        self.reach(row.open, self.y + STEP + LEADING * (len(lines) - 1))
        base = y + 4
        if second_words(row) != self.clock:
            self.clock = second_words(row)
            self.over.append(text_at(self.left + TIME_X, base, self.clock, "time"))
            if row.time:
                self.over.append(text_at(MARGIN, base, time_words(row), "", GREY))
        colour = row_colour(row)
        source = row.source_line()
        parts = [tag("title", escape(history.quote(source.encode("latin-1"))[1:-1]))] if source else []
        parts.append(self.mark(row, y, colour))
        if badge:
            parts.append(tag("rect", x=self.labels, y=base - 10, width=room - 4, height=13, rx=3, fill=colour))
            parts.append(text_at(self.labels + (room - 4) / 2, base, badge, "badge"))
        word = tag("tspan", escape(row.word), class_="strong") + " " + escape(lines[0])
        parts.append(tag("text", word, x=self.labels + room, y=base, fill=colour))
        for number, more in enumerate(lines[1:], 1):
            parts.append(text_at(self.labels, base + LEADING * number, more, "", colour))
        self.over.append(tag("g", "\n".join(["", *parts, ""]), class_="line" if row.is_line() else ""))

    def mark(self, row, y, colour):
        """The arrow of a row with its word beside the outer rail, or what stands on a rail."""
        x1, x2 = self.places[row.origin], self.places[row.target]
        self.under.append(line(max(x1, x2) + 8, y, self.labels - 6, y, FAINT, 1))
        if row.notice:
            self.copies.setdefault(row.notice.number, []).append((row.notice, x2, y))
        if row.lost:
            return cross(x1, y, colour)
        if x1 == x2:
            return tag("rect", x=x1 - 4, y=y - 4, width=8, height=8, fill=colour)
        word = text_at((x2 if row.origin == TOOL else max(x1, x2)) - APART // 2, y - 4, row.word, "word", colour)
        drawn = arrow(x1, x2, y, colour, THICK if row.notice else THIN, DOTS if row.link else "", bool(row.refused or row.vain))
        return drawn + "\n" + word

    def draw_rails(self):
        for rail, stretches in self.stretches.items():
            x = self.places[rail]
            for begin, end, (closed, fold) in stretches:
                self.under.append(line(x, begin, x, end, PALE if closed else GREY, 1 if closed else 2, "1 4" if fold else ""))

    def join_copies(self):
        """A bracket beside the server's rail, from the first copy to the last."""
        for sent in self.copies.values():
            notice, x, first = sent[0]
            if len(sent) > 1:
                out = x + BRACKETS[notice.kind]
                way = "M%d,%d H%d V%d" % (x, first, out, sent[-1][2]) + "".join(" M%d,%d H%d" % (out, y, x) for _, _, y in sent[1:])
                self.under.append(tag("path", d=way, fill="none", stroke=colour_of(notice), stroke_width=THICK))


def legend(y):
    parts, x = [], MARGIN
    for text, colour, width, dash, crossed in (
            ("message, reply", INK, THIN, "", False),
            ("notice, copies in its colour", COLOURS[0], THICK, "", False),
            ("link comes or goes", GREY, THIN, DOTS, False),
            ("acknowledge of nothing", INK, THIN, "", True),
            ("refused", RED, THIN, "", True)):
        parts += [arrow(x, x + 26, y - 4, colour, width, dash, crossed), text_at(x + 31, y, text)]
        x += int(41 + width_of(text))
    parts += [cross(x + 4, y - 4, RED), text_at(x + 12, y, "lost")]
    return parts + [text_at(x + 46, y, fold_words(14) + " nothing happened", "", GREY)]
