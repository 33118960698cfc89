"""Who may do what on a meter over time."""
from collections import namedtuple

import drawing
from drawing import Instants, Names, Scale, Svg, meet, minus, union
from stores import LAST, Fault

NAME, MODE, WIDTH, INFINITE = (120, 220), (50, 110), 790, 60  # the least and most room for a name and a mode; and the scale
STRIP, LANE = 16, 15
LETTER_IN, LETTER_TICK = 6.0, 6.6  # how wide a letter is, roughly, in a bar and at a tick
# as the legend has them
LEGEND = {"yes": "may, by an authorization", "rule": "may, by a rule alone", "deny": "granted, but denied",
          "ruledeny": "granted, but denied by a rule", "grant": "a grant: its label, and from whom (→ may be handed on)",
          "denial": "a denial", "gone": "withdrawn"}
Row = namedtuple("Row", "subject modes when entries")  # subject 0: everybody else, in all modes that are alike


def page(svg, a):
    return drawing.page(svg, f"Meter {a.object} of block {a.block} over time")


def draw(store, a):
    block, base = store.block(a.block), store.base(a.block)
    if a.object not in [r["object"] for r in store.records(base, "objects")]:
        raise Fault(f"block '{a.block}' has no meter {a.object}: 'meters show' lists them")
    entries = store.journal(a.block)
    records = store.records(base, "authorizations")
    rules = store.records(base, "rules")
    found = rows(store, base, a.object, records, rules, drawing.authorizations(records, entries, a.object))
    return render(block, a, found, [r for r in rules if r["left_object"] == a.object], store.records(base, "heading")[0]["clock"])


# ---- what there is to draw
def rows(store, base, object_, records, rules, entries):
    here = [r for r in rules if r["left_object"] == object_]
    modes = {e.mode for e in entries} | {r["left_mode"] for r in here}
    modes = sorted(range(1, 9) if 0 in modes else modes)
    subjects = {e.subject for e in entries} | {r["subject"] for r in records} | {r["left_subject"] for r in here} - {0}
    named = subjects | {r["right_subject"] for r in rules} | {r["left_subject"] for r in rules}
    stranger = next((s for s in range(1, 1024) if s not in named), None)
    everybody = {m: store.runs(base, stranger, m, object_) if stranger else [] for m in modes}
    out = []
    for subject in sorted(subjects):
        for mode in modes:
            when = store.runs(base, subject, mode, object_)
            own = [e for e in entries if (e.subject, e.mode) == (subject, mode)]
            if own or when and when != everybody[mode]:
                out.append(Row(subject, [mode], when, own))
    alike = {}
    for mode in modes:
        alike.setdefault(tuple(everybody[mode]), []).append(mode)
    return out + [Row(0, group, list(when), []) for when, group in alike.items() if when]


def marks_of(rows_):
    spans = [span for row in rows_ for runs in [row.when] + [e.runs + e.lost for e in row.entries] for span in runs]
    return {start for start, _ in spans} | {end + 1 for _, end in spans if end < LAST}


def net(row):
    """The strip of a row: kinds, and runs of each."""
    given = union(run for e in row.entries if not e.negative for run in e.runs)
    denied = union(run for e in row.entries if e.negative for run in e.runs)
    return [("yes", meet(row.when, given)), ("rule", minus(row.when, given)), ("deny", meet(given, denied)),
            ("ruledeny", minus(minus(given, denied), row.when))]


def lanes_of(entries):
    """Authorizations packed into lanes, all pieces of one in the same lane: grants above denials."""
    lanes = []
    spans = {e.label: sorted(e.runs + e.lost) for e in entries}
    for entry in sorted(entries, key=lambda e: (e.negative, spans[e.label][0], e.label)):
        for lane in lanes:
            if spans[lane[-1].label][-1][1] < spans[entry.label][0][0] and lane[-1].negative == entry.negative:
                lane.append(entry)
                break
        else:
            lanes.append([entry])
    return lanes


# ---- drawing it
def room(bounds, letter, words):
    """How wide a column of words is, within its bounds."""
    return min(max([bounds[0]] + [letter * len(word) for word in words]), bounds[1])


class Picture:
    def __init__(self, block, a, rows_, names):
        self.svg, self.names, self.rows = Svg(), names, rows_
        marks = marks_of(rows_)
        self.instants = Instants(block, marks, a.scale)
        self.name_room = room(NAME, drawing.BOLD, map(self.who, rows_))
        self.left = 16 + self.name_room + room(MODE, LETTER_TICK, map(self.modes, rows_)) + 22
        self.right = self.left + WIDTH + INFINITE
        self.scale = Scale(marks or {0, 1}, self.left, WIDTH, INFINITE)
        self.used = set()

    def bar(self, kind, span, y, height, tip, texts, room_behind=0):
        """A bar, with the longest of the texts that fits; or, where there is room behind it, the shortest there."""
        x1, x2 = self.scale.stretch(*span)
        self.used.add(kind)
        self.svg.rect(kind, x1, y, x2 - x1, height, tip)
        colour = {"yes": " light", "gone": " faint"}.get(kind, "")
        fitting = [text for text in texts if LETTER_IN * len(text) + 8 < x2 - x1]
        if fitting:
            self.svg.text("in" + colour, x1 + 4, y + height / 2 + 3.7, fitting[0])
        elif texts and LETTER_IN * len(texts[-1]) + 8 < room_behind:
            self.svg.text("beside" + colour, x2 + 4, y + height / 2 + 3.7, texts[-1])

    def strip(self, row, y):
        self.svg.path("track", f"M{self.left} {y + STRIP / 2}H{self.right}", behind=True)
        for kind, runs in net(row):
            for span in runs:
                texts = [self.instants.span(*span), self.instants.span(*span, year=False)] if kind in ("yes", "rule") else []
                self.bar(kind, span, y, STRIP - 1, f"{LEGEND[kind]}: {self.instants.long_span(*span)}", texts)

    def lane(self, entries, y):
        """Authorizations beside one another, each with what stands of it and what was withdrawn."""
        pieces = sorted([(span, e, False) for e in entries for span in e.runs] + [(span, e, True) for e in entries for span in e.lost])
        ends = [self.scale.x(span[0]) for span, _, _ in pieces[1:]] + [self.right]
        for (span, e, lost), end in zip(pieces, ends):
            kind = "gone" if lost else "denial" if e.negative else "grant"
            self.bar(kind, span, y, LANE - 3, *self.told(e, span, lost), end - self.scale.stretch(*span)[1])

    def told(self, e, span, lost):
        """Of a piece of an authorization: all where the mouse rests, and texts to choose from."""
        giver, verb = self.names.of("subject", e.grantor), "denies" if e.negative else "grants"
        brief, hand = giver if giver != f"subject {e.grantor}" else str(e.grantor), " →" if e.transferable else ""
        tip = (f"#{e.label}: {giver} {verb} {self.names.of('subject', e.subject)} {self.names.of('mode', e.mode)}, "
               f"{self.instants.long_span(*span)}")
        if lost:
            return tip + ", withdrawn", [f"#{e.label} from {brief}, withdrawn", f"#{e.label} withdrawn", f"#{e.label}"]
        return (f"{tip}, at {self.instants.long(e.granted)}{', may be handed on' if e.transferable else ''}",
                [f"#{e.label} from {brief}{hand}", f"#{e.label}{hand}", f"#{e.label}"])

    def who(self, row):
        return "everybody else" if row.subject == 0 else self.names.of("subject", row.subject)

    def modes(self, row):
        if len(row.modes) == 8:
            return "all modes"
        words = [self.names.of("mode", m) for m in row.modes]
        return ", ".join(words[:1] + [word.removeprefix("mode ") for word in words[1:]])

    def row(self, row, y, first):
        if first:
            self.svg.name("who", 16, y + 12, self.who(row), self.name_room)
        self.svg.name("mode", self.left - 12, y + 12, self.modes(row), MODE[1], "end")
        self.strip(row, y)
        y += STRIP + 3
        for lane in lanes_of(row.entries):
            self.lane(lane, y)
            y += LANE
        return y + 7

    def axis(self, top, bottom):
        last, end, ticks = -1000.0, self.left + WIDTH, []
        for t, words in self.scale.ticks(self.instants):
            x, half = self.scale.x(t), LETTER_TICK * max(map(len, words)) / 2
            if x - half > last and x + half < end + INFINITE / 2 - 6:
                ticks.append((x, *words))
                last = x + half + 6
        for x, day, time in ticks:
            self.svg.path("grid", f"M{x:.1f} {top}V{bottom:.1f}", behind=True)
            self.svg.text("tick", x, top - (18 if any(tick[2] for tick in ticks) else 6), day, "middle", behind=True)
            if time:
                self.svg.text("tick", x, top - 6, time, "middle", behind=True)
        self.svg.behind.append(f'<rect x="{end}" y="{top}" width="{INFINITE}" height="{bottom - top:.1f}" fill="url(#infinite)"/>')
        self.svg.behind.append(f'<text class="tick" style="font-size:17px" x="{end + INFINITE / 2}" y="{top - 6}" text-anchor="middle">∞</text>')

    def line_at(self, t, words, top, bottom):
        """A line at an instant, if the scale has it, with its words at the foot."""
        if not self.scale.low <= t <= self.scale.high:
            return False
        x = self.scale.x(t)
        self.svg.path("clock", f"M{x:.1f} {top}V{bottom + 16:.1f}", behind=True)
        anchor, at = ("end", x - 5) if x > self.left + WIDTH - 160 else ("start", x + 5)
        self.svg.text("clocktext", at, bottom + 15, f"{words}, {self.instants.long(t)}", anchor, behind=True)
        return True


def render(block, a, rows_, rules, last):
    names = Names(a.names)
    p = Picture(block, a, rows_, names)
    width, top = p.right + 20, 92
    p.svg.text("title", 16, 30, f"{names.meter(a.object)} of block {block.name}: who may do what, and when")
    if not rows_:
        p.svg.text("note", 16, 54, "Nobody may do anything to this meter, and nobody ever could.")
        return p.svg.done(width, 76, f"Meter {a.object} of block {block.name}")
    p.svg.text("sub", 16, 50, scale_words(p.scale, p.instants))
    y, shaded, before = top + 8, False, None
    for row in rows_:
        shaded = shaded if row.subject == before else not shaded
        below = p.row(row, y, row.subject != before)
        if shaded:
            p.svg.behind.insert(0, f'<rect class="band" x="0" y="{y - 5}" width="{width}" height="{below - y}"/>')
        y, before = below, row.subject
    p.axis(top, y)
    if p.line_at(block.instant, "now", top, y) or p.line_at(last, "last request", top, y):
        y += 20
    y = p.svg.legend(y + 22, width, [(kind, words) for kind, words in LEGEND.items() if kind in p.used])
    for rule in rules:
        for line in wrap_rule(names, rule, p.instants):
            p.svg.text("note", 16, y, line)
            y += 16
    return p.svg.done(width, y + 4, f"Meter {a.object} of block {block.name}: who may do what, and when")


def scale_words(scale, instants):
    what = "dates in UTC" if instants.dates else "instants"
    how = "even steps between the instants where something changes" if scale.even else "true to length"
    return f"Scale: {what}, {how}; the last column runs to infinity"


def wrap_rule(names, rule, instants):
    words = "Rule " + names.rule(rule, instants.span(rule["starts"], rule["ends"]))
    lines = drawing.wrap(words, 165)
    return lines[:1] + ["    " + line for line in lines[1:]]
