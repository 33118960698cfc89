"""Who holds a meter's authorizations from whom: a card for each authorization, a curve from each that backs it."""
import drawing
from drawing import Instants, Names, Svg, meet, union
from stores import Fault

CARD, GAP, LINE, MARGIN, BETWEEN = 236, 64, 14, 16, 14
SWEEPS = 4
SPANS = 3  # so many intervals on a card, and the rest counted


def page(svg, a):
    return drawing.page(svg, f"Meter {a.object} of block {a.block}: who holds from whom")


def draw(store, a):
    block, base = store.block(a.block), store.base(a.block)
    owner = {r["object"]: r["owner"] for r in store.records(base, "objects")}.get(a.object)
    if owner is None:
        raise Fault(f"block '{a.block}' has no meter {a.object}: 'meters show' lists them")
    administrators = [r["subject"] for r in store.records(base, "administrators") if r["object"] == a.object]
    entries = drawing.authorizations(store.records(base, "authorizations"), store.journal(a.block), a.object)
    if a.standing:
        entries = [e for e in entries if e.runs]
    return render(block, a, entries, owner, administrators)


# ---- who backs whom
def spans(e):
    """The instants that stand; of what was withdrawn altogether, those it had."""
    return e.runs or e.lost


def backers(e, entries):
    """The authorizations that its grantor hands on: on the mode, to the grantor, granted before, at shared instants. Of one
    that stands, those that stand; of one that was withdrawn, whatever it may have rested on."""
    return [b for b in entries
            if b.subject == e.grantor and b.mode == e.mode and b.transferable and not b.negative and b.granted < e.granted
            and meet(b.runs if e.runs else union(b.runs + b.lost), spans(e))]


def depths(entries, sources):
    """In which column each stands: behind everything that backs it. Grants rise in time along a chain, so this ends."""
    depth = {}
    for e in sorted(entries, key=lambda e: e.granted):
        depth[e.label] = 1 + max((depth[b.label] for b in backers(e, entries)), default=0) if e.grantor not in sources else 1
    return depth


# ---- drawing it
def settled(wishes):
    """Tops for things below one another in the given order, each (wish, height), together as near to the wishes as can be: where two
    would overlap they are joined, and stand around the mean of their wishes."""
    joined, offsets, offset = [], [], 0
    for wish, height in wishes:
        offsets.append(offset)
        joined.append((wish - offset, 1))
        offset += height
        while len(joined) > 1 and joined[-2][0] / joined[-2][1] > joined[-1][0] / joined[-1][1]:
            (total, count), (more, others) = joined[-2:]
            joined[-2:] = [(total + more, count + others)]
    tops = [total / count for total, count in joined for _ in range(count)]
    return [top + offset for top, offset in zip(tops, offsets)]


class Panel:
    """The chains of one mode."""

    def __init__(self, picture, mode, entries, y):
        self.picture, self.mode, self.top = picture, mode, y
        self.entries = entries
        self.depth = depths(entries, picture.sources)
        self.places = {}  # label, or subject of a source: x, y, height

    def height_of(self, e):
        return 12 + LINE * (2 + min(len(spans(e)), SPANS) + (len(spans(e)) > SPANS))

    def place(self):
        """Columns from left to right; in a column, what was withdrawn below the others, and each near the middle of those that curves
        join it to. Gives the place below all."""
        givers = [s for s in self.picture.sources if any(e.grantor == s for e in self.entries)]
        columns = [{("source", s): 12 + 2 * LINE for s in givers}]
        for column in range(1, max(self.depth.values(), default=0) + 1):
            columns.append({("line", e.label): self.height_of(e) for e in self.entries if self.depth[e.label] == column})
        for column, cards in enumerate(columns):
            for i, (key, height) in enumerate(cards.items()):
                self.places[key] = (MARGIN + column * (CARD + GAP), i * (height + BETWEEN), height)
        self.settle(columns)
        up = min(y for _, y, _ in self.places.values()) - self.top - 34
        self.places = {key: (x, y - up, height) for key, (x, y, height) in self.places.items()}
        return max(y + height for _, y, height in self.places.values()) + 14

    def settle(self, columns):
        """Goes to and fro over the columns, each time placing the cards of one by where those on the one side stand, at last on both."""
        before = {("line", e.label): [key for key, _ in self.from_places(e)] for e in self.entries}
        behind = {}
        for key, others in before.items():
            for other in others:
                behind.setdefault(other, []).append(key)
        rank = {("line", e.label): (not e.runs, e.negative, e.label) for e in self.entries}
        for sides in ([before], [behind]) * SWEEPS + ([before, behind],):
            for cards in columns if sides[0] is before else reversed(columns):
                wish = {key: self.middle(key, [other for side in sides for other in side.get(key, ())]) for key in cards}

                def order(key):
                    withdrawn, *rest = rank.get(key, (False, False, 0))
                    return withdrawn, wish[key], rest
                ordered = sorted(cards, key=order)
                for key, y in zip(ordered, settled([(wish[key] - cards[key] / 2, cards[key] + BETWEEN) for key in ordered])):
                    self.places[key] = (self.places[key][0], y, cards[key])

    def middle(self, key, others):
        """The middle of the others' places; of its own, if there are none."""
        middles = [y + height / 2 for _, y, height in (self.places[other] for other in others or [key])]
        return sum(middles) / len(middles)

    def from_places(self, e):
        """What a curve to it starts at."""
        if e.grantor in self.picture.sources:
            return [(("source", e.grantor), [])]
        return [(("line", b.label), meet(spans(b), spans(e))) for b in backers(e, self.entries)]

    def draw(self):
        p = self.picture
        p.svg.text("panel", MARGIN, self.top + 16, p.names.of("mode", self.mode))
        for key, (x, y, height) in self.places.items():
            if key[0] == "source":
                self.source(key[1], x, y, height)
        for e in self.entries:
            self.curves(e)
            self.card(e)

    def source(self, subject, x, y, height):
        p = self.picture
        p.svg.rect("source", x, y, CARD, height, radius=6)
        p.svg.name("who", x + 10, y + 6 + LINE - 3, p.names.of("subject", subject), CARD - 20)
        p.svg.text("mode", x + 10, y + 6 + 2 * LINE - 3, p.sources[subject])

    def curves(self, e):
        x2, y2, h2 = self.places["line", e.label]
        origins = sorted(self.from_places(e), key=lambda origin: self.places[origin[0]][1])
        for i, (key, shared) in enumerate(origins):
            x1, y1, h1 = self.places[key]
            start, end = y1 + h1 / 2, y2 + h2 * (i + 1) / (len(origins) + 1)
            kind = "edgegone" if not e.runs else "edgedeny" if e.negative else "edge"
            bend = max((x2 - x1 - CARD) / 2, 30)
            tip = "; ".join(self.picture.instants.long_span(*s) for s in shared)
            self.picture.svg.path(
                kind, f"M{x1 + CARD:.1f} {start:.1f}C{x1 + CARD + bend:.1f} {start:.1f} {x2 - bend:.1f} {end:.1f} {x2 - 6:.1f} {end:.1f}",
                tip and f"backed {tip}", behind=True)
            self.picture.svg.behind.append(
                f'<path class="{kind}head" d="M{x2 - 7:.1f} {end - 4:.1f}L{x2:.1f} {end:.1f}L{x2 - 7:.1f} {end + 4:.1f}z"/>')

    def card(self, e):
        p = self.picture
        x, y, height = self.places["line", e.label]
        kind = "gone" if not e.runs else "denial" if e.negative else "grant"
        p.used.add(kind)
        told = (f"#{e.label}: {p.names.of('subject', e.grantor)} {'denies' if e.negative else 'grants'} {p.names.of('subject', e.subject)}, "
                f"at {p.instants.long(e.granted)}: " + ", ".join(p.instants.long_span(*s) for s in spans(e)))
        p.svg.rect(kind, x, y, CARD, height, told + ("" if e.runs else ", withdrawn"), radius=6)
        faint = "" if e.runs else " faint"
        tag = f"#{e.label}{' →' if e.transferable else ''}"
        p.svg.name("who" + faint, x + 10, y + 6 + LINE - 3, p.names.of("subject", e.subject), CARD - 28 - drawing.BOLD * len(tag))
        p.svg.text("tag" + faint, x + CARD - 10, y + 6 + LINE - 3, tag, "end")
        what = ("denied" if e.negative else "granted") + f" {p.instants.short(e.granted)}" + ("" if e.runs else ", withdrawn")
        p.svg.text("mode" + faint, x + 10, y + 6 + 2 * LINE - 3, what)
        shown = [p.instants.span(*s) for s in spans(e)[:SPANS]]
        if len(spans(e)) > SPANS:
            shown.append(f"and {len(spans(e)) - SPANS} more intervals")
        for i, words in enumerate(shown):
            p.svg.text("span" + faint, x + 10, y + 6 + (3 + i) * LINE - 3, drawing.cut(words, 38))


class Picture:
    def __init__(self, block, a, entries, owner, administrators):
        self.svg, self.names, self.used = Svg(), Names(a.names), set()
        self.instants = Instants(block, {t for e in entries for s in e.runs + e.lost for t in s} | {e.granted for e in entries}, a.scale)
        self.sources = {owner: "owner", **{s: "administrator" for s in administrators}}


def render(block, a, entries, owner, administrators):
    p = Picture(block, a, entries, owner, administrators)
    y, panels = 66, []
    for mode in sorted({e.mode for e in entries}):
        panel = Panel(p, mode, [e for e in entries if e.mode == mode], y)
        y = panel.place() + 10
        panels.append(panel)
    columns = 1 + max((d for panel in panels for d in panel.depth.values()), default=1)
    width = max(2 * MARGIN + columns * CARD + (columns - 1) * GAP, 720)
    for i, panel in enumerate(panels):
        if i % 2 == 0:
            bottom = panels[i + 1].top if i + 1 < len(panels) else y
            p.svg.behind.append(f'<rect class="band" x="0" y="{panel.top - 6}" width="{width}" height="{bottom - panel.top}"/>')
        panel.draw()
    title = f"{p.names.meter(a.object)} of block {block.name}: who holds from whom"
    p.svg.text("title", MARGIN, 30, title)
    p.svg.text("sub", MARGIN, 50, "Each card is an authorization, with its label; a curve leads to it from what its grantor holds. "
               "→ may be handed on")
    if not panels:
        p.svg.text("note", MARGIN, 78, f"Nobody holds anything on this meter, which is {p.names.of('subject', owner)}'s.")
        return p.svg.done(width, 100, title)
    legend = [("source", "owner or administrator"), ("grant", "a grant"), ("denial", "a denial"), ("gone", "withdrawn altogether")]
    y = p.svg.legend(y + 20, width, [(kind, words) for kind, words in legend if kind == "source" or kind in p.used])
    return p.svg.done(width, y, title)
