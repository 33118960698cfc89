"""What both pictures share: runs of instants, what the journal remembers, a scale, names, and SVG."""
import bisect
import datetime
import html
import re
from collections import namedtuple

from stores import LAST, Fault, moment

OPERATORS = ("", "whenever", "as long as", "whenever not", "unless")


# ---- runs: sorted lists of (first, last), both included, with a gap between two
def union(runs):
    out = []
    for start, end in sorted(runs):
        if out and start <= out[-1][1] + 1:
            out[-1] = (out[-1][0], max(out[-1][1], end))
        else:
            out.append((start, end))
    return out


def minus(runs, taken):
    out = []
    for start, end in runs:
        for first, last in taken:
            if last < start or first > end:
                continue
            if first > start:
                out.append((start, first - 1))
            start = last + 1
            if start > end:
                break
        if start <= end:
            out.append((start, end))
    return out


def meet(runs, others):
    return minus(runs, minus(runs, others))


# ---- authorizations: what stands, and what the journal remembers
# `runs` are the instants that stand, `lost` those that were withdrawn.
Authorization = namedtuple("Authorization", "label grantor subject mode negative transferable granted runs lost")


def instant_of(text):
    return LAST if text == "inf" else int(text)


def first_spans(entries, object_):
    """Each grant and denial on the object as it was made: by its label. The base forgets what was withdrawn."""
    out = {}
    for entry in entries:
        words, reply = entry.line.split(" "), entry.reply.split(" ")
        if reply[0] == "done" and len(words) > 8 - (words[2:3] == ["DENY"]) and words[2] in ("GRANT", "DENY") and int(words[4]) == object_:
            out[int(reply[1])] = Authorization(
                int(reply[1]), int(words[1]), int(words[5]), int(words[3]), words[2] == "DENY", words[-1] == "y",
                instant_of(words[0]), [], [(instant_of(words[6]), instant_of(words[7]))])
    return out


def authorizations(records, entries, object_):
    """All authorizations on the object, those that stand and those that were withdrawn, by label."""
    out = first_spans(entries, object_)
    pieces = {}
    for r in records:
        if r["object"] == object_:
            pieces.setdefault(r["label"], []).append(r)
    for label, parts in pieces.items():
        r, runs = parts[0], union((p["starts"], p["ends"]) for p in parts)
        lost = minus(out[label].lost, runs) if label in out else []
        out[label] = Authorization(label, r["grantor"], r["subject"], r["mode"], bool(r["negative"]), bool(r["transferable"]),
                                   r["granted"], runs, lost)
    return [out[label] for label in sorted(out)]


# ---- names
class Names:
    """What subjects, modes and meters are called: their numbers, unless a file says otherwise."""

    def __init__(self, path):
        self.known = {}
        if path is None:
            return
        try:
            with open(path, encoding="utf-8") as file:
                for i, line in enumerate(file):
                    words = line.split(None, 2)
                    if words and not (len(words) == 3 and words[0] in ("subject", "mode", "meter") and words[1].isdecimal()):
                        raise Fault(f"{path}, line {i + 1}: write 'subject 2 Agent', 'mode 1 read' or 'meter 7 Flat 3'")
                    if words:
                        self.known[words[0], int(words[1])] = words[2].strip()
        except (OSError, UnicodeDecodeError) as error:
            raise Fault(f"{path} cannot be read: {error}") from error

    def of(self, kind, number):
        return self.known.get((kind, number), f"{kind} {number}")

    def meter(self, number):
        known = self.known.get(("meter", number))
        return f"Meter {number} ({known})" if known else f"Meter {number}"

    def rule(self, r, span):
        """A rule in words."""
        who = "any subject" if r["left_subject"] == 0 else self.of("subject", r["left_subject"])
        mode = "any mode" if r["left_mode"] == 0 else self.of("mode", r["left_mode"])
        other = "it" if r["right_subject"] in (0, r["left_subject"]) else self.of("subject", r["right_subject"])
        same = "the same mode" if r["right_mode"] == 0 else self.of("mode", r["right_mode"])
        giver = "" if r["right_grantor"] == 0 else f" from {self.of('subject', r['right_grantor'])}"
        option = ("", " with the option to hand it on", "")[r["right_option"]] if not r["right_negative"] else ""
        return (f"#{r['label']} by {self.of('subject', r['author'])}, {span}: {who} {'is denied' if r['left_negative'] else 'holds'} {mode} on "
                f"{self.of('meter', r['left_object'])} {OPERATORS[r['operator']]} {other} "
                f"{'is denied' if r['right_negative'] else 'holds'} {same} on {self.of('meter', r['right_object'])}{giver}{option}")


# ---- instants as words
class Instants:
    """Instants as dates or as numbers, long (a tooltip) and short (in a bar)."""

    def __init__(self, block, shown, scale):
        self.block = block
        finite = [t for t in shown if t < LAST]
        early = not finite or block.origin + max(finite) * block.unit < 10_000_000
        self.dates = scale == "dates" or scale is None and not (block.origin == 0 and early)
        moments = [moment(block, t) for t in finite] if self.dates else []
        self.dates = self.dates and None not in moments
        self.years = len({m.year for m in moments}) > 1 if self.dates else False

    def long(self, t):
        if t >= LAST:
            return "∞"
        return moment(self.block, t).strftime("%Y-%m-%d %H:%M:%S") if self.dates else str(t)

    def short(self, t, end=False, year=True):
        if t >= LAST:
            return "∞"
        if not self.dates:
            return str(t)
        day = "%-d %b %Y" if self.years and year else "%-d %b"
        m, after = moment(self.block, t), moment(self.block, t + 1)
        if end and after and (after.hour, after.minute, after.second) == (0, 0, 0) or (m.hour, m.minute, m.second) == (0, 0, 0):
            return m.strftime(day)
        return m.strftime(day + " %H:%M")

    def span(self, start, end, year=True):
        """From start to end, a day or a year that both share said once."""
        first, last = self.short(start, year=year), self.short(end, True, year)
        if first == last:
            return first
        day, _, time = last.rpartition(" ")
        if ":" in time and first.startswith(day + " "):
            return f"{first}–{time}"
        same_year = self.dates and end < LAST and moment(self.block, start).year == moment(self.block, end).year
        return f"{self.short(start, year=False) if same_year else first}–{last}"

    def long_span(self, start, end):
        return f"{self.long(start)} to {self.long(end)}"


# ---- the scale
DAY = 86400
SECONDS = (1, 5, 10, 30, 60, 300, 600, 1800, 3600, 10800, 21600, 43200, DAY, 2 * DAY, 7 * DAY, 14 * DAY)
MONTHS = (1, 2, 3, 6, 12, 24, 60, 120, 240, 600)


class Scale:
    """Where an instant stands: true to length, or in even steps where that would hide something; then a column for ∞."""

    def __init__(self, marks, left, width, infinite):
        self.marks = sorted({t for t in marks if t <= LAST}) or [0]
        self.low, self.high = self.marks[0], max(self.marks[-1], self.marks[0] + 1)
        if len(self.marks) == 1:
            self.marks.append(self.high)
        self.left, self.width, self.infinite = left, width, infinite
        gap = min(b - a for a, b in zip(self.marks, self.marks[1:]))
        self.even = gap * width / (self.high - self.low) < 3

    def right(self):
        return self.left + self.width + self.infinite

    def x(self, t):
        if t > self.high:
            return self.right()
        if not self.even:
            return self.left + (t - self.low) * self.width / (self.high - self.low)
        i = min(max(bisect.bisect_right(self.marks, t) - 1, 0), len(self.marks) - 2)
        a, b = self.marks[i], self.marks[i + 1]
        return self.left + self.width * (i + (t - a) / (b - a)) / (len(self.marks) - 1)

    def stretch(self, start, end):
        return self.x(start), self.right() if end >= LAST else self.x(end + 1)

    def ticks(self, instants):
        """Instants to write down, with what to write: one line, or a day and a time."""
        if self.even:
            return [(t, tick_words(instants, t)) for t in self.marks]
        if not instants.dates:
            step = next(s for k in range(11) for s in (10**k, 2 * 10**k, 5 * 10**k) if (self.high - self.low) / s <= 10)
            return [(t, (str(t), "")) for t in range(-(-self.low // step) * step, self.high + 1, step)]
        return [(t, tick_words(instants, t)) for t in date_ticks(instants.block, self.low, self.high)]


def tick_words(instants, t):
    if not instants.dates:
        return str(t), ""
    m = moment(instants.block, t)
    time = m.strftime("%H:%M:%S") if m.second else m.strftime("%H:%M") if m.hour or m.minute else ""
    return m.strftime("%-d %b %Y"), time


def date_ticks(block, low, high):
    first, last = block.origin + low * block.unit, block.origin + high * block.unit
    for step in SECONDS:
        if (last - first) / step <= 9:
            seconds = range(-(-first // step) * step, last + 1, step)
            return [(s - block.origin) // block.unit for s in seconds if (s - block.origin) % block.unit == 0]
    begin = moment(block, low)
    for months in MONTHS:
        if (last - first) / (months * 30.44 * DAY) <= 9:
            break
    out, count = [], begin.year * 12 + begin.month - 1
    count = -(-count // months) * months
    while True:
        m = datetime.datetime(count // 12, count % 12 + 1, 1, tzinfo=datetime.timezone.utc)
        t = -(-(int(m.timestamp()) - block.origin) // block.unit)
        if t > high:
            return out
        if t >= low:
            out.append(t)
        count += months


# ---- SVG
STYLE = """
text{fill:#2a3342}
.title{font-size:18px;font-weight:bold}.sub{fill:#667085}.who{font-weight:bold}.mode{fill:#475467}.tick,.note{fill:#667085}
.tick{stroke:#fff;stroke-width:4px;paint-order:stroke;stroke-linejoin:round}
.in,.beside{font-size:10px}text.light{fill:#fff}
.band{fill:#f4f6f9}.grid,.track{stroke:#dfe3ea;fill:none}.track{stroke-dasharray:1 4}.clock{stroke:#b45309;stroke-width:1.5;fill:none}.clocktext{fill:#b45309}
.yes{fill:#23734a}.rule{fill:#a6dcbd;stroke:#23734a;stroke-dasharray:4 2}.deny{fill:url(#deny)}.ruledeny{fill:url(#ruledeny)}
.grant{fill:#dbe9f8;stroke:#3f7fb8}.denial{fill:#fbdcd8;stroke:#b3372b}.gone{fill:#fff;fill-opacity:.85;stroke:#98a2b3;stroke-dasharray:2 3}
.source{fill:#fff3d6;stroke:#b7791f}.edge{fill:none;stroke:#5b87b3;stroke-width:1.6}.edgedeny{fill:none;stroke:#b3372b;stroke-width:1.6}
.edgehead{fill:#5b87b3}.edgedenyhead{fill:#b3372b}.edgegonehead{fill:#98a2b3}.panel{font-size:13px;font-weight:bold}.tag{fill:#475467;font-weight:bold}
.span{font-size:10.5px}text.faint{fill:#7a8594}
.edgegone{fill:none;stroke:#98a2b3;stroke-dasharray:2 4;stroke-width:1.4}
"""
DEFS = """<defs>
<pattern id="deny" width="6" height="6" patternTransform="rotate(45)" patternUnits="userSpaceOnUse"><rect width="6" height="6" fill="#f6beb6"/><rect width="3" height="6" fill="#b3372b"/></pattern>
<pattern id="ruledeny" width="6" height="6" patternTransform="rotate(45)" patternUnits="userSpaceOnUse"><rect width="6" height="6" fill="#fdebd0"/><rect width="2.5" height="6" fill="#c2751a"/></pattern>
<linearGradient id="infinite"><stop offset="0" stop-color="#8891a5" stop-opacity=".04"/><stop offset="1" stop-color="#8891a5" stop-opacity=".28"/></linearGradient>
</defs>"""
LETTER, BOLD = 6.2, 7.3  # the width of a letter at 11 pixels, roughly


def escaped(words):
    """Text for an SVG or a page: what XML does not allow at all as a replacement character."""
    return html.escape(re.sub("[^\t\n\r\x20-\ud7ff\ue000-\ufffd\U00010000-\U0010ffff]", "\ufffd", words))


class Svg:
    def __init__(self):
        self.behind, self.parts = [], []

    def rect(self, kind, x, y, width, height, tip=None, radius=2, behind=False):
        title = f"<title>{escaped(tip)}</title>" if tip else ""
        (self.behind if behind else self.parts).append(
            f'<rect class="{kind}" x="{x:.1f}" y="{y:.1f}" width="{max(width, 1.5):.1f}" height="{height:.1f}" rx="{radius}">{title}</rect>')

    def path(self, kind, d, tip=None, behind=False):
        title = f"<title>{escaped(tip)}</title>" if tip else ""
        (self.behind if behind else self.parts).append(f'<path class="{kind}" d="{d}">{title}</path>')

    def text(self, kind, x, y, words, anchor="start", behind=False):
        (self.behind if behind else self.parts).append(
            f'<text class="{kind}" x="{x:.1f}" y="{y:.1f}" text-anchor="{anchor}">{escaped(words)}</text>')

    def name(self, kind, x, y, words, width, anchor="start"):
        """A name in so much room: cut if it is longer, and whole where the mouse rests."""
        short = cut(words, int(width / BOLD))
        tip = f"<title>{escaped(words)}</title>" if short != words else ""
        self.parts.append(f'<text class="{kind}" x="{x:.1f}" y="{y:.1f}" text-anchor="{anchor}">{escaped(short)}{tip}</text>')

    def legend(self, y, right, entries):
        """Boxes with their meanings, in as many lines as they take; gives the place below."""
        x = 16.0
        for kind, words in entries:
            width = 34 + LETTER * len(words)
            if x + width > right:
                x, y = 16.0, y + 20
            self.rect(kind, x, y - 11, 22, 13)
            self.text("note", x + 28, y, words)
            x += width + 16
        return y + 24

    def done(self, width, height, label):
        return "\n".join(
            [f'<svg xmlns="http://www.w3.org/2000/svg" viewBox="0 0 {width:.0f} {height:.0f}" width="{width:.0f}" height="{height:.0f}" '
             f'font-family="DejaVu Sans, Verdana, sans-serif" font-size="11" role="img" aria-label="{escaped(label)}">',
             f"<style>{STYLE}</style>", DEFS, f'<rect width="{width:.0f}" height="{height:.0f}" fill="#fff"/>']
            + self.behind + self.parts + ["</svg>", ""])


def cut(words, letters):
    return words if len(words) <= letters else words[:letters - 1] + "…"


def wrap(words, letters):
    lines, line = [], ""
    for word in words.split(" "):
        if line and len(line) + 1 + len(word) > letters:
            lines, line = lines + [line], word
        else:
            line = f"{line} {word}" if line else word
    return lines + [line]


def page(svg, title):
    """A self-contained page around a picture."""
    return f"""<!DOCTYPE html>
<html lang="en"><head><meta charset="utf-8"><meta name="viewport" content="width=device-width, initial-scale=1">
<title>{escaped(title)}</title>
<style>body{{margin:0;background:#eef1f5}}main{{max-width:max-content;margin:24px auto;background:#fff;box-shadow:0 1px 6px #0002;border-radius:6px;overflow-x:auto}}svg{{display:block}}</style>
</head><body><main>
{svg}</main></body></html>
"""
