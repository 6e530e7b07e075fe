"""The operating profile as a picture: one SVG with no outside resource."""

from decimal import Decimal
from html import escape

from desk import words
from desk.fields import acting
from desk.measures import GRAINS_IN_KW, plain
from desk.outcome import Outcome

WIDTH, LEFT, RIGHT = 1000, 64, 984  # the view's width, and where the plot begins and ends
LANE, PLOT, FOOT = 13, 300, 54  # heights: a lane of instructions, the plot, what stands below it
LETTER = Decimal("5.7")  # a letter's width at the labels' size
COLOURS = {0: "#1b6e3c", 7: "#777777"}  # of a fate; any other:
OTHER_FATE = "#a6431d"
STYLE = (
    "text{font:9.5px sans-serif;fill:#333}.grid{stroke:#e3e3e3}.bar{fill:#d3e2f1}.frame{fill:none;stroke:#999}"
    ".limit{stroke:#888;stroke-dasharray:5 3}.name{paint-order:stroke;stroke:#fff;stroke-width:3px}"
    ".profile{fill:none;stroke:#174a7c;stroke-width:1.6;stroke-linejoin:round}.drop{stroke-dasharray:1 3}"
)


def number(value):
    """A coordinate."""
    return plain(round(Decimal(value), 2))


def nice_step(most):
    """A round step of which at most six reach a height; in thousandths of a kW, so that it is whole."""
    step = 1
    while True:
        for factor in (1, 2, 5):
            if most * 1000 <= 6 * factor * step:
                return factor * step
        step *= 10


class Scale:
    """Where seconds and kW lie in the view."""

    def __init__(self, outcome: Outcome, lanes: int):
        self.seconds = outcome.day.clock.seconds
        self.top = LANE * lanes + 14
        self.bottom = self.top + PLOT
        self.height = self.bottom + FOOT
        highest = max(max(a, b) for _, _, a, b in outcome.listing.segments)
        self.most = max(outcome.day.unit["maximum"], -(-highest // GRAINS_IN_KW))
        self.step = nice_step(self.most)

    def x(self, second):
        return LEFT + Decimal(min(second, self.seconds)) * (RIGHT - LEFT) / self.seconds

    def y(self, kw):
        return self.bottom - Decimal(kw) * (PLOT - 12) / self.most


def svg(outcome: Outcome) -> str:
    """The picture of a day that closed."""
    marks, lanes = placed(outcome)
    scale = Scale(outcome, lanes)
    parts = [
        f'<svg xmlns="http://www.w3.org/2000/svg" viewBox="0 0 {WIDTH} {scale.height}" role="img">',
        f"<title>{escape(outcome.title)}</title><style>{STYLE}</style>",
        f'<rect width="{WIDTH}" height="{scale.height}" fill="#fff"/>',
        *bars(outcome, scale),
        *grid(outcome, scale),
        *limits(outcome, scale),
        profile(outcome, scale),
        *(piece for mark in marks for piece in drawn(outcome, scale, *mark)),
        legend(scale),
        "</svg>",
    ]
    return "\n".join(parts) + "\n"


def line(x1, y1, x2, y2, kind):
    ends = " ".join(f'{name}="{number(value)}"' for name, value in zip(("x1", "y1", "x2", "y2"), (x1, y1, x2, y2)))
    return f"<line {ends} {kind}/>"


def text(x, y, words_, anchor="start", more=""):
    return f'<text x="{number(x)}" y="{number(y)}" text-anchor="{anchor}"{more}>{escape(words_)}</text>'


def bars(outcome, scale):
    """The quantities, a bar for each half-hour."""
    for half_hour in outcome.half_hours:
        left, right, top = scale.x(half_hour.start), scale.x(half_hour.end), scale.y(half_hour.kw)
        size = f'width="{number(right - left)}" height="{number(scale.bottom - top)}"'
        said = f"<title>{escape(half_hour.label)}: {half_hour.kw:,} kW</title>"
        yield f'<rect class="bar" x="{number(left)}" y="{number(top)}" {size}>{said}</rect>'


def grid(outcome, scale):
    """Hours below, MW at the left."""
    clock = outcome.day.clock
    for second in range(0, scale.seconds + 1, 10_800):
        x = scale.x(second)
        yield line(x, scale.top, x, scale.bottom, 'class="grid"')
        yield text(x, scale.bottom + 14, clock.parts(second)[1].strftime("%H:%M"), "middle")
    height = 0
    while height <= scale.most * 1000:
        y = scale.y(Decimal(height) / 1000)
        yield line(LEFT, y, RIGHT, y, 'class="grid"')
        yield text(LEFT - 6, y + 3, plain(Decimal(height) / 1_000_000), "end")
        height += scale.step
    yield text(LEFT - 6, scale.top + 2, "MW", "end")
    yield f'<rect class="frame" x="{LEFT}" y="{scale.top}" width="{RIGHT - LEFT}" height="{PLOT}"/>'


def limits(outcome, scale):
    """Minimum Stable Generation, capacity and short-term maximum; equal ones share a line."""
    unit, names = outcome.day.unit, {}
    for key, name in (("msg", "Minimum Stable Generation"), ("capacity", "capacity"), ("maximum", "short-term maximum")):
        names.setdefault(unit[key], []).append(name)
    for kw, same in names.items():
        yield line(LEFT, scale.y(kw), RIGHT, scale.y(kw), 'class="limit"')
    # Labels keep a line's height apart, from the highest down.
    above = Decimal(scale.top - 1)
    for kw, same in sorted(names.items(), reverse=True):
        above = max(scale.y(kw) - 3, above + 10)
        yield text(RIGHT - 4, above, f"{', '.join(same)} {words.mw(kw)}", "end", ' class="name"')


def profile(outcome, scale):
    """The operating profile, from the S lines; a step is a line straight up or down."""
    points = []
    for start, end, level, last in outcome.listing.segments:
        for second, grains in ((start, level), (end, last)):
            point = f"{number(scale.x(second))},{number(scale.y(Decimal(grains) / GRAINS_IN_KW))}"
            if not points or points[-1] != point:
                points.append(point)
    return f'<polyline class="profile" points="{" ".join(points)}"/>'


def label(outcome, place):
    return f"{place + 1} {words.order(outcome.day.instructions[place])} ({outcome.listing.fates[place]})"


def width(outcome, place):
    """The room of a mark with its label."""
    return LETTER * len(label(outcome, place)) + 16


def placed(outcome):
    """Each instruction with its lane, so that no labels of a lane meet; and the number of lanes."""
    scale, ends, marks = Decimal(RIGHT - LEFT) / outcome.day.clock.seconds, [], []
    entered = outcome.day.instructions
    for place in sorted(range(len(entered)), key=lambda i: entered[i]["effective"]):
        at, room = LEFT + entered[place]["effective"] * scale, width(outcome, place)
        begin, end = (at, at + room) if at + room <= RIGHT else (at - room, at + 6)
        lane = next((i for i, taken in enumerate(ends) if taken <= begin), len(ends))
        ends[lane : lane + 1] = [end]
        marks.append((place, lane))
    return marks, len(ends)


def drawn(outcome, scale, place, lane):
    """An instruction: a hollow mark at its effective time, a full one at its acting time, its label."""
    instruction, fate = outcome.day.instructions[place], outcome.listing.fates[place]
    colour, y = COLOURS.get(fate, OTHER_FATE), LANE * lane + 12
    effective, acts = scale.x(instruction["effective"]), scale.x(acting(instruction))
    if fate == 0:
        yield line(acts, y, acts, scale.bottom, f'class="drop" stroke="{colour}"')
    yield line(effective, y, acts, y, f'stroke="{colour}"')
    said = f"<title>{escape(outcome.sentence(place))}</title>"
    yield f'<circle cx="{number(effective)}" cy="{y}" r="3" fill="#fff" stroke="{colour}">{said}</circle>'
    if fate in words.HAS_ACTING:
        yield f'<circle cx="{number(acts)}" cy="{y}" r="2" fill="{colour}">{said}</circle>'
    anchor, x = ("start", acts + 5) if effective + width(outcome, place) <= RIGHT else ("end", effective - 6)
    yield text(x, y + 3, label(outcome, place), anchor, f' style="fill:{colour}"')


def legend(scale):
    said = "line: operating profile; bars: quantities; circles: instructions at effective (hollow) and acting time (full)"
    return text(LEFT, scale.bottom + 34, f"{said}, with number, code and (fate)")
