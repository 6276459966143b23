"""Draws what `frontier` prints: a point a line, the cost to the right and the rescan upwards, on
logarithmic axes."""
import html
import math
import re

LINE = re.compile(
    r"(?P<line>cost (?P<cost>\d+) rescan (?P<rescan>\d+) site (?P<site>\w+) temp (?P<temp>yes|no) .*)"
)
WIDTH, HEIGHT, LEFT, TOP, BOTTOM, RIGHT = 760, 480, 80, 40, 60, 30
RAISED = str.maketrans("0123456789", "⁰¹²³⁴⁵⁶⁷⁸⁹")
COLOURS = "#1f6fb4 #c4511d #2c8a4b #8a4fa3 #a58a12 #43808c #b03a6b #666666".split()


class Axis:
    """Where numbers stand between two ends of the drawing, by their logarithms."""

    def __init__(self, numbers, start, end):
        self.low = math.log10(max(min(numbers), 1)) - 0.05
        self.high = math.log10(max(1, *numbers)) + 0.05
        self.start, self.end = start, end

    def at(self, number):
        share = (math.log10(max(number, 1)) - self.low) / (self.high - self.low)
        return round(self.start + share * (self.end - self.start), 1)

    def ticks(self):
        """Numbers of one digit and zeros within the axis, thinned out where they are many."""
        powers = range(math.floor(self.low), math.ceil(self.high) + 1)
        for digits in ((1, 2, 3, 4, 5, 6, 7, 8, 9), (1, 2, 5), (1,)):
            found = [digit * 10**power for power in powers if power >= 0 for digit in digits]
            within = [number for number in found if self.low <= math.log10(number) <= self.high]
            if len(within) <= 10:
                break
        return within


def read_frontier(printed):
    points = [match.groupdict() for match in map(LINE.fullmatch, printed.splitlines()) if match]
    return [point | {"cost": int(point["cost"]), "rescan": int(point["rescan"])} for point in points]


def short(number):
    """A number of one digit and zeros, by a power of ten where it is long."""
    if number < 10000:
        return str(number)
    digit, zeros = str(number)[0], str(len(str(number)) - 1).translate(RAISED)
    return f"10{zeros}" if digit == "1" else f"{digit}·10{zeros}"


def text(x, y, words, anchor="middle", extra=""):
    return f'<text x="{x}" y="{y}" text-anchor="{anchor}"{extra}>{html.escape(words)}</text>'


def axes(across, up):
    drawn, floor, right = [], HEIGHT - BOTTOM, WIDTH - RIGHT
    for number in across.ticks():
        x = across.at(number)
        drawn.append(f'<path d="M{x} {TOP}V{floor}" class="grid"/>' + text(x, floor + 16, short(number)))
    for number in up.ticks():
        y = up.at(number)
        line = f'<path d="M{LEFT} {y}H{right}" class="grid"/>'
        drawn.append(line + text(LEFT - 6, y + 4, short(number), "end"))
    middle = (TOP + floor) / 2
    turned = f' transform="rotate(-90 16 {middle})"'
    return [*drawn, text((LEFT + right) / 2, HEIGHT - 14, "cost"), text(16, middle, "rescan", extra=turned)]


def mark(point, x, y, colour):
    """A circle, or a square for a temporary, which tells its line under the pointer."""
    if point["temp"] == "no":
        shape, where = "circle", f'cx="{x}" cy="{y}" r="5"'
    else:
        shape, where = "rect", f'x="{x - 5:.1f}" y="{y - 5:.1f}" width="10" height="10"'
    title = f"<title>{html.escape(point['line'])}</title>"
    return f'<{shape} {where} fill="{colour}" fill-opacity="0.6">{title}</{shape}>'


def legend(sites):
    drawn = [text(LEFT, 24, "temporaries are squares", "start")]
    for number, site in enumerate(sites):
        colour = f' fill="{COLOURS[number]}"'
        drawn.append(text(LEFT + 180 + 90 * number, 24, f"at {site}", "start", colour))
    return drawn


def as_svg(points):
    across = Axis([point["cost"] for point in points], LEFT, WIDTH - RIGHT)
    up = Axis([point["rescan"] for point in points], HEIGHT - BOTTOM, TOP)
    sites = sorted({point["site"] for point in points})
    marks = [
        mark(point, across.at(point["cost"]), up.at(point["rescan"]), COLOURS[sites.index(point["site"])])
        for point in points
    ]
    lines = [
        f'<svg xmlns="http://www.w3.org/2000/svg" viewBox="0 0 {WIDTH} {HEIGHT}" width="{WIDTH}">',
        "<style>text { font: 12px Helvetica, Arial, sans-serif } .grid { stroke: #ddd; fill: none }</style>",
        '<rect width="100%" height="100%" fill="white"/>',
        *axes(across, up),
        *legend(sites),
        *marks,
        "</svg>",
    ]
    return "\n".join(lines) + "\n"
