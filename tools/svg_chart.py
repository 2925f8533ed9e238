"""Draws a chart of bars and lines over the years as an SVG file. All places are whole tenths of a pixel."""

WIDTH, HEIGHT = 980, 540
LEFT, RIGHT, TOP, BOTTOM = 95, 250, 55, 55
MOST_TICKS = 8

# ten colours whose greys differ, in an order in which neighbours differ much
COLOURS = ("#1f2a5c", "#dd7440", "#2b5f8a", "#bca9d9", "#4a9a4a", "#dfe6c8", "#7a1f3d", "#66bcb4", "#8f5a2a", "#f4c654")
MOST_FILLS = 2 * len(COLOURS)


def grey(colour):
    """The grey of a colour, from 0 to 255."""
    red, green, blue = (int(colour[at:at + 2], 16) for at in (1, 3, 5))
    return (299 * red + 587 * green + 114 * blue) // 1000


def tenths(value):
    """Tenths of a pixel as SVG writes them."""
    whole, part = divmod(value, 10)
    return f"{whole}.{part}" if part else f"{whole}"


def round_step(span, most=MOST_TICKS):
    """The least of 1, 2, 5, 10, 20, .. that cuts the span into at most so many parts."""
    step = 1
    while True:
        for factor in (1, 2, 5):
            if factor * step * most >= span:
                return factor * step
        step *= 10


def escaped(text):
    """A text as it may stand in SVG."""
    return text.replace("&", "&amp;").replace("<", "&lt;").replace(">", "&gt;")


class Fill:
    """How an area is filled: the first ten plainly, the next ten with stripes over the same colours."""

    def __init__(self, number):
        self.colour = COLOURS[number % len(COLOURS)]
        self.striped = number >= len(COLOURS)
        self.name = f"stripes{number % len(COLOURS)}"

    def paint(self):
        """The value of the SVG attribute."""
        return f"url(#{self.name})" if self.striped else self.colour

    def pattern(self):
        """The definition of the stripes."""
        line = "#ffffff" if grey(self.colour) < 128 else "#202020"
        return (f'<pattern id="{self.name}" width="6" height="6" patternUnits="userSpaceOnUse" '
                f'patternTransform="rotate(45)"><rect width="6" height="6" fill="{self.colour}"/>'
                f'<rect width="2" height="6" fill="{line}"/></pattern>')


class Line:
    """How a line is drawn: its colour, dashes, and the mark at each year."""

    def __init__(self, colour, dashes="", mark=""):
        self.colour = colour
        self.dashes = f' stroke-dasharray="{dashes}"' if dashes else ""
        self.mark = mark

    def stroke(self):
        """The SVG attributes of the line."""
        return f'fill="none" stroke="{self.colour}" stroke-width="2"{self.dashes}'

    def dot(self, x, y):
        """The mark at a place, or nothing."""
        if self.mark == "circle":
            return f'<circle cx="{tenths(x)}" cy="{tenths(y)}" r="3.5" fill="#ffffff" {self.plain()}/>'
        if self.mark == "square":
            return (f'<rect x="{tenths(x - 30)}" y="{tenths(y - 30)}" width="6" height="6" '
                    f'fill="{self.colour}" {self.plain()}/>')
        return ""

    def plain(self):
        """The outline of a mark."""
        return f'stroke="{self.colour}" stroke-width="1.5"'


class Chart:
    """A chart over years. `label` turns a tick's value and the step into text; `low` and `high` are in the picture."""

    def __init__(self, title, unit, years, low, high, label):
        self.title, self.unit, self.years, self.label = title, unit, years, label
        self.step = round_step(max(high - low, 1))
        self.low = -(-max(-low, 0) // self.step) * -self.step
        self.high = max(-(-high // self.step), 1) * self.step
        self.parts = []
        self.legend = []
        self.patterns = {}

    def x(self, at):
        """The middle of the year with this place in the list, from 0."""
        return 10 * LEFT + (2 * at + 1) * 10 * (WIDTH - LEFT - RIGHT) // (2 * len(self.years))

    def y(self, value):
        """The height of a value."""
        room = 10 * (HEIGHT - TOP - BOTTOM)
        return 10 * (HEIGHT - BOTTOM) - ((value - self.low) * room * 2 + self.high - self.low) // (
            2 * (self.high - self.low))

    def bars(self, name, fill, bottoms, values):
        """Adds a part of each year's bar, from its bottom on, upwards or for values below 0 downwards."""
        if fill.striped:
            self.patterns[fill.name] = fill.pattern()
        wide = 7 * (WIDTH - LEFT - RIGHT) // len(self.years)
        for at, (bottom, value) in enumerate(zip(bottoms, values)):
            top = self.y(max(bottom, bottom + value))
            deep = self.y(min(bottom, bottom + value)) - top
            if deep > 0:
                left = self.x(at) - wide // 2
                self.parts.append(f'<rect x="{tenths(left)}" y="{tenths(top)}" width="{tenths(wide)}" '
                                  f'height="{tenths(deep)}" fill="{fill.paint()}"/>')
        self.legend.append((name, fill))

    def line(self, name, line, values):
        """Adds a line through the values of the years."""
        places = [(self.x(at), self.y(value)) for at, value in enumerate(values)]
        points = " ".join(f"{tenths(x)},{tenths(y)}" for x, y in places)
        self.parts.append(f'<polyline points="{points}" {line.stroke()}/>')
        self.parts += [dot for dot in (line.dot(x, y) for x, y in places) if dot]
        self.legend.append((name, line))

    def bounds(self, name, line, values):
        """Adds a level for each year, as wide as the year."""
        half = 5 * (WIDTH - LEFT - RIGHT) // len(self.years)
        for at, value in enumerate(values):
            y = tenths(self.y(value))
            self.parts.append(f'<path d="M{tenths(self.x(at) - half)} {y}H{tenths(self.x(at) + half)}" '
                              f'{line.stroke()}/>')
        self.legend.append((name, line))

    def note(self, text):
        """Adds a line of text to the legend."""
        self.legend.append((text, None))

    def _axes(self):
        parts = []
        right = WIDTH - RIGHT
        for tick in range(self.low, self.high + 1, self.step):
            y = self.y(tick)
            colour = "#303030" if tick == 0 else "#d0d0d0"
            parts.append(f'<path d="M{LEFT} {tenths(y)}H{right}" stroke="{colour}" stroke-width="1"/>')
            parts.append(f'<text x="{LEFT - 8}" y="{tenths(y + 40)}" text-anchor="end">'
                         f'{self.label(tick, self.step)}</text>')
        for at, year in enumerate(self.years):
            parts.append(f'<text x="{tenths(self.x(at))}" y="{HEIGHT - BOTTOM + 18}" '
                         f'text-anchor="middle">{year}</text>')
        middle = LEFT + (WIDTH - LEFT - RIGHT) // 2
        parts.append(f'<text x="{middle}" y="{HEIGHT - 14}" text-anchor="middle">year</text>')
        parts.append(f'<text x="{LEFT}" y="{TOP - 12}" text-anchor="start">{escaped(self.unit)}</text>')
        return parts

    def _legend(self):
        parts = []
        x, y = WIDTH - RIGHT + 20, TOP + 4
        for name, style in reversed(self.legend):
            if isinstance(style, Fill):
                parts.append(f'<rect x="{x}" y="{y}" width="22" height="12" fill="{style.paint()}" stroke="#606060" '
                             f'stroke-width="0.5"/>')
            elif style is not None:
                parts.append(f'<path d="M{x} {y + 6}H{x + 22}" {style.stroke()}/>')
                parts += [dot for dot in [style.dot(10 * (x + 11), 10 * (y + 6))] if dot]
            parts.append(f'<text x="{x + (30 if style else 0)}" y="{y + 10}">{escaped(name)}</text>')
            y += 19
        return parts

    def svg(self):
        """The whole file."""
        title = f'<text x="{LEFT}" y="24" font-size="16" font-weight="bold">{escaped(self.title)}</text>'
        defs = ["<defs>", *(self.patterns[name] for name in sorted(self.patterns)), "</defs>"] if self.patterns else []
        lines = [f'<svg xmlns="http://www.w3.org/2000/svg" width="{WIDTH}" height="{HEIGHT}" '
                 f'viewBox="0 0 {WIDTH} {HEIGHT}" font-family="sans-serif" font-size="12">',
                 f'<rect width="{WIDTH}" height="{HEIGHT}" fill="#ffffff"/>',
                 *defs, title, *self._axes(), *self.parts, *self._legend(), "</svg>"]
        return "\n".join(lines) + "\n"
