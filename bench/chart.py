"""The plot: time against the count of columns, as an SVG."""

import math

WIDTH, HEIGHT = 830, 516
LEFT, RIGHT, TOP, BOTTOM = 90, 610, 50, 420
LABEL_GAP = 15
NOTE_GAP = 18


def decades(times):
    """The powers of ten below and above all times."""
    return (math.floor(math.log10(min(times))), math.ceil(math.log10(max(times))))


class Scale:
    """Columns along, microseconds up, the latter by their logarithm."""

    def __init__(self, columns, times):
        self.most = max(columns)
        self.low, self.high = decades(times)

    def x(self, columns):
        return LEFT + (RIGHT - LEFT) * columns / self.most

    def y(self, time):
        share = (math.log10(time) - self.low) / (self.high - self.low)
        return BOTTOM - (BOTTOM - TOP) * share


def duration(power):
    """10 to a power microseconds, in words."""
    for unit, exponent in (("s", 6), ("ms", 3), ("µs", 0)):
        if power >= exponent:
            return "%d %s" % (10 ** (power - exponent), unit)
    return "%g µs" % 10 ** power


def time_axis(scale):
    """A line and a name for each power of ten, and what the axis is."""
    lines = []
    for power in range(scale.low, scale.high + 1):
        y = scale.y(10.0 ** power)
        lines.append('<path d="M%d %.1f H%d" stroke="#dddddd"/>' % (LEFT, y, RIGHT))
        lines.append('<text x="%d" y="%.1f" text-anchor="end">%s</text>'
                     % (LEFT - 8, y + 4, duration(power)))
    lines.append('<text transform="translate(20 %d) rotate(-90)" text-anchor="middle">'
                 'time of one call, log scale</text>' % ((TOP + BOTTOM) / 2))
    return lines


def column_axis(scale, columns):
    lines = []
    for count in columns:
        lines.append('<text x="%.1f" y="%d" text-anchor="middle">%d</text>'
                     % (scale.x(count), BOTTOM + 20, count))
    lines.append('<text x="%d" y="%d" text-anchor="middle">columns of the deck</text>'
                 % ((LEFT + RIGHT) / 2, BOTTOM + 40))
    return lines


def line(scale, points, colour, dashed):
    """The points of one series, joined."""
    places = [(scale.x(columns), scale.y(time)) for columns, time in points]
    path = " ".join("%s%.1f %.1f" % ("L" if i else "M", x, y)
                    for i, (x, y) in enumerate(places))
    dashes = ' stroke-dasharray="6 4"' if dashed else ""
    lines = ['<path d="%s" fill="none" stroke="%s" stroke-width="2"%s/>'
             % (path, colour, dashes)]
    lines += ['<circle cx="%.1f" cy="%.1f" r="3" fill="%s"/>' % (x, y, colour)
              for x, y in places]
    return lines


def labels(scale, series):
    """A name at the end of each line, moved down where it would touch the one above."""
    lines = []
    last = 0
    for name, points, colour, _ in sorted(series, key=lambda one: -one[1][-1][1]):
        last = max(scale.y(points[-1][1]) + 4, last + LABEL_GAP)
        lines.append('<text x="%d" y="%.1f" fill="%s">%s</text>'
                     % (RIGHT + 10, last, colour, name))
    return lines


def below(notes):
    """Lines on what the names mean, below the axis."""
    return ['<text x="%d" y="%d" font-size="12">%s</text>'
            % (LEFT, BOTTOM + 68 + i * NOTE_GAP, note) for i, note in enumerate(notes)]


def draw(title, series, notes):
    """The plot of series (name, [(columns, microseconds)], colour, dashed), with notes below it."""
    series = [one for one in series if one[1]]
    columns = sorted({count for _, points, _, _ in series for count, _ in points})
    scale = Scale(columns, [time for _, points, _, _ in series for _, time in points])
    lines = ['<svg xmlns="http://www.w3.org/2000/svg" viewBox="0 0 %d %d" '
             'font-family="sans-serif" font-size="13">' % (WIDTH, HEIGHT),
             "<title>%s</title>" % title,
             '<rect width="%d" height="%d" fill="#ffffff"/>' % (WIDTH, HEIGHT),
             '<text x="%d" y="28" font-size="15">%s</text>' % (LEFT, title)]
    lines += time_axis(scale) + column_axis(scale, columns)
    for _, points, colour, dashed in series:
        lines += line(scale, points, colour, dashed)
    lines += labels(scale, series) + below(notes)
    return "\n".join(lines + ["</svg>"]) + "\n"
