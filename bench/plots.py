"""Line charts as SVG, of the figures that `run` measured: no more than these two charts need."""
import math

WIDTH, HEIGHT, LEFT, TOP, RIGHT, BOTTOM = 620, 360, 64, 44, 226, 52
COLOURS = ("#1b6ca8", "#c4572e", "#2f8f5b", "#7a4fa3", "#a67c00", "#5f6b75", "#b03a6f", "#3d9aa1", "#6b8e23", "#444444")


def steps(low, high, by_tens):
    """The values at which an axis has a line."""
    if by_tens:
        return [10 ** e for e in range(math.floor(math.log10(low)), math.ceil(math.log10(high)) + 1)]
    width = 10 ** math.floor(math.log10(high / 4))
    width *= min((1, 2, 5, 10), key=lambda k: abs(high / (k * width) - 5))
    return [width * i for i in range(math.ceil(high / width) + 1)]


def said(value):
    """A value as an axis tells it."""
    return f"{value:,.0f}" if value >= 10 or value == int(value) else f"{value:g}"


class Chart:
    """One chart: a title, what the axes are, and a line for each name."""

    def __init__(self, title, across, up, lines, by_tens=False, marks=None):
        self.title, self.across, self.up, self.lines, self.by_tens = title, across, up, lines, by_tens
        xs = [x for points in lines.values() for x, _ in points]
        ys = [y for points in lines.values() for _, y in points]
        self.xs = marks or steps(min(xs), max(xs), by_tens)
        self.ys = steps(0, max(ys), False)

    def x(self, value):
        low, high = self.xs[0], self.xs[-1]
        part = math.log(value / low, high / low) if self.by_tens else (value - low) / (high - low)
        return LEFT + part * (WIDTH - LEFT - RIGHT)

    def y(self, value):
        return HEIGHT - BOTTOM - value / self.ys[-1] * (HEIGHT - TOP - BOTTOM)

    def axes(self):
        yield f'<text x="{LEFT}" y="22" class="title">{self.title}</text>'
        for value in self.ys:
            y = f"{self.y(value):.1f}"
            yield f'<line x1="{LEFT}" x2="{WIDTH - RIGHT}" y1="{y}" y2="{y}" class="grid"/>'
            yield f'<text x="{LEFT - 8}" y="{self.y(value) + 4:.1f}" text-anchor="end">{said(value)}</text>'
        for value in self.xs:
            yield f'<text x="{self.x(value):.1f}" y="{HEIGHT - BOTTOM + 18}" text-anchor="middle">{said(value)}</text>'
        middle = (LEFT + WIDTH - RIGHT) / 2
        yield f'<text x="{middle:.1f}" y="{HEIGHT - 12}" text-anchor="middle">{self.across}</text>'
        turned = f"translate(16 {(TOP + HEIGHT - BOTTOM) / 2:.1f}) rotate(-90)"
        yield f'<text transform="{turned}" text-anchor="middle">{self.up}</text>'

    def drawn(self):
        for points, colour in zip(self.lines.values(), COLOURS):
            path = " ".join(f"{self.x(x):.1f},{self.y(y):.1f}" for x, y in points)
            yield f'<polyline points="{path}" fill="none" stroke="{colour}" stroke-width="2"/>'
            for x, y in points:
                yield f'<circle cx="{self.x(x):.1f}" cy="{self.y(y):.1f}" r="3" fill="{colour}"/>'
        row = TOP
        for name, colour in zip(self.lines, COLOURS):
            ends = f'x1="{WIDTH - RIGHT + 14}" x2="{WIDTH - RIGHT + 32}" y1="{row}" y2="{row}"'
            yield f'<line {ends} stroke="{colour}" stroke-width="2"/>'
            yield f'<text x="{WIDTH - RIGHT + 38}" y="{row + 4}">{name}</text>'
            row += 18


def write(path, charts):
    """Writes the charts below one another."""
    style = ("text{font:12px sans-serif;fill:#333}.title{font-size:14px;font-weight:bold}.grid{stroke:#ddd}")
    with open(path, "w", encoding="utf-8") as file:
        file.write(f'<svg xmlns="http://www.w3.org/2000/svg" width="{WIDTH}" height="{HEIGHT * len(charts)}">\n')
        file.write(f'<style>{style}</style><rect width="100%" height="100%" fill="white"/>\n')
        for number, chart in enumerate(charts):
            file.write(f'<g transform="translate(0 {number * HEIGHT})">\n')
            file.writelines(line + "\n" for part in (chart.axes(), chart.drawn()) for line in part)
            file.write("</g>\n")
        file.write("</svg>\n")
