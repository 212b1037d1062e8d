"""Draws figures over commits as an SVG."""
import dataclasses
import html

COLORS = ("#0b6e99", "#c2571a", "#3c7d3c", "#7a4fa3", "#8a6d00", "#b03060")
WIDTH, HEIGHT = 900, 380
LEFT, RIGHT, ABOVE, BELOW = 64, 110, 44, 84


@dataclasses.dataclass(frozen=True)
class Line:
    """A line of a plot: its name, and figures by the number of their commit."""

    name: str
    points: list


def text(x, y, said, color, *more):
    how = "".join(f" {it}" for it in more)
    return f'<text x="{x:.1f}" y="{y:.1f}" fill="{color}"{how}>{html.escape(said)}</text>'


class Plot:
    """A plot of so many commits, from 0 to the most."""

    def __init__(self, commits, most):
        self.commits, self.most = commits, most

    def x(self, at):
        return LEFT + (WIDTH - LEFT - RIGHT) * at / max(1, len(self.commits) - 1)

    def y(self, figure):
        return ABOVE + (HEIGHT - ABOVE - BELOW) * (1 - figure / self.most)

    def rules(self, step):
        for figure in range(0, self.most + 1, step):
            at = self.y(figure)
            begin, end = f'x1="{LEFT}" y1="{at:.1f}"', f'x2="{WIDTH - RIGHT}" y2="{at:.1f}"'
            yield f'<line {begin} {end} stroke="#ddd"/>'
            yield text(LEFT - 8, at + 4, f"{figure:,}", "#555", 'text-anchor="end"')

    def names_of_commits(self):
        for at, commit in enumerate(self.commits):
            where = f"translate({self.x(at) + 4:.1f} {HEIGHT - BELOW + 14}) rotate(-60)"
            how = 'text-anchor="end" font-size="10" font-family="monospace" fill="#555"'
            yield f'<text transform="{where}" {how}>{commit}</text>'

    def drawn(self, line, color):
        points = " ".join(f"{self.x(at):.1f},{self.y(figure):.1f}" for at, figure in line.points)
        yield f'<polyline points="{points}" fill="none" stroke="{color}" stroke-width="2"/>'
        for at, figure in line.points:
            where = f'cx="{self.x(at):.1f}" cy="{self.y(figure):.1f}"'
            yield f'<circle {where} r="2.5" fill="{color}"/>'

    def names(self, lines):
        """Beside the end of each line, one below the other."""
        free = 0.0
        ends = sorted((self.y(line.points[-1][1]), at) for at, line in enumerate(lines))
        for height, at in ends:
            free = max(free, height + 4)
            yield text(WIDTH - RIGHT + 10, free, lines[at].name, COLORS[at])
            free += 14


def plot(title, commits, lines, most, step):
    """An SVG of the lines over the commits, with a rule at each step up to the most."""
    drawing = Plot(commits, most)
    parts = [
        f'<svg xmlns="http://www.w3.org/2000/svg" viewBox="0 0 {WIDTH} {HEIGHT}" '
        'font-family="sans-serif" font-size="12">',
        f'<rect width="{WIDTH}" height="{HEIGHT}" fill="#fff"/>',
        text(LEFT, 22, title, "#222", 'font-size="15"'),
        *drawing.rules(step),
        *drawing.names_of_commits(),
    ]
    for line, color in zip(lines, COLORS):
        parts += drawing.drawn(line, color)
    return "\n".join([*parts, *drawing.names(lines), "</svg>", ""])
