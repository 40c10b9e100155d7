"""The plot of bench/run --growth: an SVG of small panels, cost against packet length and against frames, both axes by powers."""
import math

SIDES = [("ours", "#1f5fa8", ""), ("crate", "#c8443c", "6 3"), ("libopus", "#5f7f2f", "2 2")]
WIDE, HIGH, LEFT, TOP, ACROSS, DOWN = 170, 128, 72, 84, 50, 44


def power(n):
    return f"{n:,}" if n < 1000 else f"{n // 1000},000"


def size(n):
    return str(n) if n < 1024 else f"{round(n / 1024)} K"


class Axis:
    """From values to places between 0 and 1, by powers."""

    def __init__(self, least, most):
        self.least, self.span = math.log(least), math.log(most) - math.log(least)

    def __call__(self, x):
        return (math.log(x) - self.least) / self.span


def panel(x0, y0, title, ticks, label, tens, y, lines):
    """One panel: its grid, its ticks, and a line for each side."""
    x = Axis(ticks[0], ticks[-1])
    out = [f'<rect x="{x0}" y="{y0}" width="{WIDE}" height="{HIGH}" fill="none" stroke="#888"/>',
           f'<text x="{x0 + WIDE / 2}" y="{y0 - 6}" text-anchor="middle">{title}</text>']
    for t in tens:
        at = y0 + HIGH * (1 - y(t))
        out.append(f'<line x1="{x0}" x2="{x0 + WIDE}" y1="{at:.1f}" y2="{at:.1f}" stroke="#ddd"/>')
        out.append(f'<text x="{x0 - 4}" y="{at + 3:.1f}" text-anchor="end">{power(t)}</text>')
    for t in ticks:
        at = x0 + WIDE * x(t)
        out.append(f'<line x1="{at:.1f}" x2="{at:.1f}" y1="{y0 + HIGH}" y2="{y0 + HIGH + 3}" stroke="#888"/>')
        out.append(f'<text x="{at:.1f}" y="{y0 + HIGH + 13}" text-anchor="middle">{label(t)}</text>')
    for (_, colour, dashes), points in reversed(list(zip(SIDES, lines))):
        path = " ".join(f"{x0 + WIDE * x(a):.1f},{y0 + HIGH * (1 - y(b)):.1f}" for a, b in points)
        out.append(f'<polyline points="{path}" fill="none" stroke="{colour}" stroke-width="1.6" stroke-dasharray="{dashes}"/>')
    return out


def svg(calls, measures, frames, length, below):
    """calls: name and its cells (packet length, frames, key); measures: unit and the costs of each key. The first row of a unit has so many frames, the second
    such a length."""
    rows = [(unit, costs, by) for unit, costs in measures.items() for by in ("length", "frames")]
    width, height = LEFT + len(calls) * (WIDE + ACROSS), TOP + len(rows) * (HIGH + DOWN)
    out = [f'<svg xmlns="http://www.w3.org/2000/svg" viewBox="0 0 {width} {height}" width="{width}" height="{height}" font-family="sans-serif" font-size="10">',
           f'<rect width="{width}" height="{height}" fill="#fff"/>']
    at = LEFT
    for name, colour, dashes in SIDES:
        out.append(f'<line x1="{at}" x2="{at + 30}" y1="16" y2="16" stroke="{colour}" stroke-width="1.6" stroke-dasharray="{dashes}"/>')
        out.append(f'<text x="{at + 36}" y="20" font-size="12">{name}</text>')
        at += 100
    out += [f'<text x="{LEFT}" y="{38 + 13 * i}" fill="#555">{line}</text>' for i, line in enumerate(below)]
    for i, (unit, costs, by) in enumerate(rows):
        all_costs = [c for cells in calls.values() for n, k, key in cells if k == frames or n == length for c in costs[key]]
        middle = TOP + i * (HIGH + DOWN) + HIGH / 2
        out.append(f'<text x="16" y="{middle}" text-anchor="middle" font-size="12" transform="rotate(-90 16 {middle})">{unit}</text>')
        least, most = (10 ** f(math.log10(g(all_costs))) for f, g in ((math.floor, min), (math.ceil, max)))
        tens = [10 ** k for k in range(round(math.log10(least)), round(math.log10(most)) + 1)]
        for j, (call, cells) in enumerate(calls.items()):
            kept = sorted((n if by == "length" else k, costs[key]) for n, k, key in cells if (k == frames if by == "length" else n == length))
            lines = [[(a, c[side]) for a, c in kept] for side in range(len(kept[0][1]))]
            title = f"{call}: {frames} frames, by bytes" if by == "length" else f"{call}: {length:,} bytes, by frames"
            out += panel(LEFT + j * (WIDE + ACROSS), TOP + i * (HIGH + DOWN), title, [a for a, _ in kept], size if by == "length" else str, tens,
                         Axis(least, most), lines)
    return "\n".join(out + ["</svg>"]) + "\n"
