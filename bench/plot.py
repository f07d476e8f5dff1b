# plot.py FIGURES OUT.svg: the times of bench/run against standing literals, as an SVG. FIGURES has a head line and
# then, parted by tabs, the plan, how many literals stand and four times in microseconds: note only and undo, ours and
# the Rust's; fetch, the same.
import math
import sys

WIDTH, HEIGHT = 860, 400
LEFT, TOP, RIGHT, BOTTOM = 62, 46, 16, 46
GAP = 50
PLANS = [("L", "L: 64 vertices, 128 edges, 448 literals"), ("X", "X: 64 vertices, 128 edges, 2112 literals")]
LINES = [
    (0, "note only, undo: ours", "#b03a2e", "none"),
    (2, "fetch: ours", "#b03a2e", "5 4"),
    (1, "note only, undo: Rust", "#1f618d", "none"),
    (3, "fetch: Rust", "#1f618d", "5 4"),
]


def read(path):
    points = {}
    with open(path, encoding="utf8") as f:
        next(f)
        for line in f:
            plan, many, *times = line.rstrip("\n").split("\t")
            points.setdefault(plan, []).append((int(many), [float(t) for t in times]))
    return points


def text(x, y, s, extra=""):
    return f'<text x="{x:.1f}" y="{y:.1f}" {extra}>{s}</text>'


def line(x1, y1, x2, y2, colour):
    return f'<line x1="{x1:.1f}" y1="{y1:.1f}" x2="{x2:.1f}" y2="{y2:.1f}" stroke="{colour}"/>'


def panel(out, title, points, left, width, low, high):
    height = HEIGHT - TOP - BOTTOM
    most = max(p[0] for p in points)

    def x(many):
        return left + width * many / most

    def y(time):
        return TOP + height * (high - math.log10(time)) / (high - low)

    for power in range(low, high + 1):
        at = y(10.0**power)
        out.append(line(left, at, left + width, at, "#ddd"))
        out.append(text(left - 6, at + 4, f"{10.0 ** power:g}", 'text-anchor="end"'))
    for part in range(5):
        many = most * part // 4
        out.append(line(x(many), TOP + height, x(many), TOP + height + 4, "#555"))
        out.append(text(x(many), TOP + height + 18, many, 'text-anchor="middle"'))
    out.append(line(left, TOP + height, left + width, TOP + height, "#555"))
    out.append(text(left, TOP - 12, title))
    out.append(text(left + width / 2, HEIGHT - 8, "standing literals", 'text-anchor="middle"'))
    for which, _, colour, dash in LINES:
        path = " ".join(f"{x(many):.1f},{y(times[which]):.1f}" for many, times in points)
        drawn = f'stroke="{colour}" stroke-width="2" stroke-dasharray="{dash}"'
        out.append(f'<polyline points="{path}" fill="none" {drawn}/>')


def main():
    points = read(sys.argv[1])
    times = [t for plan, _ in PLANS for p in points[plan] for t in p[1]]
    low, high = math.floor(math.log10(min(times))), math.ceil(math.log10(max(times)))
    width = (WIDTH - LEFT - RIGHT - GAP) / 2
    box = f'viewBox="0 0 {WIDTH} {HEIGHT + 40}"'
    out = [
        f'<svg xmlns="http://www.w3.org/2000/svg" {box} font-family="sans-serif" font-size="12">',
        f'<rect width="{WIDTH}" height="{HEIGHT + 40}" fill="white"/>',
        text(8, 16, "microseconds a call"),
    ]
    for i, (plan, title) in enumerate(PLANS):
        panel(out, title, points[plan], LEFT + i * (width + GAP), width, low, high)
    for i, (_, name, colour, dash) in enumerate(LINES):
        at = LEFT + i * 200
        dashed = f'stroke-dasharray="{dash}"'
        out.append(f'<path d="M{at} {HEIGHT + 22}h28" stroke="{colour}" stroke-width="2" {dashed}/>')
        out.append(text(at + 34, HEIGHT + 26, name))
    out.append("</svg>")
    with open(sys.argv[2], "w", encoding="utf8") as f:
        f.write("\n".join(out) + "\n")


main()
