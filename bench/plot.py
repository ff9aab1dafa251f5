"""Line plots as SVG, without a dependency."""

COLOURS = ["#0b6e99", "#d9730d", "#448361", "#9065b0", "#c14c8a", "#64473a"]
WIDTH, HEIGHT, LEFT, LOW, TOP = 640, 400, 60, 50, 30


def scale(value, least, most, length):
    return length * (value - least) / (most - least) if most > least else 0


def ticks(most, count=5):
    return [most * at / count for at in range(count + 1)]


def label(value):
    return f"{value:.3g}"


def lines(title, across, up, series):
    """An SVG text: a title, the words of both axes, and named lists of points (x, y), both from 0 on."""
    points = [p for _, some in series for p in some] or [(1, 1)]
    right, high = max(p[0] for p in points) or 1, max(p[1] for p in points) or 1
    wide, tall = WIDTH - LEFT - 150, HEIGHT - TOP - LOW

    def at(point):
        return LEFT + scale(point[0], 0, right, wide), HEIGHT - LOW - scale(point[1], 0, high, tall)

    out = [f'<svg xmlns="http://www.w3.org/2000/svg" width="{WIDTH}" height="{HEIGHT}" font-family="sans-serif" font-size="12">']
    out.append('<rect width="100%" height="100%" fill="white"/>')
    out.append(f'<text x="{LEFT}" y="18" font-size="14">{title}</text>')
    for value in ticks(right):
        x, y = at((value, 0))
        out.append(f'<text x="{x:.1f}" y="{y + 18:.1f}" text-anchor="middle">{label(value)}</text>')
    for value in ticks(high):
        x, y = at((0, value))
        out.append(f'<line x1="{x}" y1="{y:.1f}" x2="{LEFT + wide}" y2="{y:.1f}" stroke="#e0e0e0"/>')
        out.append(f'<text x="{x - 6}" y="{y + 4:.1f}" text-anchor="end">{label(value)}</text>')
    out.append(f'<text x="{LEFT + wide / 2}" y="{HEIGHT - 10}" text-anchor="middle">{across}</text>')
    out.append(f'<text x="{LEFT - 50}" y="{TOP - 2}">{up}</text>')
    for number, (name, some) in enumerate(series):
        colour = COLOURS[number % len(COLOURS)]
        path = " ".join(f"{x:.1f},{y:.1f}" for x, y in map(at, some))
        out.append(f'<polyline points="{path}" fill="none" stroke="{colour}" stroke-width="2"/>')
        out += [f'<circle cx="{x:.1f}" cy="{y:.1f}" r="3" fill="{colour}"/>' for x, y in map(at, some)]
        out.append(f'<text x="{LEFT + wide + 12}" y="{TOP + 16 * (number + 1)}" fill="{colour}">{name}</text>')
    out.append("</svg>")
    return "\n".join(out) + "\n"
