"""Draws seconds as bars on a log scale: plain SVG, an element a line."""
import html
import math

WIDTH, LABELS, TOP, ROW, BAR = 780, 250, 66, 30, 18
# Room behind the longest bar for its number.
NUMBERS = 70
OWN, TWIN, PEER = "#2166ac", "#8c96a3", "#d3d8de"


def text(x, y, size, anchor, color, words):
    # The white rim keeps the lines behind away from the letters.
    return (f'<text x="{x:.0f}" y="{y:.0f}" font-size="{size}" text-anchor="{anchor}" fill="{color}"'
            f' stroke="#ffffff" stroke-width="4" paint-order="stroke">{html.escape(words)}</text>')


def ticks(least, most):
    """1, 2, 5 and their tenfolds, from the last one up to half of the least to the first one from the most on."""
    steps = [float(f"{digit}e{power}") for power in range(-5, 6) for digit in (1, 2, 5)]
    low = max(step for step in steps if step <= least / 2)
    high = min(step for step in steps if step >= most)
    return [step for step in steps if low <= step <= high]


def drawn(title, note, bars):
    """The picture of bars, which are pairs of a name and seconds, the shortest on top."""
    bars = sorted(bars, key=lambda bar: bar[1])
    marks = ticks(bars[0][1], bars[-1][1])
    low, high = math.log(marks[0]), math.log(marks[-1])
    bottom = TOP + ROW * len(bars)

    def place(seconds):
        return LABELS + (math.log(seconds) - low) / (high - low) * (WIDTH - LABELS - NUMBERS)

    lines = [
        f'<svg xmlns="http://www.w3.org/2000/svg" width="{WIDTH}" height="{bottom + 56}" font-family="sans-serif">',
        f'<rect width="{WIDTH}" height="{bottom + 56}" fill="#ffffff"/>',
        text(16, 26, 16, "start", "#1a1a1a", title),
        text(16, 46, 12, "start", "#5a5a5a", note),
    ]
    for mark in marks:
        x = place(mark)
        lines.append(f'<line x1="{x:.0f}" y1="{TOP - 4}" x2="{x:.0f}" y2="{bottom + 4}" stroke="#e6e6e6"/>')
        lines.append(text(x, bottom + 20, 11, "middle", "#5a5a5a", f"{mark:g}"))
    for row, (name, seconds) in enumerate(bars):
        y = TOP + ROW * row + (ROW - BAR) / 2
        color = OWN if name.startswith("cubit") else TWIN if name.startswith("yardstick") else PEER
        end = place(seconds)
        lines.append(f'<rect x="{LABELS}" y="{y:.0f}" width="{end - LABELS:.1f}" height="{BAR}" fill="{color}"/>')
        lines.append(text(LABELS - 10, y + 13, 13, "end", "#1a1a1a", "yardstick, in C" if color == TWIN else name))
        lines.append(text(end + 8, y + 13, 13, "start", "#1a1a1a", f"{seconds:.3g} s"))
    lines.append(text((LABELS + WIDTH - NUMBERS) / 2, bottom + 42, 11, "middle", "#5a5a5a",
                      "seconds, on a log scale: shorter is faster"))
    return "\n".join([*lines, "</svg>", ""])
