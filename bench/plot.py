"""Draws what bench/all measured as an SVG that can be read on a light page and on a dark one."""
import math

WIDTH, LEFT, RIGHT, ROW = 640, 215, 50, 20
GREY, BAR, MARK = "#808890", "#3b82c4", "#d97706"
COLOURS = ["#3b82c4", "#d97706", "#2f9e6e", "#b4539b", "#c2453e", "#808890"]
PLOT_HEIGHT = 190


def text(x, y, words, anchor="start", colour=GREY):
    return f'<text x="{x:.1f}" y="{y:.1f}" text-anchor="{anchor}" fill="{colour}">{words}</text>'


def line(x1, y1, x2, y2, colour=GREY, width=0.4):
    return f'<line x1="{x1:.1f}" y1="{y1:.1f}" x2="{x2:.1f}" y2="{y2:.1f}" stroke="{colour}" stroke-width="{width}"/>'


def bars(rows, top):
    """A bar for each ratio, with a mark at its goal."""
    most = max(max(ratio, work.goal) for work, ratio in rows)
    end = max(1.5, math.ceil(4 * most) / 4)
    wide = (WIDTH - LEFT - RIGHT) / end
    bottom = top + 24 + ROW * len(rows)
    parts = [text(8, top, "processor time beside a plain C program (mark: the goal)")]
    for tenth in range(0, int(10 * end) + 1, 5):
        x = LEFT + wide * tenth / 10
        parts += [line(x, top + 12, x, bottom), text(x, bottom + 14, f"{tenth / 10:g}", "middle")]
    for at, (work, ratio) in enumerate(rows):
        y = top + 20 + ROW * at
        parts.append(text(LEFT - 8, y + 10, f"{work.name}, {work.size.split()[0]}", "end"))
        parts.append(f'<rect x="{LEFT}" y="{y}" width="{wide * ratio:.1f}" height="13" fill="{BAR}"/>')
        parts.append(text(LEFT + wide * max(ratio, work.goal) + 8, y + 10, f"{ratio:.2f}"))
        x = LEFT + wide * work.goal
        parts.append(line(x, y - 2, x, y + 15, MARK, 3))
    return parts, bottom + 40


def growth(lines, top):
    """A line for each work over the number of records, both scales by powers of ten."""
    points = [point for each in lines.values() for point in each]
    counts = [math.log10(count) for count, _, _ in points]
    times = [math.log10(1e3 * seconds) for _, seconds, _ in points]
    low, high = math.floor(min(times)), math.ceil(max(times))
    first, last = min(counts), max(counts)
    left, right, bottom = 60, WIDTH - 130, top + 16 + PLOT_HEIGHT

    def place(count, seconds):
        x = left + (right - left) * (math.log10(count) - first) / (last - first)
        return x, bottom - PLOT_HEIGHT * (math.log10(1e3 * seconds) - low) / (high - low)

    parts = [text(8, top, "milliseconds of one run, over the number of records")]
    for power in range(low, high + 1):
        y = place(1, 10 ** (power - 3))[1]
        parts += [line(left, y, right, y), text(left - 8, y + 4, f"{10 ** power:,g}", "end")]
    for power in range(round(first), round(last) + 1):
        x = place(10 ** power, 1)[0]
        parts += [line(x, top + 16, x, bottom), text(x, bottom + 16, f"{10 ** power:,}", "middle")]
    ends = []
    for (name, each), colour in zip(lines.items(), COLOURS):
        at = [place(count, seconds) for count, seconds, _ in each]
        path = " ".join(f"{x:.1f},{y:.1f}" for x, y in at)
        parts.append(f'<polyline points="{path}" fill="none" stroke="{colour}" stroke-width="2"/>')
        ends.append((at[-1][1], at[-1][0], name, colour))
    below = 0
    for y, x, name, colour in sorted(ends):
        # names that would stand on one another move down
        below = max(below + 13, y + 4) if x > right - 1 else y + 4
        parts.append(text(x + 8, below, name, colour=colour))
    return parts, bottom + 28


def draw(path, rows, lines):
    parts, bottom = bars(rows, 20)
    more, height = growth(lines, bottom)
    with open(path, "w", encoding="utf-8") as file:
        file.write(f'<svg xmlns="http://www.w3.org/2000/svg" viewBox="0 0 {WIDTH} {height:.0f}" width="{WIDTH}"'
                   ' font-family="sans-serif" font-size="12">\n')
        file.write("<title>The speed of cache2, drawn by bench/all</title>\n")
        file.write("\n".join([*parts, *more, "</svg>", ""]))
