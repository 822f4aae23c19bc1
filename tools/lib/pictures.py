"""Draws the pictures of the documents, each from a few lines of text: the path of an item, the clock's circle, and a chart of a table."""

import html
import math
import re

INK, PALE, LINE, BLUE, SKY, RED, GREEN, GREY = "#1f2933", "#f3f6f9", "#52606d", "#1d5fa8", "#d5e6f7", "#b3261e", "#1e7d43", "#9aa5b1"


def text(x, y, what, side="start", size=13, **more):
    """A line of text. Its side is start, middle or end."""
    given = "".join(f' {name.replace("_", "-")}="{value}"' for name, value in more.items())
    return f'<text x="{x:.0f}" y="{y:.0f}" text-anchor="{side}" font-size="{size}"{given}>{html.escape(what)}</text>'


def picture(title, width, height, parts):
    """The whole SVG, on a white ground, so that it reads on a dark page too."""
    head = f'<svg xmlns="http://www.w3.org/2000/svg" width="{width}" height="{height}" viewBox="0 0 {width} {height}" font-family="Helvetica, Arial, sans-serif" fill="{INK}">'
    arrow = '<defs><marker id="tip" viewBox="0 0 10 10" refX="9" refY="5" markerWidth="8" markerHeight="8" orient="auto"><path d="M0,1 L10,5 L0,9 z"/></marker></defs>'
    return "\n".join([head, f"<title>{html.escape(title)}</title>", arrow, '<rect width="100%" height="100%" fill="white"/>', *parts, "</svg>", ""])


def lines_of(source):
    """The lines of a source: the words before the first colon that a space follows, and the rest."""
    for line in source.splitlines():
        if line and not line.startswith("#"):
            words, _, rest = line.partition(": ") if not line.startswith(("note ", "path ")) else line.partition(" ")
            yield words.split(), rest.strip()


# A path: boxes in columns and rows, and arrows between them.

WIDE, HIGH, ACROSS, DOWN, EDGE = 132, 76, 112, 64, 20


def box(column, row, rest):
    """A box, with its title and lines."""
    x, y, (title, *lines) = EDGE + column * (WIDE + ACROSS), EDGE + row * (HIGH + DOWN), rest.split(" / ")
    yield f'<rect x="{x}" y="{y}" width="{WIDE}" height="{HIGH}" rx="8" fill="{SKY}" stroke="{BLUE}" stroke-width="1.5"/>'
    first = y + HIGH / 2 + 5 - 8.5 * len(lines)
    yield text(x + WIDE / 2, first, title, "middle", 15, font_weight="bold")
    for at, line in enumerate(lines, 1):
        yield text(x + WIDE / 2, first + 17 * at + 1, line, "middle")


def arrow(here, there, rest, both):
    """An arrow between boxes of one row, or of one column. Where there is one back too, the one to the right or down has the upper half."""
    lines = rest.split(" / ")
    (x1, y1), (x2, y2) = ((EDGE + column * (WIDE + ACROSS), EDGE + row * (HIGH + DOWN)) for column, row in (here, there))
    stroke = f'stroke="{LINE}" stroke-width="1.5" marker-end="url(#tip)"'
    if x1 == x2:
        start, end = (y1 + HIGH, y2) if y1 < y2 else (y1, y2 + HIGH)
        yield f'<path d="M{x1 + WIDE / 2:.0f},{start} V{end}" {stroke}/>'
        yield text(x1 + WIDE / 2 + 8, (start + end) / 2 + 4, " ".join(lines))
        return
    right = x1 < x2
    start, end = (x1 + WIDE, x2) if right else (x1, x2 + WIDE)
    y = y1 + HIGH / 2 + (0 if not both else -13 if right else 13)
    yield f'<path d="M{start},{y:.0f} H{end}" {stroke}/>'
    above = right or not both
    for at, line in enumerate(lines):
        yield text((start + end) / 2, y - 6 - 15 * (len(lines) - 1 - at) if above else y + 16 + 15 * at, line, "middle", 12)


def path(source):
    title, boxes, arrows, parts = "", {}, [], []
    for words, rest in lines_of(source):
        if words[0] == "path":
            title = rest
        elif words[0] == "box":
            boxes[words[1]] = int(words[2]), int(words[3])
            parts += box(*boxes[words[1]], rest)
        else:
            arrows.append((words[1], words[2], rest))
    ways = {way[:2] for way in arrows}
    for here, there, rest in arrows:
        parts += arrow(boxes[here], boxes[there], rest, (there, here) in ways)
    columns, rows = (max(place[axis] for place in boxes.values()) + 1 for axis in (0, 1))
    return picture(title, 2 * EDGE + columns * (WIDE + ACROSS) - ACROSS, 2 * EDGE + rows * (HIGH + DOWN) - DOWN, parts)


# A dial: sequences on a circle, two hands, the window, and what has a mark there.

CENTRE, ROUND, LEGEND = (170, 190), 120, 420


def dial(source):
    title, first, count, parts, legend = "", 0, 1, [], []
    place = lambda value, far: tuple(middle + far * turn(2 * math.pi * (value - first) / 2 / count) for middle, turn in zip(CENTRE, (math.sin, lambda angle: -math.cos(angle))))
    spot = lambda value, far: "{:.1f},{:.1f}".format(*place(value, far))
    for words, rest in lines_of(source):
        name, _, meaning = rest.partition(" | ")
        if words[0] == "dial":
            title = " ".join(words[1:])
            first, count = map(int, rest.split())
            parts.append(f'<circle cx="{CENTRE[0]}" cy="{CENTRE[1]}" r="{ROUND}" fill="{PALE}" stroke="{LINE}" stroke-width="1.5"/>')
            for value in range(first, first + 2 * count, 2):
                parts.append(f'<path d="M{spot(value, ROUND - 5)} L{spot(value, ROUND + 5)}" stroke="{LINE}"/>')
                x, y = place(value, ROUND - 19)
                parts.append(text(x, y + 4, str(value), "middle", 11))
            continue
        if words[0] == "window":
            low, high = int(words[1]), int(words[2])
            large = int((high - low) / 2 > count / 2)
            parts.insert(1, f'<path d="M{spot(low, ROUND + 13)} A{ROUND + 13},{ROUND + 13} 0 {large} 1 {spot(high, ROUND + 13)}" fill="none" stroke="{SKY}" stroke-width="14"/>')
            sign = f'<rect x="{LEGEND}" y="{{y}}" width="22" height="12" fill="{SKY}"/>'
        elif words[0] == "hand":
            colour = BLUE if words[1] == "write" else RED
            parts.append(f'<path d="M{CENTRE[0]},{CENTRE[1]} L{spot(int(words[2]), ROUND - 32)}" stroke="{colour}" stroke-width="4" stroke-linecap="round"/>')
            sign = f'<rect x="{LEGEND}" y="{{y4}}" width="22" height="4" rx="2" fill="{colour}"/>'
        elif words[0] == "goal":
            parts.append(f'<path d="M{spot(int(words[1]), ROUND + 2)} L{spot(int(words[1]), ROUND + 26)}" stroke="{INK}" stroke-width="3"/>')
            sign = f'<rect x="{LEGEND}" y="{{y4}}" width="22" height="3" fill="{INK}"/>'
        elif words[0] == "section":
            x, y = place(int(words[1]), ROUND + 13)
            parts.append(f'<circle cx="{x:.1f}" cy="{y:.1f}" r="7" fill="{GREEN}"/>')
            sign = f'<circle cx="{LEGEND + 11}" cy="{{y6}}" r="7" fill="{GREEN}"/>'
        else:
            legend.append(("", "", rest))
            continue
        if words[0] in ("goal", "section"):
            x, y = place(int(words[1]), ROUND + 32)
            parts.append(text(x, y + 4, name, "start" if x > CENTRE[0] else "end", 13, font_weight="bold"))
        legend.append((sign, name, meaning))
    y = 42
    for sign, name, meaning in legend:
        if name:
            parts += [sign.format(y=y - 11, y4=y - 7, y6=y - 5), text(LEGEND + 34, y, name, size=14, font_weight="bold"), text(LEGEND + 34, y + 17, meaning)]
        else:
            parts.append(text(LEGEND + 34, y, meaning))
        y += 46 if name else 22
    parts.append(f'<circle cx="{CENTRE[0]}" cy="{CENTRE[1]}" r="6" fill="{INK}"/>')
    return picture(title, LEGEND + 530, max(y, CENTRE[1] + ROUND + 60), parts)


# A chart: the rows of bench/README.md's table, each group on its own scale.

NAMES, BARS, ROW, GROUP = 150, 250, 26, 46


def groups(document):
    """The table's groups: what a round is, and each row's name with its two numbers."""
    found = []
    for row in re.findall(r"^\|(.*)\|$", document.partition("|by|1 thread|")[2], re.M):
        what, name, one, _, four, _ = row.split("|") if row.count("|") == 5 else ("", "", "", "", "", "")
        if what and not what.startswith("-"):
            found.append((what, []))
        if found and name:
            found[-1][1].append((name.replace("`", ""), [float(cell) if re.match(r"\d", cell) else None for cell in (one, four)]))
    return found


def panel(x, y, what, rows):
    """A group: its title, and under it two bars a row."""
    most = max((value for _, both in rows for value in both if value), default=1)
    unit = "" if re.search(r", ms$|^bytes", what) else ", ns"
    yield text(x, y + 18, what.replace("`", "") + unit, size=14, font_weight="bold")
    for at, (name, both) in enumerate(rows):
        top = y + 28 + at * ROW
        yield text(x + NAMES - 8, top + 15, name, "end", 13, **({"font_weight": "bold"} if name == "here" else {}))
        for value, down, colour in zip(both, (1, 12) if all(both) else (6, 6), ((BLUE, "#6ea3d8") if name == "here" else (LINE, GREY))):
            if value:
                long = max(1, BARS * value / most)
                yield f'<rect x="{x + NAMES}" y="{top + down}" width="{long:.0f}" height="10" fill="{colour}"/>'
                yield text(x + NAMES + long + 5, top + down + 9, f"{value:g}", size=10)


def chart(document):
    """Two columns of groups, about as long as each other, with what the shades mean at the head."""
    found = groups(document)
    high = lambda group: GROUP + ROW * len(group[1])
    width, ends, parts = NAMES + BARS + 60, [44, 44], []
    half = sum(map(high, found)) / 2
    for group in found:
        column = 0 if ends[0] - 44 + high(group) / 2 <= half and ends[1] == 44 else 1
        parts += panel(EDGE + column * (width + EDGE), ends[column], *group)
        ends[column] += high(group)
    head = [text(EDGE, 26, "Less is better. Each group has its own scale.")]
    for x, colours, what in ((400, (BLUE, LINE), "one thread"), (530, ("#6ea3d8", GREY), "four threads")):
        head += [f'<rect x="{x + 14 * at}" y="16" width="12" height="12" fill="{colour}"/>' for at, colour in enumerate(colours)] + [text(x + 34, 26, what)]
    return picture("bench/run's table", 3 * EDGE + 2 * width, max(ends) + 4, [*head, *parts])


# Each picture, by its path from the top, with its source and what draws it.
PICTURES = {
    "docs/pictures/item.svg": ("docs/pictures/item.txt", path),
    "docs/pictures/clock.svg": ("docs/pictures/clock.txt", dial),
    "bench/chart.svg": ("bench/README.md", chart),
}


def drawn(top, name):
    """The text of a picture."""
    source, draw = PICTURES[name]
    return draw((top / source).read_text())
