"""Time against rules and against lanes, as a picture. Used by speed, of what it measured, and by draw_pictures, of the page."""
import os, re

from pictures import Picture

TOP = os.path.dirname(os.path.dirname(os.path.dirname(os.path.realpath(__file__))))
PAGE = f"{TOP}/docs/SPEED.md"
LANES_RULES = 1000  # the number of rules with which lanes are compared
SCALES = [1, 2, 4, 8, 12, 20, 40, 80, 120, 200, 400, 800]  # what ends an axis of four steps
NUMBERS = {"one": 1, "two": 2, "four": 4, "eight": 8}

def cells(line):
    return [it.strip() for it in line.strip().strip("|").split("|")]

def number(text):
    """The number that a text begins with."""
    return float(re.match(r"[\d.,]+", text)[0].replace(",", ""))

def lanes_of(head):
    """The number of lanes that a column is about, or None."""
    found = re.fullmatch(r"(\w+) lanes?", head)
    return found and (NUMBERS.get(found[1].lower()) or int(found[1]))

def page_table():
    """Of each capture: the time of a packet by rules, and the seconds by lanes, as the page's first such table has them."""
    with open(PAGE, encoding="utf-8") as file:
        lines = iter(file.read().splitlines())
    heads = next(cells(it) for it in lines if it.startswith("| Capture | Rules |"))
    next(lines)
    packet = next(at for at, head in enumerate(heads) if head.startswith("A packet"))
    a_packet, seconds, kind = {}, {}, None
    for line in lines:
        if not line.startswith("|"):
            break
        row = cells(line)
        if row[0]:
            kind = re.match(r"`(\w+)`", row[0])[1]
            a_packet[kind] = {}
        rules = int(number(row[1]))
        a_packet[kind][rules] = number(row[packet])
        if rules == LANES_RULES:
            seconds[kind] = {lanes_of(head): number(row[at]) for at, head in enumerate(heads) if lanes_of(head)}
    return a_packet, seconds

def chart(picture, left, title, marks, lines, unit):
    """A panel: a line for each capture, over marks on the x axis."""
    top, width, height = 56, 330, 210
    greatest = max(max(values) for values in lines.values())
    most = next((it for it in SCALES if it >= greatest), greatest)
    picture.text(left, 28, title, "head")
    for step in range(5):
        y = top + height - height * step / 4
        picture.rule(left + 40, y, width, 0)
        picture.text(left + 34, y + 4, f"{most * step / 4:,.0f}" if most >= 100 else f"{most * step / 4:.3g}", "end faint")
    picture.text(left + 34, top - 10, unit, "end faint")
    x = lambda at: left + 60 + at * (width - 40) / max(1, len(marks) - 1)
    y = lambda value: top + height - height * value / most
    for at, mark in enumerate(marks):
        picture.text(x(at), top + height + 20, f"{mark:,}", "mid faint")
    for kind, (name, values) in enumerate(lines.items()):
        places = [(x(at), y(value)) for at, value in enumerate(values)]
        picture.line(places, f"l{kind}")
        for place in places:
            picture.dot(*place, 3.5, f"s{kind}")
        picture.bar(left + 44 + 84 * kind, top + height + 34, 12, 12, f"s{kind}")
        picture.text(left + 61 + 84 * kind, top + height + 44.5, name)

def speed_picture(a_packet, seconds):
    """The microseconds of a packet, by captures and rules; the seconds of a run, by captures and lanes."""
    picture = Picture("Time against rules, and against lanes", 800, 322)
    rules, lanes = (list(next(iter(it.values()))) for it in (a_packet, seconds))
    by_rules = {kind: list(times.values()) for kind, times in a_packet.items()}
    by_lanes = {kind: [time / times[1] for time in times.values()] for kind, times in seconds.items()}
    chart(picture, 14, "Time of a packet, by the number of rules", rules, by_rules, "µs")
    chart(picture, 414, f"Time with {LANES_RULES:,} rules, by lanes (one is 1)", lanes, by_lanes, "")
    return picture

PICTURES = {"speed": lambda: speed_picture(*page_table())}
