"""The layers with their crates, and a packet's way through them, as pictures. Used by draw_pictures."""
import os, re, sys
from collections import namedtuple

from pictures import Picture

TOP = os.path.dirname(os.path.dirname(os.path.dirname(os.path.realpath(__file__))))
CRATES = f"{TOP}/crates.txt"
PAGE = f"{TOP}/docs/ARCHITECTURE.md"
APART = "tests alone"  # crates of no layer
LETTER = 7.3  # the width of a letter of code

def layers():
    """The crates of each layer, lowest first, and what each of them uses."""
    found, crates = {}, None
    with open(CRATES, encoding="utf-8") as file:
        for line in file:
            if line.startswith("#"):
                crates = found.setdefault(line[1:].strip(), {})
            elif line.strip():
                name, _, uses = line.partition(":")
                crates[name] = uses.split()
    return {layer: crates for layer, crates in found.items() if crates}

def layer_of_each(of_layers):
    return {name: layer for layer, crates in of_layers.items() for name in crates}

def page():
    with open(PAGE, encoding="utf-8") as file:
        return file.read()

def wrapped(text, most):
    """The lines of a text, of at most that many letters."""
    lines = [""]
    for word in text.split():
        if len(lines[-1]) + len(word) >= most:
            lines.append("")
        lines[-1] = f"{lines[-1]} {word}".strip()
    return lines

def placed(names, left, right):
    """Rows of names from left to right, each with its place and width."""
    rows, x = [[]], left
    for name in names:
        width = len(name) * LETTER + 18
        if x + width > right:
            rows.append([])
            x = left
        rows[-1].append((name, x, width))
        x += width + 8
    return rows

def layers_picture():
    """A band for each layer, the lowest at the bottom."""
    of_layers = layers()
    home, meanings = layer_of_each(of_layers), dict(re.findall(r"\*\*(\w+)\*\*: ([^|]+?) \|", page()))
    if lacking := set(of_layers) - set(meanings) - {APART}:
        sys.exit(f"the crates in docs/ARCHITECTURE.md have no layer {', '.join(sorted(lacking))}")
    middle, width, line, row = 262, 900, 16, 32
    picture = Picture("The layers of the program and their crates, the lowest at the bottom", width, 0)
    y = 14
    for layer, crates in reversed(of_layers.items()):
        words, rows = wrapped(meanings.get(layer, ""), 36), placed(crates, middle, width - 14)
        uses = {home[it] for named in crates.values() for it in named if it in home} - {layer}
        if y > 14:
            picture.rule(14, y, width - 28, 0)
        picture.text(14, y + 24, layer, "head")
        for number, text in enumerate(words):
            picture.text(14, y + 42 + line * number, text, "faint")
        for number, names in enumerate(rows):
            for name, x, across in names:
                picture.bar(x, y + 9 + row * number, across, 24, "none rule")
                picture.text(x + 9, y + 25 + row * number, name, "code")
        told = f"uses {', '.join(it for it in of_layers if it in uses) or 'no other layer'}"
        picture.text(middle, y + 21 + row * len(rows), told, "faint")
        y += max(38 + line * len(words), 33 + row * len(rows))
    picture.height = y + 6
    return picture

# What happens to a packet: the crate and its function that does it, what it does, and what there is then. What has no
# function is beside the way of a UDP datagram.
Station = namedtuple("Station", "crate call words then")
WAY = [
    Station("pcap_input", "read_record", "the bytes of a record are read", "record"),
    Station("packet_decode", "decode_at", "its fields, or why it is skipped", "packet"),
    Station("frag3_core", None, "a fragment waits until its datagram is whole", None),
    Station("stream5_sessions", "touch", "its flow is found, or begins", None),
    Station("record_jobs", "add_flow_packet", "numbered, with the policy of each end", "job"),
    Station("flow_lanes", "run_all", "each lane does the jobs of its flows", None),
    Station("stream5_sessions", "session_step", "a session begins, goes on or ends", None),
    Station("stream5_reassembly", None, "a segment's bytes wait to be acknowledged", None),
    Station("flow_lanes", "try_packet", "what rules are tried on", "item"),
    Station("fast_pattern", "candidates", "ports, protocol, fast pattern", "candidates"),
    Station("header_eval", "header_matches", "header and fields", None),
    Station("option_eval", "payload_matches", "contents, numbers, expressions", "matches"),
    Station("ordered_merge", "merge", "the answers of all lanes, in order", None),
    Station("event_filters", "pass", "event queue, suppress, event filters", "events"),
    Station("alert_fast", "line", "time, rule, message, protocol, ends", "line"),
    Station("edge_io", "write_all", "some lines at once, to the output", "output"),
]

def steps():
    """The number of the step of each crate's function, in the page's first path."""
    path = page().partition("## The path of a packet")[2].partition("\n## ")[0].partition("\n### ")[2].partition("\n### ")[0]
    found = {}
    for step, row in re.findall(r"^\| (\d+) (\|.*)$", path, re.M):
        for crate, calls in re.findall(r"\[(\w+)/\w+\]\([^)]*\): ((?:`\w+`(?:, )?)+)", row):
            found.update({(crate, call): int(step) for call in re.findall(r"\w+", calls)})
    return found

def bent(places, row):
    """A line through places that keeps to a column until the last row before the next place."""
    line = []
    for place in places:
        if line and place[1] - line[-1][1] > row:
            line.append((line[-1][0], place[1] - row))
        line.append(place)
    return line

def packet_picture():
    """A column for each layer, a row for each station, and the packet's way from one to the next."""
    of_layers, found = layers(), steps()
    home = layer_of_each(of_layers)
    lacking = [it for it in WAY if it.crate not in home or it.call and (it.crate, it.call) not in found]
    if lacking:
        sys.exit(f"the path in docs/ARCHITECTURE.md has no {', '.join(f'{it.call} of {it.crate}' for it in lacking)}")
    columns = [it for it in of_layers if it in {home[station.crate] for station in WAY}]
    left, apart, top, row = 40, 65, 62, 30
    text = left + apart * len(columns) - 20
    title = "A packet's way through the layers, from its record to an alert line"
    picture = Picture(title, text + 550, top + row * len(WAY) + 4)
    places = [(left + apart * columns.index(home[it.crate]), top + row * number) for number, it in enumerate(WAY)]
    for number, layer in enumerate(columns):
        picture.text(left + apart * number, 28, layer, "mid")
        picture.rule(left + apart * number, 40, 0, picture.height - 54)
    for at, head in ((text, "step"), (text + 40, "function"), (text + 180, "what it does"), (text + 452, "makes")):
        picture.text(at, 28, head, "faint")
    for number, station in enumerate(WAY):
        if not station.call:
            picture.line(places[number - 1:number + 2], "l1")
    picture.line(bent([place for place, it in zip(places, WAY) if it.call], row), "l0")
    for (x, y), station in zip(places, WAY):
        picture.dot(x, y, 6, "s0" if station.call else "s1")
        step = found.get((station.crate, station.call))
        picture.text(text + 26, y + 4.5, str(step) if step else "", "end faint")
        picture.text(text + 40, y + 4.5, station.call or station.crate, "code")
        picture.text(text + 180, y + 4.5, station.words, "" if station.call else "faint")
        if station.then:
            picture.bar(text + 452, y - 11, 84, 22, "s0")
            picture.text(text + 494, y + 4.5, station.then, "mid on")
    return picture

PICTURES = {"layers": layers_picture, "packet": packet_picture}
