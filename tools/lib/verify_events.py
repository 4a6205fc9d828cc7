"""Events as lines and as Unified2 records tell them, and what `--read-unified2` shows of records. Used by verify.

The forms are those of docs/manual/events.md and docs/manual/unified2.md.
"""
import ipaddress, re, struct, time
from collections import namedtuple

from verify_bench import BAD_CAPTURE, DONE, End, difference

Event = namedtuple("Event", "moment gid sid rev text priority protocol source sport target dport")  # ports: None where none
LINE = re.compile(rb"(\d\d/\d\d-\d\d:\d\d:\d\d\.\d{6})  \[\*\*\] \[(\d+):(\d+):(\d+)\] (?:.*) \[\*\*\] "
                  rb"(?:\[Classification: (.*)\] )?\[Priority: (\d+)\] \{(TCP|UDP|ICMP|PROTO:\d{3})\} (\S+) -> (\S+)\n", re.S)
CLASS = re.compile(rb"config\s+classification\s*:\s*([^,]*?)\s*,\s*([^,]*?)\s*,")
PROTOCOLS = {b"ICMP": 1, b"TCP": 6, b"UDP": 17}
EVENT, EVENT6, PACKET = 7, 72, 2
FIELDS = {EVENT: struct.Struct(">9I4s4s2H4B"), EVENT6: struct.Struct(">9I16s16s2H4B")}
PACKET_FIELDS = struct.Struct(">7I")

def end_of(text, has_port):
    """The address and the port of an end of a line."""
    name, _, port = text.rpartition(b":") if has_port else (text, b"", None)
    return ipaddress.ip_address(name.decode()), int(port) if has_port else None

def of_line(line, has_ports):
    """The event that a line tells, whose ends have ports or not, or None."""
    found = LINE.fullmatch(line)
    if not found:
        return None
    try:
        protocol = PROTOCOLS.get(found[7]) or int(found[7][6:])
        source, target = (end_of(it, has_ports) for it in (found[8], found[9]))
    except ValueError:
        return None
    return Event(found[1], *map(int, found.group(2, 3, 4)), found[5], int(found[6]), protocol, *source, *target)

def records_of(data):
    """The records of a file, each as where it begins, its kind and its body; None in the end where one isn't whole."""
    at, out = 0, []
    while at < len(data):
        if at + 8 > len(data):
            return out + [None]
        kind, length = struct.unpack_from(">II", data, at)
        if at + 8 + length > len(data):
            return out + [None]
        out.append((at, kind, data[at + 8:at + 8 + length]))
        at += 8 + length
    return out

def classes_of(lines):
    """The texts of the classes of a configuration, in the order of their first lines."""
    texts = {}
    for it in lines:
        if found := CLASS.match(it):
            texts.setdefault(found[1], found[2])
    return list(texts.values())

def tells_the_same(lines, data, case):
    """What the records tell else than the lines, or None."""
    lines, records, classes = lines.splitlines(True), records_of(data), classes_of(case.lines)
    if len(records) != 2 * len(lines) or None in records:
        return f"{len(records)} Unified2 records for {len(lines)} lines"
    frames = {}
    for it in case.records:
        frames.setdefault((it.moment // 10**9, it.moment % 10**9 // 1000), set()).add((it.link, it.data))
    for number, line in enumerate(lines, 1):
        (_, kind, body), (_, also, packet) = records[2 * number - 2:2 * number]
        if kind not in FIELDS or also != PACKET or len(body) != FIELDS[kind].size or len(packet) < PACKET_FIELDS.size:
            return f"event {number}: kinds {kind} and {also}, {len(body)} and {len(packet)} bytes"
        if what := another_event(number, line, FIELDS[kind].unpack(body), classes) or another_packet(number, body, packet, frames):
            return f"event {number}: {what}; the line {line[:200]!r}"

def another_event(number, line, fields, classes):
    """What an event's fields tell else than its line, or None. A line may or may not have ports, where these are both 0."""
    sensor, ident, second, micro, sid, gid, rev, place, priority, source, target, sport, dport, protocol, *rest = fields
    if sensor or ident != number % 2**32 or any(rest):
        return f"sensor {sensor}, number {ident}, flags {rest}"
    text = classes[place - 1] if 0 < place <= len(classes) else None
    moment = time.strftime("%m/%d-%H:%M:%S", time.gmtime(second)).encode() + b".%06d" % micro
    for ports in ((sport, dport), (None, None)):
        event = Event(moment, gid, sid, rev, text, priority, protocol, ipaddress.ip_address(source), ports[0],
                      ipaddress.ip_address(target), ports[1])
        if event == of_line(line, ports != (None, None)) and (ports[0] is not None or protocol not in (6, 17) or not sport | dport):
            return None
    return f"the record tells {event}"

def another_packet(number, body, packet, frames):
    """What is wrong with the packet after an event, or None: it is a record of the capture, with the event's moment."""
    sensor, ident, of_event, second, micro, link, size = PACKET_FIELDS.unpack_from(packet)
    data, moment = packet[PACKET_FIELDS.size:], struct.unpack_from(">II", body, 8)
    if (sensor, ident, of_event, size) != (0, number % 2**32, moment[0], len(data)) or (second, micro) != moment:
        return f"its packet has number {ident}, moment {second}.{micro:06}, {size} bytes"
    return None if (link, data) in frames.get(moment, ()) else "its packet is no record with its moment"

def address_text(data):
    """An address as RFC 5952 has it (sections 4.1 to 4.3), without a dotted ending."""
    if len(data) == 4:
        return ".".join(map(str, data))
    groups = [f"{it:x}" for it in struct.unpack(">8H", data)]
    runs = [(at, end) for at in range(8) for end in range(at + 2, 9) if set(groups[at:end]) == {"0"}]
    if not runs:
        return ":".join(groups)
    at, end = max(runs, key=lambda it: (it[1] - it[0], -it[0]))
    return ":".join(groups[:at]) + "::" + ":".join(groups[end:])

def shown(records):
    """The lines that `--read-unified2` shows of records."""
    for _, kind, body in records:
        if kind in FIELDS:
            _, ident, second, micro, sid, gid, rev, _, _, source, target, sport, dport, *_ = FIELDS[kind].unpack(body)
            ends = f"{address_text(source)}:{sport} -> {address_text(target)}:{dport}"
            yield f"event {ident} [{gid}:{sid}:{rev}] {second}.{micro:06} {ends}\n"
        elif kind == PACKET:
            _, ident, _, _, _, _, size = PACKET_FIELDS.unpack_from(body)
            yield f"packet {ident} {size} bytes\n"
        else:
            yield f"other {kind} {len(body)} bytes\n"

def shows_records(data, bench, rng):
    """The comparisons of `--read-unified2` on the whole file and on beginnings of it, at records and within one."""
    records = records_of(data)
    if None in records:
        return
    lines = "".join(shown(records))
    yield difference(bench.run(["--read-unified2", bench.write("events", data)]), End(DONE, lines.encode(), b""))
    if not records:
        return
    for at in rng.sample(range(len(records)), min(len(records), 2)):
        begin = records[at][0]
        wanted = End(DONE, "".join(lines.splitlines(True)[:at]).encode(), b"")
        yield difference(bench.run(["--read-unified2", bench.write(f"events{begin}", data[:begin])]), wanted)
        end = begin + 1 + rng.randrange(7 + len(records[at][2]))
        wanted = End(BAD_CAPTURE, b"", b"ERROR: unified2 file is bad at byte %d\n" % begin)
        yield difference(bench.run(["--read-unified2", bench.write(f"events{end}", data[:end])]), wanted)
