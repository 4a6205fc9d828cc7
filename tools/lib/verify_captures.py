"""Records, and the captures that they make: each form that the detector reads. Used by verify.

Sources: docs/manual/captures.md and pcapng.md; the pcapng specification (draft-ietf-opsawg-pcapng), sections 3 and 4.
"""
import struct
from collections import namedtuple

# The moment is in nanoseconds since 1970; `wire` is how many bytes were on the wire, of which `data` were captured.
Record = namedtuple("Record", "moment link data wire")
MICRO, NANO = 0xA1B2C3D4, 0xA1B23C4D
SECTION, INTERFACE, SIMPLE, NAMES, STATISTICS, ENHANCED, CUSTOM = 0x0A0D0D0A, 1, 3, 4, 5, 6, 0xBAD
MAGIC = 0x1A2B3C4D
ETHERNET, RAW, COOKED = 1, 101, 113
LONGEST, NO_LIMIT = 262144, 1 << 62

class Unreadable(Exception):
    """Why a file gives no records."""

def record(moment, link, data, wire=None):
    return Record(moment, link, data, len(data) if wire is None else wire)

# --- Reading

def exactly(file, size):
    data = file.read(size)
    if len(data) < size:
        raise EOFError
    return data

def classic_records(file, head):
    order = "<" if head[:4] in (struct.pack("<I", MICRO), struct.pack("<I", NANO)) else ">"
    magic, link = struct.unpack(order + "I16xI", head)
    scale = 1000 if magic == MICRO else 1
    while True:
        second, part, size, wire = struct.unpack(order + "4I", exactly(file, 16))
        if size > LONGEST:
            raise Unreadable(f"a record has {size} bytes")
        yield record(second * 10**9 + part * scale, link, exactly(file, size), wire)

def resolution(options, order):
    """How many parts of a second an interface counts, by its options."""
    at = 0
    while at + 4 <= len(options):
        code, size = struct.unpack_from(order + "HH", options, at)
        if code == 0:
            break
        if code == 9 and size == 1:
            exponent = options[at + 4]
            return 2 ** (exponent & 127) if exponent & 128 else 10 ** exponent
        at += 4 + size + -size % 4
    return 10**6

def block_records(file, head):
    """The records of the blocks of a pcapng file, of which the first bytes were read."""
    order, links, before, moment = "<", [], head, 0
    def taken(size):
        nonlocal before
        data, before = before[:size], before[size:]
        return data + exactly(file, size - len(data))
    while True:
        start = taken(8)
        if start[:4] == struct.pack("<I", SECTION):
            magic = taken(4)
            order, links = "<" if magic == struct.pack("<I", MAGIC) else ">", []
            start += magic
        kind, length = struct.unpack(order + "II", start[:8])
        if length < 12 or length % 4 or length > 1 << 26:
            raise Unreadable("a block has a wrong length")
        body = taken(length - len(start))[:-4]
        if kind == INTERFACE:
            links.append((*struct.unpack_from(order + "HxxI", body), resolution(body[8:], order)))
        elif kind == ENHANCED:
            at, upper, lower, size, wire = struct.unpack_from(order + "5I", body)
            link, _, parts = links[at]
            if size > min(LONGEST, len(body) - 20):
                raise Unreadable(f"a record has {size} bytes")
            moment = (upper << 32 | lower) * 10**9 // parts
            yield record(moment, link, body[20:20 + size], wire)
        elif kind == SIMPLE:
            wire, = struct.unpack_from(order + "I", body)
            link, snap, _ = links[0]
            yield record(moment, link, body[4:4 + min(wire, snap or wire)], wire)

def read(path, most):
    """The first records of a file, at most that many; a last one that is cut off is left out."""
    out = []
    with open(path, "rb") as file:
        head = file.read(24)
        classic = [struct.pack(order + "I", magic) for order in "<>" for magic in (MICRO, NANO)]
        if len(head) < 24 or head[:4] not in (*classic, struct.pack("<I", SECTION)):
            raise Unreadable("neither a pcap file nor a pcapng file")
        records = classic_records(file, head) if head[:4] in classic else block_records(file, head)
        try:
            while len(out) < most:
                out.append(next(records))
        except EOFError:
            pass
        except (struct.error, IndexError):
            raise Unreadable("a block contradicts itself") from None
    return out

# --- Writing: a capture's bytes, and where each of its records or blocks ends

def pcap(records, order="<", is_nano=False, is_carried=False, snap=262144):
    """A classic file. Where `is_carried`, a second of each moment is put into its part below a second, if it has room."""
    out = [struct.pack(order + "IHHiIII", NANO if is_nano else MICRO, 2, 4, 0, 0, snap, records[0].link if records else ETHERNET)]
    for it in records:
        second, part = divmod(it.moment if is_nano else it.moment // 1000, 10**9 if is_nano else 10**6)
        if is_carried and second and part + (10**9 if is_nano else 10**6) < 2**32:
            second, part = second - 1, part + (10**9 if is_nano else 10**6)
        out.append(struct.pack(order + "4I", second, part, len(it.data), it.wire) + it.data)
    return b"".join(out)

def block(order, kind, body):
    body += bytes(-len(body) % 4)
    return struct.pack(order + "II", kind, 12 + len(body)) + body + struct.pack(order + "I", 12 + len(body))

def option(order, code, value):
    return struct.pack(order + "HH", code, len(value)) + value + bytes(-len(value) % 4)

def resolutions(moments):
    """The resolutions in which each of these moments is a whole number of 64 bits: the byte of the option, and its parts."""
    for exponent in (6, 9, 3, 0, 7, 10, 12, 128 + 10, 128 + 30):
        parts = 2 ** (exponent & 127) if exponent & 128 else 10 ** exponent
        if all(it * parts % 10**9 == 0 and it * parts // 10**9 < 2**64 for it in moments):
            yield exponent, parts

class Blocks:
    """A pcapng file as it grows: its bytes, the ends of its blocks, and which of these are records."""
    def __init__(self, rng):
        self.rng, self.out, self.ends, self.of_records, self.size = rng, [], [], [], 0

    def add(self, data, is_record=False):
        self.out.append(data)
        self.size += len(data)
        self.ends.append(self.size)
        if is_record:
            self.of_records.append(self.size)

    def passed_over(self, order):
        """A block that is no record."""
        kind = self.rng.choice((NAMES, STATISTICS, CUSTOM, 10, 0x40000001))
        self.add(block(order, kind, self.rng.randbytes(4 * self.rng.randint(2, 12))))

    def section(self, records, moment):
        """A section with these records, after a record of that moment; its form is drawn."""
        rng, order = self.rng, self.rng.choice("<>")
        comment = rng.choice((b"", option(order, 1, b"a comment") + option(order, 0, b"")))
        self.add(block(order, SECTION, struct.pack(order + "IHHq", MAGIC, 1, 0, -1) + comment))
        fit = list(resolutions([it.moment for it in records]))
        links = sorted({it.link for it in records} or {ETHERNET}, key=lambda _: rng.random())
        faces = [(rng.choice(links), *rng.choice(fit)) for _ in range(rng.choice((0, 0, 1, 3)))]
        faces += [(it, *rng.choice(fit)) for it in links]
        for link, exponent, _ in faces:
            options = b"" if exponent == 6 and rng.random() < 0.5 else option(order, 9, bytes([exponent]))
            options += option(order, 14, rng.randbytes(8)) if rng.random() < 0.2 else b""  # if_tsoffset, which is ignored
            options += option(order, 2, b"eth0") if rng.random() < 0.3 else b""
            self.add(block(order, INTERFACE, struct.pack(order + "HHI", link, 0, 0) + options
                           + (option(order, 0, b"") if options else b"")))
        for it in records:
            if rng.random() < 0.1:
                self.passed_over(order)
            if it.link == faces[0][0] and it.moment == moment and it.wire == len(it.data) and rng.random() < 0.5:
                self.add(block(order, SIMPLE, struct.pack(order + "I", it.wire) + it.data), True)
                continue
            at = rng.choice([at for at, face in enumerate(faces) if face[0] == it.link])
            ticks, moment = it.moment * faces[at][2] // 10**9, it.moment
            head = struct.pack(order + "5I", at, ticks >> 32, ticks & 0xFFFFFFFF, len(it.data), it.wire)
            more = option(order, 1, b"seen") + option(order, 0, b"") if rng.random() < 0.1 else b""
            self.add(block(order, ENHANCED, head + it.data + bytes(-len(it.data) % 4) + more), True)
        return moment

def pcapng(records, rng):
    """A pcapng file of the records, with one to three sections, of which each thing that changes nothing is drawn."""
    made, moment = Blocks(rng), None
    places = sorted(rng.randint(0, len(records)) for _ in range(rng.choice((0, 0, 1, 2))))
    for begin, end in zip([0, *places], [*places, len(records)]):
        moment = made.section(records[begin:end], moment)
    return b"".join(made.out), made.ends, made.of_records
