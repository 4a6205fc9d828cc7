"""The records of a capture, as the program reads them: classic pcap files and pcapng, packed or not. Used by alerts and carve.

What is read, and the messages of what isn't, are those of docs/manual/captures.md and docs/manual/pcapng.md.
"""
import contextlib, os, shutil, struct, tempfile
from collections import namedtuple

import captures, packet_heads

# The number counts from 1, as Wireshark's does; the moment is in nanoseconds since 1970.
Record = namedtuple("Record", "number moment link data")
# Bytes of the file, and the record that they are; None for what isn't one: the head of a file, and blocks without a packet.
Piece = namedtuple("Piece", "raw record")
MAGICS = {b"\xd4\xc3\xb2\xa1": ("<", 1000), b"\xa1\xb2\xc3\xd4": (">", 1000),
          b"\x4d\x3c\xb2\xa1": ("<", 1), b"\xa1\xb2\x3c\x4d": (">", 1)}
SECTION, ORDERS = b"\x0a\x0d\x0d\x0a", {b"\x4d\x3c\x2b\x1a": "<", b"\x1a\x2b\x3c\x4d": ">"}
INTERFACE, SIMPLE, ENHANCED = 1, 3, 6
LEAST = {SECTION: 28, INTERFACE: 20, SIMPLE: 16, ENHANCED: 32}
MOST_INTERFACES, MOST_BYTES, LONGEST_HELD, LAST_MOMENT = 4096, 262144, 1048576, 2**64

class Wrong(Exception):
    """A file that is no capture, or that ends being one, with the program's words for it."""

def opened(name, tell=lambda fault: None):
    """The file of this name; one that is packed, or can't be read twice, as a pipe, is copied to a file of no name.

    Where packed bytes are damaged, `tell` hears of it, and what could be unpacked is read. captures.Fault: none could be.
    """
    file, is_file = open(name, "rb"), os.path.isfile(name)
    if is_file and file.seekable() and not captures.packer_of(file.peek(8)[:8]):
        return file
    copy = tempfile.TemporaryFile()
    with file, captures.Opened(name) if is_file else contextlib.nullcontext() as unpacked:
        shutil.copyfileobj(unpacked.file if unpacked else file, copy)
        if unpacked and (damage := unpacked.damage()):
            tell(f"{captures.shown(name)} {damage}")
    copy.seek(0)
    return copy

def pieces(file):
    """All pieces of a capture; Wrong at the first that the program refuses."""
    file.seek(0)
    head = file.read(24)
    if len(head) < 24:
        raise Wrong("capture is truncated at byte 0")
    if head[:4] in MAGICS and struct.unpack_from(MAGICS[head[:4]][0] + "H", head, 4)[0] == 2:
        return of_classic(file, head)
    if head[:4] == SECTION and head[8:12] in ORDERS:
        return Sections(file).pieces()
    raise Wrong("capture is not a pcap file")

def check_link(link):
    if link not in packet_heads.LINKS:
        raise Wrong(f"capture has link type {link}")

def check_length(length, at):
    if length > MOST_BYTES:
        raise Wrong(f"capture has a record of {length} bytes at byte {at}")

def of_classic(file, head):
    order, unit = MAGICS[head[:4]]
    link = struct.unpack_from(order + "I", head, 20)[0] & 0xFFFF
    check_link(link)
    yield Piece(head, None)
    fields, at, number = struct.Struct(order + "4I"), 24, 0
    while front := file.read(16):
        if len(front) < 16:
            raise Wrong(f"capture is truncated at byte {at}")
        second, fraction, length, _ = fields.unpack(front)
        check_length(length, at)
        data = file.read(length)
        if len(data) < length:
            raise Wrong(f"capture is truncated at byte {at}")
        number, at = number + 1, at + 16 + length
        yield Piece(front + data, Record(number, second * 10**9 + fraction * unit, link, data))

class Sections:
    """A pcapng file: the byte order and the interfaces of its section, and the moment of the record before."""
    def __init__(self, file):
        self.file, self.order, self.interfaces, self.number, self.moment = file, "<", [], 0, 0
        self.size = os.fstat(file.fileno()).st_size

    def pieces(self):
        at = 0
        while at < self.size:
            raw = self.block(at)
            at += len(raw)
            yield self.piece(raw, at - len(raw))

    def bad(self, at):
        return Wrong(f"capture has a bad block at byte {at}")

    def number_at(self, raw, at, form="I"):
        return struct.unpack_from(self.order + form, raw, at)[0]

    def block(self, at):
        """The bytes of the block at a place, whose two lengths are alike."""
        self.file.seek(at)
        front = self.file.read(12)
        is_section = front[:4] == SECTION
        if len(front) < (12 if is_section else 8):
            raise Wrong(f"capture is truncated at byte {at}")
        if is_section:
            if front[8:12] not in ORDERS:
                raise self.bad(at)
            self.order = ORDERS[front[8:12]]
        kind, length = SECTION if is_section else self.number_at(front, 0), self.number_at(front, 4)
        if length % 4 or length < LEAST.get(kind, 12) or kind in (SECTION, INTERFACE) and length > LONGEST_HELD:
            raise self.bad(at)
        self.check_front(kind, front, length, at)
        if at + length > self.size:
            raise Wrong(f"capture is truncated at byte {at}")
        self.file.seek(at)
        raw = self.file.read(length)
        if self.number_at(raw, length - 4) != length:
            raise self.bad(at)
        return raw

    def check_front(self, kind, front, length, at):
        """Faults that the program sees before it looks whether the block is whole."""
        least = LEAST.get(kind)
        if least is None:
            return
        front += self.file.read(least - 4 - len(front))
        if len(front) < least - 4:
            raise Wrong(f"capture is truncated at byte {at}")
        if kind == SECTION and self.number_at(front, 12, "H") != 1 or \
                kind == INTERFACE and len(self.interfaces) >= MOST_INTERFACES:
            raise self.bad(at)
        if kind in (SIMPLE, ENHANCED):
            place = self.number_at(front, 8) if kind == ENHANCED else 0
            if place >= len(self.interfaces):
                raise self.bad(at)
            check_link(self.interfaces[place][0])
            size = self.captured(kind, front)
            check_length(size, at)
            if size > length - least or kind == ENHANCED and self.moment_of(front) >= LAST_MOMENT:
                raise self.bad(at)

    def captured(self, kind, raw):
        """How many bytes of a packet the block has."""
        if kind == ENHANCED:
            return self.number_at(raw, 20)
        snap, size = self.interfaces[0][1], self.number_at(raw, 8)
        return min(size, snap) if snap else size

    def moment_of(self, raw):
        ticks = self.number_at(raw, 12) << 32 | self.number_at(raw, 16)
        return ticks * 10**9 // self.interfaces[self.number_at(raw, 8)][2]

    def piece(self, raw, at):
        """What a whole block is; a simple packet becomes an enhanced one, since it has no moment of its own."""
        if raw[:4] == SECTION:
            self.interfaces = []
            return Piece(raw, None)
        kind = self.number_at(raw, 0)
        if kind == INTERFACE:
            self.interfaces.append((self.number_at(raw, 8, "H"), self.number_at(raw, 12), self.per_second(raw, at)))
        if kind not in (SIMPLE, ENHANCED):
            return Piece(raw, None)
        self.number += 1
        size = self.captured(kind, raw)
        if kind == ENHANCED:
            self.moment = self.moment_of(raw)
            link = self.interfaces[self.number_at(raw, 8)][0]
            return Piece(raw, Record(self.number, self.moment, link, raw[28:28 + size]))
        return Piece(self.enhanced(raw, size), Record(self.number, self.moment, self.interfaces[0][0], raw[12:12 + size]))

    def enhanced(self, raw, size):
        data, ticks = raw[12:-4], self.moment * self.interfaces[0][2] // 10**9
        length = 32 + len(data)
        return struct.pack(self.order + "7I", ENHANCED, length, 0, ticks >> 32 & 0xFFFFFFFF, ticks & 0xFFFFFFFF, size,
                           self.number_at(raw, 8)) + data + struct.pack(self.order + "I", length)

    def per_second(self, raw, at):
        """How many ticks a second has, by the last if_tsresol among an interface's options."""
        found, begin, stop = 10**6, 16, len(raw) - 4
        while begin < stop:
            code, size = (self.number_at(raw, begin + it, "H") for it in (0, 2))
            if code == 0:
                break
            begin += 4
            if begin + size > stop:
                raise self.bad(at)
            if code == 9:
                found = self.resolution(raw[begin:begin + size], at)
            begin += size + -size % 4
        return found

    def resolution(self, value, at):
        if len(value) != 1 or 19 < value[0] < 128 or value[0] > 191:
            raise self.bad(at)
        return 10**value[0] if value[0] < 128 else 2**(value[0] - 128)

def first_moment(name):
    """The moment of the first record of a capture; OSError, captures.Fault or Wrong where there is none."""
    with opened(name) as file:
        record = next((it.record for it in pieces(file) if it.record), None)
    if record is None:
        raise Wrong("capture has no record")
    return record.moment
