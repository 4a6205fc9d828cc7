"""Packets that are drawn: talks of all protocols in both versions, with what goes wrong in them. Used by verify.

A talk is a list of frames of Ethernet in the order in which they are sent, and says of each packet, datagram and stream what a
rule could be made of. Sources: RFC 791, 768, 792, 4443, 8200, 9293.
"""
import functools, ipaddress, struct
from collections import namedtuple

import packets

# What rules are tried on: kind is packet, fragment, datagram or stream. An end is an address and a port. `fields` are the
# header's, by the names of packets.py, and are empty for a stream.
Item = namedtuple("Item", "kind protocol source target data fields")
WORDS = [b"GET /", b"login", b"user=", b"eve", b"attack", b"id=", b"len=", b"\r\n", b" ", b"%2f", b"ab", b"aab", b"\0\1", b"\xff",
         b"120", b"0x1f", b"77", b"A", b"B", b"\0\0", b"secret"]
FIRST_NUMBERS = [0, 1000, 2**32 - 1, 2**32 - 3, 2**32 - 40, 2**31 - 2, 2**31 + 5]
FIN, SYN, RST, PSH, ACK, URG = 1, 2, 4, 8, 16, 32
address = functools.lru_cache(None)(ipaddress.ip_address)
CLIENTS = {4: ["10.0.0.1", "10.0.0.2", "198.51.100.7"], 6: ["2001:db8::1", "2001:db8:0:1::2", "fe80::1"]}
SERVERS = {4: ["10.0.0.2", "192.0.2.10", "192.0.2.20"], 6: ["2001:db8::2", "2001:db8::a:0:0:2"]}
PORTS = {"tcp": [80, 80, 21, 8080, 25], "udp": [53, 514, 69]}

def text(rng, size):
    """Bytes in which short words, letters and numbers come again and again."""
    out = bytearray()
    while len(out) < size:
        way = rng.random()
        if way < 0.5:
            out += rng.choice(WORDS)
        elif way < 0.75:
            out += bytes(rng.choice(b"abABc") for _ in range(rng.randint(1, 8)))
        elif way < 0.9:
            out += b"%d" % rng.choice((0, 7, 9, 12, 99, 120, 255, 256, 65535, rng.randrange(10**6)))
        else:
            out += rng.randbytes(rng.randint(1, 4))
    return bytes(out[:size])

def changed(rng, data):
    """The bytes with some of them others."""
    out = bytearray(data)
    for _ in range(rng.randint(1, 3) if out else 0):
        out[rng.randrange(len(out))] = rng.choice(b"abX\0")
    return bytes(out)

def reordered(rng, pieces):
    """Pieces as a network brings them: some twice, some in another order, rarely one not at all."""
    out = []
    for it in pieces:
        out += [it] * rng.choice((1,) * 14 + (2, 0))
    way = rng.random()
    if way < 0.15:
        return out[::-1]
    if way < 0.35:
        return rng.sample(out, len(out))
    for at in range(len(out) - 1):
        if rng.random() < 0.15:
            out[at], out[at + 1] = out[at + 1], out[at]
    return out

class Talks:
    """Talks of one case: their frames, and the items that rules are made of."""
    def __init__(self, rng):
        self.rng, self.items = rng, []

    def ends(self, protocol):
        version = 4 if self.rng.random() < 0.65 else 6
        client = address(self.rng.choice(CLIENTS[version])), self.rng.choice((1024, 1025, 40000, 1, 80))
        server = address(self.rng.choice(SERVERS[version])), self.rng.choice(PORTS[protocol])
        return client, server

    def head(self):
        """Fields of an IP header, most of them as they usually are."""
        rng = self.rng
        fields = {"ttl": rng.choice((64, 64, 64, 1, 2, 5, 128, 255)), "tos": rng.choice((0, 0, 0, 16, 255)),
                  "id": rng.choice((0, 1, 7, 65535, rng.randrange(65536)))}
        return {**fields, **({"df": True} if rng.random() < 0.2 else {}), **({"reserved": True} if rng.random() < 0.03 else {})}

    def packet(self, protocol, source, target, given, data):
        """The frame of a packet, which is noted as an item."""
        fields = {**self.head(), **given}
        self.items.append(Item("packet", protocol, source, target, data, fields))
        return self.varied(packets.frame(protocol, source, target, fields, data))

    def varied(self, frame):
        """A frame, some with options of IPv4 or an extension header of IPv6, with tags, with bytes after the packet."""
        way, kind, packet = self.rng.random(), frame[12:14], frame[14:]
        if way < 0.03 and kind == b"\x08\0":
            size = 4 * self.rng.randint(1, 10)
            head = bytes([packet[0] + size // 4, packet[1]]) + struct.pack(">H", struct.unpack_from(">H", packet, 2)[0] + size)
            head += packet[4:10] + b"\0\0" + packet[12:20] + b"\1" * size
            head = head[:10] + struct.pack(">H", packets.checksum(head)) + head[12:]
            return frame[:14] + head + packet[20:]
        if way < 0.06 and kind == b"\x86\xdd":
            size = 8 * self.rng.randint(1, 3)
            more = bytes([packet[6], size // 8 - 1, 1, size - 4]) + bytes(size - 4)
            head = packet[:4] + struct.pack(">H", len(packet) - 40 + size) + bytes([self.rng.choice((0, 60))]) + packet[7:40]
            return frame[:14] + head + more + packet[40:]
        if way < 0.08:
            return frame[:12] + b"\x81\0\0\5" * self.rng.randint(1, 2) + frame[12:]
        return frame + (bytes(self.rng.randint(1, 6)) if way < 0.12 else b"")

    # --- TCP

    def tcp(self):
        return Session(self).frames()

    # --- UDP, ICMP, others

    def udp(self):
        rng, frames = self.rng, []
        client, server = self.ends("udp")
        for _ in range(rng.choice((1, 2, 4, 8))):
            ways = (client, server) if rng.random() < 0.6 else (server, client)
            frames.append(self.packet("udp", *ways, {}, text(rng, rng.choice((0, 1, 5, 20, 60, 200)))))
        return frames

    def repeated(self):
        """The same datagram many times, for filters."""
        client, server = self.ends("udp")
        data = text(self.rng, self.rng.randint(4, 30))
        return [self.packet("udp", client, server, {}, data) for _ in range(self.rng.randint(3, 12))]

    def icmp(self):
        rng, frames = self.rng, []
        (client, _), (server, _) = self.ends("udp")
        for _ in range(rng.randint(1, 4)):
            given = {"type": rng.choice((0, 3, 8, 8, 11, 128, 129, 255)), "code": rng.choice((0, 0, 1, 3, 255)),
                     "icmp_id": rng.choice((0, 7, 65535)), "icmp_seq": rng.choice((0, 1, 65535))}
            frames.append(self.packet("icmp", (client, 0), (server, 0), given, text(rng, rng.choice((0, 8, 40)))))
        return frames

    def other(self):
        (client, _), (server, _) = self.ends("udp")
        given = {"protocol": self.rng.choice((2, 41, 47, 50, 103, 253, 255))}
        return [self.packet("ip", (client, 0), (server, 0), given, text(self.rng, self.rng.randint(0, 40)))]

    def passed_over(self):
        """A record without a readable packet."""
        rng = self.rng
        frame = packets.frame("udp", *self.ends("udp"), {}, text(rng, 20))
        spoiled = bytearray(frame)
        spoiled[rng.choice((14, 15, 16, 17, 18, 24, 38, 39, 40, 41))] ^= 1 << rng.randrange(8)
        return [rng.choice((b"", b"\0" * 13, frame[:rng.randrange(len(frame))], bytes(spoiled), bytes(spoiled),
                            bytes.fromhex("ffffffffffff0200000000010806") + bytes(28), frame[:12] + b"\x81\0\0\5" * 3 + frame[12:]))]

    # --- Fragments

    def fragments(self):
        """A datagram in fragments, some of which overlap, with other bytes where no checksum would notice."""
        rng = self.rng
        protocol = rng.choice(("udp", "udp", "ip", "ip", "tcp", "icmp"))
        client, server = self.ends(protocol if protocol in PORTS else "udp")
        if protocol not in PORTS:
            client, server = (client[0], 0), (server[0], 0)
        data, head = text(rng, rng.choice((9, 24, 50, 100, 300))), self.head()
        body = packets.transport(protocol, client, server, {"seq": 5, "ack": 1}, data)
        may_differ = protocol == "ip" or protocol == "udp" and client[0].version == 4
        if protocol == "udp" and client[0].version == 4:
            body = body[:6] + b"\0\0" + body[8:]
        number = {"udp": 17, "ip": 253, "tcp": 6, "icmp": 58 if client[0].version == 6 else 1}[protocol]
        pieces, at = [], 0
        while at < len(body):
            size = 8 * rng.choice((1, 1, 2, 3, 8))
            pieces.append((at, body[at:at + size]))
            at += size
        for _ in range(rng.choice((0, 1, 2, 4))):
            at, size = 8 * rng.randrange(len(body) // 8 + 1), 8 * rng.randint(1, 4)
            part = body[at:at + size]
            if part and (len(part) == size or at + len(part) == len(body)):
                pieces.insert(rng.randint(0, len(pieces)), (at, changed(rng, part) if may_differ and at >= 8 else part))
        self.items.append(Item("datagram", protocol, client, server, data, {**head, "protocol": number}))
        head.pop("df", None)
        return [self.fragment(client, server, {**head, "protocol": number}, it, len(body)) for it in reordered(rng, pieces)]

    def fragment(self, client, server, head, piece, end):
        at, part = piece
        given = {**head, "offset": at, **({"more": True} if at + len(part) < end else {})}
        self.items.append(Item("fragment", "ip", (client[0], 0), (server[0], 0), part, given))
        return packets.frame("ip", (client[0], 0), (server[0], 0), given, part)

class Session:
    """A TCP session, from how it begins to how it ends. Sides are 0, the client, and 1, the server."""
    def __init__(self, talks):
        self.talks, self.rng = talks, talks.rng
        self.ends = talks.ends("tcp")
        self.first = [self.rng.choice(FIRST_NUMBERS), self.rng.choice(FIRST_NUMBERS)]
        self.sent, self.out = [0, 0], []  # how many bytes each side has sent, after its SYN

    def send(self, side, flags, at=None, data=b""):
        """A segment of a side; `at` is the place of its data after the SYN, which is that of all that was sent by default."""
        at = self.sent[side] if at is None else at
        given = {"flags": flags, "seq": (self.first[side] + (0 if flags & SYN else 1 + at)) % 2**32,
                 "ack": (self.first[1 - side] + 1 + self.sent[1 - side]) % 2**32 if flags & ACK else 0,
                 "window": self.rng.choice((65535, 65535, 0, 1024))}
        self.out.append(self.talks.packet("tcp", self.ends[side], self.ends[1 - side], given, data))
        self.sent[side] = max(self.sent[side], at + len(data))

    def begin(self):
        way = self.rng.random()
        if way < 0.6:
            self.send(0, SYN, data=b"early" if self.rng.random() < 0.05 else b"")
            self.sent = [0, 0]
            self.send(1, SYN | ACK)
            self.send(0, ACK)
        elif way < 0.7:
            self.send(1, SYN | ACK)
            self.send(0, ACK)
        elif way < 0.75:
            self.send(0, SYN)
            self.send(1, SYN)
            self.send(0, SYN | ACK)
            self.send(1, ACK)
        elif way < 0.8:
            self.send(0, SYN)

    def pieces(self, data):
        """The segments of some data: places and bytes, and some that overlap with others, or begin before them."""
        rng, out, at = self.rng, [], 0
        while at < len(data):
            size = rng.choice((1, 2, 5, 20, 60, 400))
            out.append((at, data[at:at + size]))
            at += size
        for _ in range(rng.choice((0, 0, 1, 2, 4))):
            at, size = rng.randint(-2, len(data) - 1), rng.randint(1, 30)
            part = data[max(at, 0):at + size]
            out.insert(rng.randint(0, len(out)), (at, changed(rng, b"?" * -at + part)))
        return reordered(rng, out)

    def say(self, side):
        base, data = self.sent[side], text(self.rng, self.rng.choice((1, 6, 30, 100, 300, 1200)))
        self.talks.items.append(Item("stream", "tcp", self.ends[side], self.ends[1 - side], data, {}))
        for at, part in self.pieces(data)[:40]:
            flags = ACK | self.rng.choice((0, PSH, PSH, URG if self.rng.random() < 0.2 else 0))
            self.send(side, flags | (FIN if self.rng.random() < 0.01 else 0), base + at, part)
            if self.rng.random() < 0.3:
                self.send(1 - side, ACK)
        if self.rng.random() < 0.7:
            self.send(1 - side, ACK)

    def end(self):
        way = self.rng.random()
        if way < 0.45:
            self.send(0, FIN | ACK)
            self.sent[0] += 1
            self.send(1, FIN | ACK)
            self.sent[1] += 1
            self.send(0, ACK)
        elif way < 0.6:
            self.send(self.rng.randrange(2), self.rng.choice((RST, RST | ACK)))
        if self.rng.random() < 0.15:
            self.first = [self.rng.choice(FIRST_NUMBERS) for _ in range(2)]
            self.sent = [0, 0]
            self.begin()
            self.say(0)

    def frames(self):
        self.begin()
        for _ in range(self.rng.choice((1, 1, 2, 4))):
            self.say(0 if self.rng.random() < 0.6 else 1)
        self.end()
        return self.out

WAYS = [(Talks.tcp, 5), (Talks.udp, 4), (Talks.fragments, 4), (Talks.icmp, 1), (Talks.other, 1), (Talks.passed_over, 1),
        (Talks.repeated, 1)]

def drawn(rng, count):
    """That many talks as frames in the order in which they come, and the items of all."""
    talks = Talks(rng)
    ways, weights = zip(*WAYS)
    live = [frames for way in rng.choices(ways, weights, k=count) if (frames := way(talks))]
    out, places = [], [0] * len(live)
    while live:
        at = rng.randrange(len(live))
        out.append(live[at][places[at]])
        places[at] += 1
        if places[at] == len(live[at]):
            del live[at], places[at]
    return out, talks.items
